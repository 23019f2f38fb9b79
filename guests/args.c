/* Prints its arguments, one a line with its number. */
#include <stdio.h>

int main(int argc, char **argv) {
    for (int i = 0; i < argc; i++) {
        printf("%d %s\n", i, argv[i]);
    }
    return 0;
}
