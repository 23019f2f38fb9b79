/* What the programs of the speed table share. */
#ifndef SPEED_H
#define SPEED_H
#include "../live.h"

/* Begins a new gap: a guest that runs 50,000,000 instructions without a call of the outside is trapped. */
static void rest(void) {
    uint64_t now;
    clock_time_get(1, 1, &now);
}

/* The work of one round, some ten million instructions, given what the rounds before it came to. */
static uint32_t round_of(uint32_t sum);

static uint32_t result;

/* Prints what all rounds came to, in hexadecimal. */
EXPORT("_start") void start(void) {
    static char line[9] = "????????\n";
    for (int i = 0; i < ROUNDS; i++) {
        result = round_of(result);
        rest();
    }
    for (int i = 0; i < 8; i++) {
        line[i] = "0123456789abcdef"[result >> (28 - 4 * i) & 15];
    }
    iovec all = {line, sizeof line};
    uint32_t count;
    fd_write(1, &all, 1, &count);
}

/* The same, for an interpreter that has no call to print by. */
EXPORT("result") uint32_t result_of(void) {
    return result;
}

#endif
