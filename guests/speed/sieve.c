/* The primes below 262,144 by the sieve of Eratosthenes: loads and stores of bytes. */
#include "speed.h"

enum { LIMIT = 262144 };
static uint8_t crossed[LIMIT];

static uint32_t round_of(uint32_t sum) {
    for (uint32_t i = 0; i < LIMIT; i++) {
        crossed[i] = 0;
    }
    for (uint32_t i = 2; i < LIMIT; i++) {
        if (crossed[i]) {
            continue;
        }
        sum++;
        for (uint32_t j = i + i; j < LIMIT; j += i) {
            crossed[j] = 1;
        }
    }
    return sum;
}
