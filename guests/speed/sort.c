/* A heap sort of 16,384 numbers of 64 bits: comparisons, branches and exchanges. */
#include "speed.h"

enum { LENGTH = 16384 };
static uint64_t numbers[LENGTH];

/* Lets a number sink until it is no less than those below it. */
static void sink(uint32_t place, uint32_t end) {
    uint64_t sunk = numbers[place];
    for (uint32_t below; (below = 2 * place + 1) < end; place = below) {
        if (below + 1 < end && numbers[below] < numbers[below + 1]) {
            below++;
        }
        if (numbers[below] <= sunk) {
            break;
        }
        numbers[place] = numbers[below];
    }
    numbers[place] = sunk;
}

static uint32_t round_of(uint32_t sum) {
    uint64_t chance = sum;
    for (uint32_t i = 0; i < LENGTH; i++) {
        chance = chance * 6364136223846793005 + 1442695040888963407;
        numbers[i] = chance;
    }
    for (uint32_t place = LENGTH / 2; place-- > 0;) {
        sink(place, LENGTH);
    }
    for (uint32_t end = LENGTH; end-- > 1;) {
        uint64_t most = numbers[0];
        numbers[0] = numbers[end];
        numbers[end] = most;
        sink(0, end);
    }
    for (uint32_t i = 0; i < LENGTH; i++) {
        sum = sum * 31 + (uint32_t)(numbers[i] >> 32);
    }
    return sum;
}
