/* The 25th number of Fibonacci by recursion: calls and returns. */
#include "speed.h"

__attribute__((noinline)) static uint32_t fib(uint32_t n) {
    if (n < 2) {
        return n;
    }
    return fib(n - 1) + fib(n - 2);
}

/* So that each round does the work again. */
static volatile uint32_t which = 25;

static uint32_t round_of(uint32_t sum) {
    return sum + fib(which);
}
