/* The product of two matrices of 96 times 96 words: loads, products and sums in three loops. */
#include "speed.h"

enum { SIZE = 96 };
static uint32_t left[SIZE][SIZE], right[SIZE][SIZE];

static uint32_t round_of(uint32_t sum) {
    for (uint32_t i = 0; i < SIZE; i++) {
        for (uint32_t j = 0; j < SIZE; j++) {
            left[i][j] = sum + i * j;
            right[i][j] = i ^ j;
        }
    }
    for (uint32_t i = 0; i < SIZE; i++) {
        for (uint32_t j = 0; j < SIZE; j++) {
            uint32_t product = 0;
            for (uint32_t k = 0; k < SIZE; k++) {
                product += left[i][k] * right[k][j];
            }
            sum = sum * 31 + product;
        }
    }
    return sum;
}
