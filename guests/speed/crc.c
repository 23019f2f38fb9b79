/* The cyclic redundancy check CRC-32 of 131,072 bytes, bit by bit: shifts, exclusive ors and branches. */
#include "speed.h"

enum { LENGTH = 131072 };

static uint32_t round_of(uint32_t sum) {
    sum = ~sum;
    for (uint32_t i = 0; i < LENGTH; i++) {
        sum ^= i & 255;
        for (int bit = 0; bit < 8; bit++) {
            sum = sum & 1 ? sum >> 1 ^ 0xedb88320 : sum >> 1;
        }
    }
    return ~sum;
}
