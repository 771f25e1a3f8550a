/* random.h: the random numbers of tests, by xorshift: the same for the same seed. */
#ifndef RANDOM_H
#define RANDOM_H
#include <stdint.h>

static uint64_t seed = 88172645463325253u;

static inline uint32_t below(uint32_t limit) {
    seed ^= seed << 13, seed ^= seed >> 7, seed ^= seed << 17;
    return (uint32_t)((seed >> 32) * limit >> 32);
}
#endif
