/* Numbers that look random and are the same in every run. */
#ifndef RANDOM_H
#define RANDOM_H

#include <stdint.h>

static uint64_t seed = 0x9e3779b97f4a7c15u;

static inline uint32_t number(void)
{
    seed ^= seed << 13;
    seed ^= seed >> 7;
    seed ^= seed << 17;
    return (uint32_t)(seed >> 24);
}

static inline uint32_t below(uint32_t n)
{
    return number() % n;
}

static inline uint16_t word(void)
{
    return (uint16_t)below(0x4000);
}

#endif
