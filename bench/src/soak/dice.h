/* Random numbers that a seed decides (splitmix64). */
#ifndef DICE_H
#define DICE_H

#include <stddef.h>
#include <stdint.h>
#include <string.h>

typedef struct {
    uint64_t state;
} dice;

static inline uint64_t roll(dice *d)
{
    uint64_t z = d->state += 0x9e3779b97f4a7c15u;
    z = (z ^ (z >> 30)) * 0xbf58476d1ce4e5b9u;
    z = (z ^ (z >> 27)) * 0x94d049bb133111ebu;
    return z ^ (z >> 31);
}

/* 0 to limit - 1; the limits here are small beside 2^64, so that no number is favoured noticeably. */
static inline uint64_t below(dice *d, uint64_t limit)
{
    return roll(d) % limit;
}

static inline int one_in(dice *d, uint64_t many)
{
    return below(d, many) == 0;
}

static inline void roll_bytes(dice *d, uint8_t *bytes, size_t n)
{
    for (size_t i = 0; i < n; i += 8) {
        uint64_t z = roll(d);
        memcpy(bytes + i, &z, n - i < 8 ? n - i : 8);
    }
}

#endif
