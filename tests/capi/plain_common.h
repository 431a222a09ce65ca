/* What the plain C files share: the rules of a record, and of lists of words. */
#ifndef PLAIN_COMMON_H
#define PLAIN_COMMON_H

#include "plain.h"

enum { LIMIT = 0x4000, ERASED = 0x3fff, NOT_GIVEN = 0xffff, BASE = 0x8000, CP = 0x80 };

static inline int device_ok(const tickmallet_device *d)
{
    if (d->row != 8 && d->row != 16 && d->row != 32)
        return 0;
    if (d->words < d->row || d->words > 32768 || d->words % d->row)
        return 0;
    return d->id < LIMIT && d->mask1 < LIMIT && d->mask2 < LIMIT && d->idmask < LIMIT && (d->mask1 & CP);
}

/* A number above 3FFFh fits no mask, not even that of no bits. */
static inline int fits(const tickmallet_device *d, unsigned number)
{
    return number < LIMIT && !((number ^ d->id) & d->idmask);
}

static inline int words_ok(const uint16_t *l, size_t count, size_t want)
{
    if (count != want)
        return 0;
    for (size_t i = 0; i < count; i++)
        if (l[i] >= LIMIT)
            return 0;
    return 1;
}

static inline int image_ok(const uint16_t *l, size_t count, size_t words)
{
    if (count != words + 9)
        return 0;
    for (size_t i = 0; i < count; i++) {
        if (l[i] == NOT_GIVEN)
            continue;
        if (l[i] >= LIMIT || (i >= words + 4 && i < words + 7))
            return 0;
    }
    return 1;
}

/* The spare bits of word 8000h + k: those that its mask has not. Configuration words alone have any. */
static inline uint16_t spare_bits(const tickmallet_device *d, size_t k)
{
    return k == 7 ? ERASED & ~d->mask1 : k == 8 ? ERASED & ~d->mask2 : 0;
}

#endif
