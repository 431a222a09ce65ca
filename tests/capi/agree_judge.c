/* Checksum and verify. */
#include <string.h>

#include "agree.h"
#include "random.h"

static void checksum(const struct board *b)
{
    size_t count = about(b->words + 9);
    begin(0, 0, 0);
    proved.number = tickmallet_checksum(&b->device, b->reading, count, &proved.value);
    plain.number = plain_checksum(&b->device, b->reading, count, &plain.value);
    end(CHECKSUM);
}

static void verify(const struct board *b)
{
    static uint16_t wanted[MOST_LIST];
    size_t p = b->words, wanted_count = about(p + 9), count = about(p + 9);
    memcpy(wanted, b->reading, 2 * (p + 11));
    for (uint32_t n = below(4); n; n--)
        wanted[below((uint32_t)p + 9)] = word();
    if (!below(10))
        wanted[p + 4 + below(3)] = word(); /* never judged */
    if (below(2))
        turn_spare_bits(b, wanted); /* nor are these */
    if (!below(40))
        wanted[below((uint32_t)p + 9)] = 0x4000;
    begin(0, 0, 0);
    proved.number = tickmallet_verify(&b->device, wanted, wanted_count, b->reading, count, &proved.value, &proved.a);
    plain.number = plain_verify(&b->device, wanted, wanted_count, b->reading, count, &plain.value, &plain.a);
    end(VERIFY);
}

void agree_judgements(const struct board *b)
{
    checksum(b);
    verify(b);
}
