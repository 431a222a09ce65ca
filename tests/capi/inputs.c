#include "inputs.h"
#include "plain_common.h"
#include "random.h"

size_t about(size_t n)
{
    return below(20) ? n : n - 1 + 2 * below(2);
}

size_t some_room(size_t need)
{
    switch (below(8)) {
    case 0: return need;
    case 1: return need ? need - 1 : 0;
    case 2: return need + 1;
    case 3: return below((uint32_t)need + 1);
    case 4: return 0;
    default: return need + 40;
    }
}

void turn_spare_bits(const struct board *b, uint16_t *list)
{
    for (size_t k = 7; k < 9; k++)
        list[b->words + k] ^= spare_bits(&b->device, k) & (below(3) ? word() : 0x3fff);
}

uint16_t any_id_mask(void)
{
    switch (below(12)) {
    case 0: return 0x0000;
    case 1: return 0x3fe0;
    case 2: return (uint16_t)(0x3fff ^ 1u << below(14));
    case 3: return (uint16_t)(1u << below(14));
    case 4:
    case 5: return word();
    case 6: return word() | word();
    default: return 0x3fff;
    }
}

uint16_t fitting(uint16_t id, uint16_t mask)
{
    return below(3) ? id ^ (word() & ~mask) : id;
}

uint16_t about_id(uint16_t id, uint16_t mask)
{
    uint16_t fits = fitting(id, mask);
    switch (below(24)) {
    case 0: return (uint16_t)(fits ^ 1u << below(14));
    case 1: return (uint16_t)(fits ^ 0x4000u << below(2));
    case 2: return word();
    default: return fits;
    }
}

size_t sound_name(uint8_t *to)
{
    size_t length = below(3) ? 1 + below(TICKMALLET_MOST_NAME) : below(2) ? 1 : TICKMALLET_MOST_NAME;
    for (size_t i = 0; i < length; i++)
        to[i] = (uint8_t)(0x20 + below(0x5f));
    return length;
}

size_t no_name(uint8_t *name, size_t length)
{
    static const uint8_t others[8] = {0x1f, 0x7f, '\t', '\n', '\r', 0x00, 0x80, 0xff};
    switch (below(4)) {
    case 0: return 0;
    case 1:
        for (size_t i = length; i <= TICKMALLET_MOST_NAME; i++)
            name[i] = 'A';
        return TICKMALLET_MOST_NAME + 1;
    default: name[below((uint32_t)length)] = others[below(8)]; return length;
    }
}

/* The record's own masks, or others: with few spare bits, about seven, nearly all. */
static void any_masks(tickmallet_device *d)
{
    d->idmask = any_id_mask();
    switch (below(6)) {
    case 0: d->mask1 = 0x3fff ^ (word() & word() & word()), d->mask2 = 0x3fff ^ (word() & word() & word()); break;
    case 1:
    case 2: d->mask1 = word(), d->mask2 = word(); break;
    case 3: d->mask1 = word() & word() & word(), d->mask2 = word() & word() & word(); break;
    }
    d->mask1 |= 0x80;
}

/* Breaks one rule of a record, or hits a number beside it that keeps them all. The words above 32768 are multiples of 8, two of them of 32,
   and without their highest bit they would keep the rules; only 65535 breaks two. */
static void damage(tickmallet_device *d)
{
    static const uint16_t rows[12] = {0, 1, 4, 7, 9, 12, 15, 24, 31, 33, 64, 256};
    static const uint16_t words[14] = {0, 4, 8192, 8200, 8224, 16384, 32736, 32760, 32768, 32776, 32800, 40000, 65528, 65535};
    switch (below(9)) {
    case 0: d->row = rows[below(12)]; break;
    case 1: d->row = (uint16_t)(8u << below(3)); break;
    case 2: d->words = words[below(14)]; break;
    case 3: d->words = (uint16_t)(d->words - 8 + below(17)); break;
    case 4: d->id |= (uint16_t)(0x4000 << below(2)); break;
    case 5: d->mask1 ^= 0x80; break;
    case 6: d->mask1 |= (uint16_t)(0x4000 << below(2)); break;
    case 7: d->mask2 |= (uint16_t)(0x4000 << below(2)); break;
    case 8: d->idmask |= (uint16_t)(0x4000 << below(2)); break;
    }
}

static void any_reading(struct board *b)
{
    size_t p = b->words;
    for (size_t i = 0; i < p + 11; i++)
        b->reading[i] = below(3) ? word() : 0x3fff;
    b->reading[p + 6] = about_id(b->device.id, b->device.idmask);
    b->reading[p + 7] |= below(8) ? 0x80 : 0;
    if (!below(20))
        b->reading[below((uint32_t)p + 11)] = (uint16_t)(below(2) ? 0x4000 : 0xffff);
}

static void any_image(struct board *b)
{
    size_t p = b->words;
    uint32_t given = below(10); /* of eight words; 0: none, 8 and 9: all */
    for (size_t i = 0; i < p + 9; i++)
        b->image[i] = below(8) < given && !(i >= p + 4 && i < p + 7) ? word() : 0xffff;
    if (below(4)) /* keep configuration bits, so that an update is not refused with 24 nearly always; spare bits cannot refuse it */
        for (size_t k = 7; k < 9; k++) {
            uint16_t spare = spare_bits(&b->device, k), kept = below(3) ? b->reading[p + k] & word() : b->reading[p + k];
            b->image[p + k] = below(3) ? (kept & ~spare) | (word() & spare) : 0xffff;
        }
    if (!below(20))
        b->image[below((uint32_t)p + 9)] = (uint16_t)(below(2) ? 0x4000 : 0x1234);
}

static void fill_board(struct board *b, const tickmallet_device *sound)
{
    b->device = *sound;
    any_masks(&b->device);
    b->words = sound->words;
    b->name_len = sound_name(b->name);
    if (!below(24))
        b->name_len = no_name(b->name, b->name_len);
    any_reading(b);
    any_image(b);
    b->image[b->words + 9] = b->image[b->words + 10] = 0xffff;
    if (!below(12))
        damage(&b->device);
}

void small_board(struct board *b)
{
    static const tickmallet_device sound[9] = {
        {0x2a00, 16, 8, 0x3eff, 0x3ff3, 0x3fff},  {0x3023, 64, 16, 0x3eff, 0x3ff3, 0x3fff}, {0x3024, 32, 32, 0x0080, 0x3fff, 0x3fff},
        {0x0000, 8, 8, 0x3fff, 0x0000, 0x3fff},   {0x3fff, 16, 16, 0x3eff, 0x3ff3, 0x3fff}, {0x1abc, 24, 8, 0x2080, 0x1001, 0x3fff},
        {0x00ff, 96, 32, 0x3eff, 0x3ff3, 0x3fff}, {0x2b01, 48, 16, 0x3eff, 0x3ff3, 0x3fff}, {0x2a00, 64, 32, 0x3eff, 0x3ff3, 0x3fff}};
    fill_board(b, &sound[below(9)]);
}

/* 8192 words, which the project's programs take, a row more, which they do not, a row less than the most, half of it, or any number between. */
void middle_board(struct board *b)
{
    const unsigned least = 8192, most = TICKMALLET_MOST_WORDS, row = 8u << below(3);
    const unsigned words[5] = {least, least + row, most - row, least + row * below((most - least) / row), most / 2};
    tickmallet_device sound = {0x2a01, (uint16_t)words[below(5)], (uint16_t)row, 0x3eff, 0x3ff3, 0x3fff};
    fill_board(b, &sound);
}

void large_board(struct board *b)
{
    tickmallet_device sound = {0x3023, TICKMALLET_MOST_WORDS, (uint16_t)(8u << below(3)), 0x3eff, 0x3ff3, 0x3fff};
    fill_board(b, &sound);
}
