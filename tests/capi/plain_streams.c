/* The three streams in plain C. */
#include "plain_common.h"

enum { LOAD_CONFIGURATION = 0x00, LOAD_DATA = 0x02, READ = 0x04, INCREMENT = 0x06, BEGIN = 0x08, BULK_ERASE = 0x09, ROW_ERASE = 0x11, RESET = 0x16 };

struct plan {
    const tickmallet_device *device;
    const uint16_t *image, *reading; /* no reading: every word is erased */
    size_t words, row;
    int all_ids, erase_ids;
};

static uint16_t known(const struct plan *p, size_t i)
{
    return p->reading ? p->reading[i] : ERASED;
}

static uint16_t wanted(const struct plan *p, size_t i)
{
    return p->image[i] != NOT_GIVEN ? p->image[i] : known(p, i);
}

static int differs(const struct plan *p, size_t i)
{
    return wanted(p, i) != known(p, i);
}

/* Word 8000h + k: spare bits are not the image's. */
static uint16_t wanted_past(const struct plan *p, size_t k)
{
    uint16_t spare = spare_bits(p->device, k);
    return (wanted(p, p->words + k) & ~spare) | (known(p, p->words + k) & spare);
}

/* A bit is 1 that was 0, for which a word has to be erased. Of an erased word none is. */
static int rises(const struct plan *p, size_t i)
{
    return (wanted(p, i) & ~known(p, i)) != 0;
}

/* Of so many words, a row or the user IDs. */
static int one_differs(const struct plan *p, size_t first, size_t count)
{
    for (size_t i = first; i < first + count; i++)
        if (differs(p, i))
            return 1;
    return 0;
}

static int one_rises(const struct plan *p, size_t first, size_t count)
{
    if (!p->reading)
        return 0;
    for (size_t i = first; i < first + count; i++)
        if (rises(p, i))
            return 1;
    return 0;
}

/* Whether word 8000h + k is written. */
static int chosen(const struct plan *p, size_t k)
{
    if (k >= 4 && k < 7)
        return 0;
    return (k < 4 && p->all_ids) || wanted_past(p, k) != known(p, p->words + k);
}

/* The steps of rows and configuration space; the counter is at 0. */
static size_t body_length(const struct plan *p)
{
    size_t steps = 0, counter = 0, place = 0;
    int any = 0;
    for (size_t first = 0; first < p->words; first += p->row)
        if (one_differs(p, first, p->row)) {
            steps += (first - counter) + (one_rises(p, first, p->row) ? 1 : 0) + (2 * p->row - 1) + 1;
            counter = first + p->row - 1;
        }
    for (size_t k = 0; k < 9; k++)
        if (chosen(p, k)) {
            any = 1;
            steps += (k - place) + 2;
            place = k;
        }
    return steps + (any ? 1 : 0) + (p->erase_ids ? 1 : 0);
}

static uint8_t *put(uint8_t *to, unsigned code, unsigned payload)
{
    to[0] = (uint8_t)code;
    to[1] = (uint8_t)payload;
    to[2] = (uint8_t)(payload >> 8);
    return to + 3;
}

static uint8_t *put_body(uint8_t *to, const struct plan *p)
{
    size_t counter = 0, place = 0;
    int any = 0;
    for (size_t first = 0; first < p->words; first += p->row) {
        if (!one_differs(p, first, p->row))
            continue;
        for (; counter < first; counter++)
            to = put(to, INCREMENT, 0);
        if (one_rises(p, first, p->row))
            to = put(to, ROW_ERASE, 0);
        for (size_t i = 0; i < p->row; i++) {
            if (i)
                to = put(to, INCREMENT, 0);
            to = put(to, LOAD_DATA, 2u * wanted(p, first + i));
        }
        to = put(to, BEGIN, 0);
        counter = first + p->row - 1;
    }
    for (size_t k = 0; k < 9; k++) {
        if (!chosen(p, k))
            continue;
        if (!any) {
            to = put(to, LOAD_CONFIGURATION, 2 * ERASED);
            if (p->erase_ids)
                to = put(to, ROW_ERASE, 0);
            any = 1;
        }
        for (; place < k; place++)
            to = put(to, INCREMENT, 0);
        to = put(to, LOAD_DATA, 2u * wanted_past(p, k));
        to = put(to, BEGIN, 0);
    }
    return to;
}

uint8_t plain_update(const tickmallet_device *device, const uint16_t *image, size_t image_count,
                     const uint16_t *reading, size_t reading_count, uint8_t *out, size_t out_count, size_t *steps)
{
    *steps = 0;
    if (!device_ok(device))
        return 13;
    size_t words = device->words;
    if (!image_ok(image, image_count, words))
        return 20;
    if (!words_ok(reading, reading_count, words + 9))
        return 21;
    if (!fits(device, reading[words + 6]))
        return 22;
    if (!(reading[words + 7] & CP))
        return 23;
    struct plan p = {device, image, reading, words, device->row, 0, 0};
    for (size_t k = 7; k < 9; k++)
        if (wanted_past(&p, k) & ~reading[words + k])
            return 24;
    p.all_ids = one_differs(&p, words, 4);
    p.erase_ids = one_rises(&p, words, 4);
    size_t need = 1 + body_length(&p);
    if (out_count < 3 * need)
        return 26;
    put_body(put(out, RESET, 0), &p);
    *steps = need;
    return 0;
}

uint8_t plain_fresh(const tickmallet_device *device, const uint16_t *image, size_t image_count, uint16_t id_word,
                    uint8_t *out, size_t out_count, size_t *steps)
{
    *steps = 0;
    if (!device_ok(device))
        return 13;
    if (!image_ok(image, image_count, device->words))
        return 20;
    if (!fits(device, id_word))
        return 22;
    struct plan p = {device, image, NULL, device->words, device->row, 0, 0};
    size_t need = 3 + body_length(&p);
    if (out_count < 3 * need)
        return 26;
    put_body(put(put(put(out, LOAD_CONFIGURATION, 2 * ERASED), BULK_ERASE, 0), RESET, 0), &p);
    *steps = need;
    return 0;
}

/* So many reads, with Increments between. */
static uint8_t *put_reads(uint8_t *to, size_t count)
{
    for (size_t i = 0; i < count; i++) {
        if (i)
            to = put(to, INCREMENT, 0);
        to = put(to, READ, 0);
    }
    return to;
}

uint8_t plain_read_back(const tickmallet_device *device, uint8_t *out, size_t out_count, size_t *steps)
{
    *steps = 0;
    if (!device_ok(device))
        return 13;
    size_t need = 2 * (size_t)device->words + 18;
    if (out_count < 3 * need)
        return 26;
    put_reads(put(put_reads(put(out, RESET, 0), device->words), LOAD_CONFIGURATION, 2 * ERASED), 9);
    *steps = need;
    return 0;
}
