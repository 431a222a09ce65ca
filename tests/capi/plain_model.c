/* The target model in plain C. */
#include "plain_common.h"

struct model {
    const tickmallet_device *device;
    unsigned words, row;
    uint16_t *cells, *read;
    size_t done, room; /* words read, and how many fit */
    uint16_t counter;
    uint16_t latches[32];
};

static void fill(uint16_t *to, size_t count)
{
    for (size_t i = 0; i < count; i++)
        to[i] = ERASED;
}

static int hidden(const struct model *m)
{
    return !(m->cells[m->words + 7] & CP);
}

static uint16_t word_at(const struct model *m, uint16_t a)
{
    if (a < m->words)
        return hidden(m) ? 0 : m->cells[a];
    if (a >= BASE && a < BASE + 11)
        return m->cells[m->words + (a - BASE)];
    return 0;
}

static void begin(struct model *m)
{
    unsigned a = m->counter;
    if (a < m->words) {
        if (!hidden(m)) {
            uint16_t *row = m->cells + a / m->row * m->row;
            for (size_t i = 0; i < m->row; i++)
                row[i] &= m->latches[i];
        }
    } else if ((a >= BASE && a < BASE + 4) || a == BASE + 7 || a == BASE + 8) {
        m->cells[m->words + (a - BASE)] &= m->latches[a % m->row] | spare_bits(m->device, a - BASE);
    }
    fill(m->latches, 32);
}

static void erase_row(struct model *m)
{
    unsigned a = m->counter;
    if (a < m->words) {
        if (!hidden(m))
            fill(m->cells + a / m->row * m->row, m->row);
    } else if (a >= BASE && a <= BASE + 8) {
        fill(m->cells + m->words, 4);
    }
}

static int erase_all(struct model *m)
{
    if (m->counter > BASE + 8)
        return 33;
    fill(m->cells, m->words);
    fill(m->cells + m->words + 7, 2);
    if (m->counter >= BASE)
        fill(m->cells + m->words, 4);
    return 0;
}

/* One step: 0, or its refusal. */
static inline int step(struct model *m, unsigned code, unsigned payload)
{
    if (code == 0x00 || code == 0x02) {
        if (payload % 2 || payload > 0x7ffe)
            return 31;
        if (code == 0x00)
            m->counter = BASE; /* a multiple of R, so that latch 0 is taken */
        m->latches[m->counter & (m->row - 1)] = (uint16_t)(payload / 2); /* R is a power of two */
        return 0;
    }
    switch (code) {
    case 0x04:
        if (payload)
            return 31;
        if (m->done == m->room)
            return 35;
        m->read[m->done++] = word_at(m, m->counter);
        return 0;
    case 0x06:
        if (payload)
            return 31;
        m->counter = m->counter == 0x7fff ? 0 : m->counter == 0xffff ? BASE : m->counter + 1;
        return 0;
    case 0x16:
        if (payload)
            return 31;
        m->counter = 0;
        return 0;
    case 0x08:
        if (payload)
            return 31;
        begin(m);
        return 0;
    case 0x09:
        return payload ? 31 : erase_all(m);
    case 0x11:
        if (payload)
            return 31;
        erase_row(m);
        return 0;
    default:
        return 30;
    }
}

uint8_t plain_run(const tickmallet_device *device, uint16_t *cells, size_t cells_count, const uint8_t *stream, size_t stream_count,
                  size_t allowance, uint16_t *words, size_t words_count, size_t *steps, size_t *words_read)
{
    *steps = *words_read = 0;
    if (!device_ok(device))
        return 13;
    if (!words_ok(cells, cells_count, device->words + 11u))
        return 32;
    if (stream_count % 3)
        return 34;
    struct model m = {device, device->words, device->row, cells, words, 0, words_count, 0, {0}};
    fill(m.latches, 32);
    size_t limit = stream_count / 3 < allowance ? stream_count / 3 : allowance, k = 0;
    int number = 0;
    for (; k < limit; k++) {
        number = step(&m, stream[3 * k], stream[3 * k + 1] + 256u * stream[3 * k + 2]);
        if (number)
            break;
    }
    *steps = k;
    *words_read = number ? 0 : m.done; /* of a refused run only the steps are told */
    return (uint8_t)number;
}
