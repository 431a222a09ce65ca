/* The three streams, and runs of them and of others. */
#include <string.h>

#include "agree.h"
#include "random.h"

static uint8_t stream[MOST_BYTES];

static void run(const struct board *b, size_t n, size_t allowance, size_t room)
{
    size_t count = about(b->words + 11);
    begin(0, room, count);
    memcpy(proved.cells, b->reading, 2 * count);
    memcpy(plain.cells, b->reading, 2 * count);
    proved.number = tickmallet_run(&b->device, proved.cells, count, stream, n, allowance, proved.words, room, &proved.a, &proved.b);
    plain.number = plain_run(&b->device, plain.cells, count, stream, n, allowance, plain.words, room, &plain.a, &plain.b);
    end(RUN);
}

/* A planned stream: all of it, or as far as an allowance goes. */
static void run_planned(const struct board *b, size_t steps)
{
    size_t allowance = below(4) ? steps + below(2) : below(4) ? below((uint32_t)steps + 1) : (size_t)-1;
    memcpy(stream, proved.bytes, 3 * steps);
    run(b, 3 * steps, allowance, below(4) ? b->words + 9 : b->words + 8 + below(3));
}

/* ---- streams that nobody planned */

static size_t put(size_t at, unsigned code, unsigned payload)
{
    stream[at] = (uint8_t)code, stream[at + 1] = (uint8_t)payload, stream[at + 2] = (uint8_t)(payload >> 8);
    return at + 3;
}

static size_t put_walk(size_t at, size_t steps)
{
    for (; steps; steps--)
        at = put(at, 0x06, 0);
    return at;
}

/* Both configuration words, with anything for their spare bits too. */
static size_t put_configuration(size_t at)
{
    at = put_walk(put(at, 0x00, 2u * word()), 7);
    at = put(put(at, 0x02, below(2) ? 2u * word() : 0), 0x08, 0);
    at = put_walk(at, 1);
    return put(put(at, 0x02, below(2) ? 2u * word() : 0), 0x08, 0);
}

static size_t any_steps(size_t at, size_t steps)
{
    static const uint8_t codes[10] = {0x00, 0x02, 0x02, 0x04, 0x06, 0x06, 0x08, 0x09, 0x11, 0x16};
    for (; steps; steps--) {
        unsigned code = codes[below(10)], payload = code < 4 ? 2u * word() : 0;
        if (!below(200))
            payload ^= 1u << below(16);
        if (!below(300))
            code = below(256);
        at = put(at, code, payload);
        if (!below(6))
            at = put_walk(at, below(12));
        if (!below(40))
            at = put_configuration(at);
    }
    return at;
}

static void run_any(const struct board *b)
{
    size_t n = any_steps(0, below(60)) + !below(40) * (1 + below(2));
    run(b, n, below(4) ? n : below((uint32_t)n + 1), below(8) ? b->words + 9 : below(4));
}

/* The counter goes round in each space: 7FFFh to 0000h, FFFFh to 8000h. Of the largest device 7FFFh is a program word. */
void agree_long_streams(void)
{
    static struct board b;
    for (int i = 0; i < 60; i++) {
        if (i % 3)
            small_board(&b);
        else
            large_board(&b);
        size_t n = put(0, i % 2 ? 0x00 : 0x16, i % 2 ? 2u * word() : 0);
        n = any_steps(put_walk(n, 0x7ffe + below(i % 3 ? 12 : 3)), 8);
        run(&b, n, n, 8);
    }
}

/* ---- planners */

static void update(const struct board *b)
{
    size_t p = b->words, image_count = about(p + 9), count = about(p + 9), need = 0;
    plain_update(&b->device, b->image, p + 9, b->reading, p + 9, stream, MOST_BYTES, &need);
    size_t room = some_room(3 * need);
    begin(room, 0, 0);
    proved.number = tickmallet_update(&b->device, b->image, image_count, b->reading, count, proved.bytes, room, &proved.a);
    plain.number = plain_update(&b->device, b->image, image_count, b->reading, count, plain.bytes, room, &plain.a);
    end(UPDATE);
    if (proved.number == 0)
        run_planned(b, proved.a);
}

static void fresh(const struct board *b)
{
    size_t p = b->words, count = about(p + 9), need = 0;
    uint16_t id = about_id(b->device.id, b->device.idmask);
    plain_fresh(&b->device, b->image, p + 9, id, stream, MOST_BYTES, &need);
    size_t room = some_room(3 * need);
    begin(room, 0, 0);
    proved.number = tickmallet_fresh(&b->device, b->image, count, id, proved.bytes, room, &proved.a);
    plain.number = plain_fresh(&b->device, b->image, count, id, plain.bytes, room, &plain.a);
    end(FRESH);
    if (proved.number == 0)
        run_planned(b, proved.a);
}

static void read_back(const struct board *b)
{
    size_t room = some_room(TICKMALLET_READ_BACK_BYTES(b->words));
    begin(room, 0, 0);
    proved.number = tickmallet_read_back(&b->device, proved.bytes, room, &proved.a);
    plain.number = plain_read_back(&b->device, plain.bytes, room, &plain.a);
    end(READ_BACK);
    if (proved.number == 0)
        run_planned(b, proved.a);
}

void agree_streams(const struct board *b)
{
    update(b);
    fresh(b);
    read_back(b);
    run_any(b);
}

/* ---- the ID word under a mask, by figures that were worked out by hand */

static const struct {
    uint16_t mask, id_word;
    uint8_t update, fresh;
} id_words[] = {
    {0x3fe0, 0x2f85, 0, 0},   {0x3fe0, 0x2f80, 0, 0},   {0x3fe0, 0x2f82, 0, 0},   {0x3fe0, 0x2f9f, 0, 0},   {0x3fe0, 0x2fa0, 22, 22},
    {0x3fe0, 0x2f7f, 22, 22}, {0x3fe0, 0x0f82, 22, 22}, {0x3fe0, 0x6f82, 21, 22}, {0x3fe0, 0xaf82, 21, 22}, {0x3fff, 0x2f82, 0, 0},
    {0x3fff, 0x2f83, 22, 22}, {0x3fff, 0x6f82, 21, 22}, {0x0000, 0x0000, 0, 0},   {0x0000, 0x3fff, 0, 0},   {0x0000, 0x4000, 21, 22},
    {0x0000, 0xffff, 21, 22}, {0x4000, 0x2f82, 13, 13}, {0xffff, 0x2f82, 13, 13}};

static void update_by_figures(const tickmallet_device *d, const uint16_t *image, const uint16_t *reading, unsigned number)
{
    static const uint8_t reset[3] = {0x16, 0, 0};
    begin(3, 0, 0);
    proved.number = tickmallet_update(d, image, 25, reading, 25, proved.bytes, 3, &proved.a);
    plain.number = plain_update(d, image, 25, reading, 25, plain.bytes, 3, &plain.a);
    end(UPDATE);
    holds(proved.number == number && proved.a == (number ? 0 : 1) && (number || !memcmp(proved.bytes, reset, 3)),
          "update by figures: 8006h has to fit the record");
}

/* Nothing is given: an update is Reset alone, and a fresh stream has only its first three steps. */
static void by_figures(unsigned mask, uint16_t id_word, unsigned of_update, unsigned of_fresh)
{
    static const uint8_t cleared[9] = {0x00, 0xfe, 0x7f, 0x09, 0, 0, 0x16, 0, 0};
    const tickmallet_device d = {0x2f82, 16, 8, 0x3eff, 0x3ff3, (uint16_t)mask};
    uint16_t image[25], reading[25];
    for (int i = 0; i < 25; i++)
        image[i] = 0xffff, reading[i] = 0x3fff;
    reading[21] = 0x2000, reading[22] = id_word;
    update_by_figures(&d, image, reading, of_update);
    reading[23] = 0x3f7f; /* protected, which is told only where 8006h fits */
    update_by_figures(&d, image, reading, of_update ? of_update : 23);
    begin(9, 0, 0);
    proved.number = tickmallet_fresh(&d, image, 25, id_word, proved.bytes, 9, &proved.a);
    plain.number = plain_fresh(&d, image, 25, id_word, plain.bytes, 9, &plain.a);
    end(FRESH);
    holds(proved.number == of_fresh && proved.a == (of_fresh ? 0 : 3) && (of_fresh || !memcmp(proved.bytes, cleared, 9)),
          "fresh by figures: the ID word has to fit the record");
}

void agree_id_words(void)
{
    for (size_t i = 0; i < sizeof id_words / sizeof *id_words; i++)
        by_figures(id_words[i].mask, id_words[i].id_word, id_words[i].update, id_words[i].fresh);
}
