/* The sizes in tickmallet.h: what is said to be just so long is, and each bound is reached where it can be. */
#include <stdio.h>
#include <string.h>

#include "agree.h"

enum { P = TICKMALLET_MOST_WORDS };

/* arrays of these sizes, as a program would have them */
static uint16_t image[TICKMALLET_IMAGE_WORDS(P)], reading[TICKMALLET_READING_WORDS(P)], cells[TICKMALLET_CELLS(P)], words[TICKMALLET_READ_BACK_WORDS(P)];
static uint8_t stream[TICKMALLET_STREAM_BYTES(P, 8)], reads[TICKMALLET_READ_BACK_BYTES(P)], hex[TICKMALLET_HEX_BYTES(P)];
static uint8_t old_sheet[TICKMALLET_SHEET_BYTES(P)], new_sheet[TICKMALLET_NEW_SHEET_BYTES(P, TICKMALLET_MOST_NAME)];

/* A board whose program words and user IDs are all the same, and an image that gives another value to every word that can be given. */
static void all_from(size_t p, uint16_t read)
{
    for (size_t i = 0; i < p + 9; i++) {
        image[i] = i >= p + 4 && i < p + 7 ? 0xffff : 0x1580;
        reading[i] = i < p + 4 ? read : 0x3fff;
    }
    reading[p + 6] = 0x3023;
}

/* Every word rises, and falls too: no update is longer. */
static void all_different(size_t p)
{
    all_from(p, 0x0a7f);
}

static void updates(const tickmallet_device *d)
{
    size_t p = d->words, r = d->row, steps;
    all_different(p);
    holds(tickmallet_update(d, image, p + 9, reading, p + 9, stream, TICKMALLET_STREAM_BYTES(p, r) - 1, &steps) == 26,
          "an update of every word does not go into less than TICKMALLET_STREAM_BYTES");
    holds(tickmallet_update(d, image, p + 9, reading, p + 9, stream, TICKMALLET_STREAM_BYTES(p, r), &steps) == 0 && steps == TICKMALLET_MOST_STEPS(p, r),
          "an update of every word takes TICKMALLET_MOST_STEPS, if every row rises and the user IDs do");
    all_from(p, 0x3fff);
    holds(tickmallet_update(d, image, p + 9, reading, p + 9, stream, TICKMALLET_STREAM_BYTES(p, r), &steps) == 0 && steps == 2 * p + p / r + 21,
          "of a blank board it takes 2P + P/R + 21 steps");
}

static void streams(const tickmallet_device *d)
{
    size_t p = d->words, r = d->row, steps, done, words_read;
    all_different(p);
    holds(tickmallet_fresh(d, image, p + 9, d->id, stream, TICKMALLET_STREAM_BYTES(p, r), &steps) == 0 && steps == 2 * p + p / r + 23 &&
              steps <= TICKMALLET_MOST_STEPS(p, r),
          "a fresh stream of every word takes 2P + P/R + 23 steps");
    holds(p != r || steps == TICKMALLET_MOST_STEPS(p, r), "where P = R that is TICKMALLET_MOST_STEPS");
    holds(tickmallet_read_back(d, reads, TICKMALLET_READ_BACK_BYTES(p), &steps) == 0 && steps == TICKMALLET_READ_BACK_STEPS(p),
          "a read-back takes TICKMALLET_READ_BACK_STEPS");
    memcpy(cells, reading, 2 * (p + 9));
    cells[p + 9] = cells[p + 10] = 0x3fff;
    holds(tickmallet_run(d, cells, TICKMALLET_CELLS(p), reads, 3 * steps, steps, words, TICKMALLET_READ_BACK_WORDS(p), &done, &words_read) == 0 &&
              words_read == TICKMALLET_READ_BACK_WORDS(p) && !memcmp(words, reading, 2 * (p + 9)),
          "it reads TICKMALLET_READ_BACK_WORDS, the reading");
    holds(tickmallet_run(d, cells, TICKMALLET_CELLS(p), reads, 3 * steps, steps, words, TICKMALLET_READ_BACK_WORDS(p) - 1, &done, &words_read) == 35,
          "it does not go into less");
}

static const uint8_t name[] = "ABCDEFGHIJKLMNOP";

static void sheets(const tickmallet_device *d)
{
    size_t p = d->words, length;
    all_different(p);
    holds(tickmallet_write_sheet(d, reading, TICKMALLET_READING_WORDS(p), old_sheet, TICKMALLET_SHEET_BYTES(p), &length) == 0 &&
              length == TICKMALLET_SHEET_BYTES(p),
          "a sheet of the old form has TICKMALLET_SHEET_BYTES");
    holds(tickmallet_write_sheet(d, reading, TICKMALLET_READING_WORDS(p), old_sheet, TICKMALLET_SHEET_BYTES(p) - 1, &length) == 26,
          "it does not go into less");
    holds(tickmallet_read_sheet(d, name, 1, old_sheet, TICKMALLET_SHEET_BYTES(p), reading, TICKMALLET_READING_WORDS(p)) == 0,
          "it is read into TICKMALLET_READING_WORDS");
}

/* Each call that writes a sheet of the new form, and each that reads one. */
static void new_sheets(const tickmallet_device *d, size_t name_len)
{
    char line[64];
    const uint8_t *table = (const uint8_t *)line;
    size_t p = d->words, count = TICKMALLET_READING_WORDS(p), length;
    size_t bytes = TICKMALLET_NEW_SHEET_BYTES(p, name_len), old_bytes = TICKMALLET_SHEET_BYTES(p);
    size_t n = (size_t)snprintf(line, sizeof line, "%.*s\t3023\t%u\t%u\t3EFF\t3FF3\n", (int)name_len, (const char *)name, d->words, d->row);
    all_different(p);
    holds(tickmallet_write_new_sheet(d, name, name_len, reading, count, new_sheet, bytes - 1, &length) == 26,
          "a sheet of the new form does not go into less than TICKMALLET_NEW_SHEET_BYTES");
    holds(tickmallet_write_new_sheet(d, name, name_len, reading, count, new_sheet, bytes, &length) == 0 && length == bytes, "it has so many");
    holds(tickmallet_read_sheet(d, name, name_len, new_sheet, bytes, reading, count) == 0, "it is read into TICKMALLET_READING_WORDS");
    holds(tickmallet_to_old(table, n, new_sheet, bytes, old_sheet, old_bytes - 1, &length) == 26, "moved to the old form it does not go into less");
    holds(tickmallet_to_old(table, n, new_sheet, bytes, old_sheet, old_bytes, &length) == 0 && length == old_bytes, "it has TICKMALLET_SHEET_BYTES");
    holds(tickmallet_to_new(table, n, old_sheet, old_bytes, new_sheet, bytes - 1, &length) == 26, "moved to the new form it does not go into less");
    holds(tickmallet_to_new(table, n, old_sheet, old_bytes, new_sheet, bytes, &length) == 0 && length == bytes, "it has TICKMALLET_NEW_SHEET_BYTES");
}

/* Of eight words five are given, in four runs: no block takes more text. In the last block two user IDs stand together. */
static void longest_hex(size_t p)
{
    for (size_t i = 0; i < p + 9; i++)
        image[i] = 0x1234;
    for (size_t i = 0; i < p; i += 8)
        image[i + 1] = image[i + 3] = image[i + 5] = 0xffff;
    image[p + 1] = image[p + 4] = image[p + 5] = image[p + 6] = 0xffff;
}

static void hexes(const tickmallet_device *d)
{
    size_t p = d->words, length;
    uint32_t line, column;
    all_different(p);
    holds(tickmallet_write_hex(d, image, TICKMALLET_IMAGE_WORDS(p), hex, TICKMALLET_HEX_BYTES(p), &length) == 0 && length <= TICKMALLET_HEX_BYTES(p),
          "a whole image is written in TICKMALLET_HEX_BYTES");
    longest_hex(p);
    holds(tickmallet_write_hex(d, image, TICKMALLET_IMAGE_WORDS(p), hex, TICKMALLET_HEX_BYTES(p), &length) == 0 && length == 17 * p / 2 + 96 &&
              length <= TICKMALLET_HEX_BYTES(p),
          "the longest text that was found has 17P/2 + 96 bytes");
    holds(tickmallet_read_hex(d, hex, length, image, TICKMALLET_IMAGE_WORDS(p), &line, &column) == 0, "it is read into TICKMALLET_IMAGE_WORDS");
}

/* One more or one less than just so many is refused. */
static void lists(const tickmallet_device *d)
{
    static uint16_t longer[TICKMALLET_CELLS(P) + 1];
    size_t p = d->words, a, b;
    uint16_t sum;
    memset(longer, 0, sizeof longer);
    for (size_t n = p; n < p + 13; n++) {
        holds((tickmallet_checksum(d, longer, n, &sum) == 0) == (n == TICKMALLET_READING_WORDS(p)), "a reading has TICKMALLET_READING_WORDS");
        holds((tickmallet_run(d, longer, n, reads, 0, 0, words, 0, &a, &b) == 0) == (n == TICKMALLET_CELLS(p)), "cells are TICKMALLET_CELLS");
    }
    memset(longer, 0xff, sizeof longer);
    for (size_t n = p; n < p + 13; n++)
        holds((tickmallet_write_hex(d, longer, n, hex, TICKMALLET_HEX_BYTES(p), &a) == 0) == (n == TICKMALLET_IMAGE_WORDS(p)), "an image has TICKMALLET_IMAGE_WORDS");
}

static void limits(void)
{
    tickmallet_device d = {0x3023, P, 8, 0x3eff, 0x3ff3, 0x3fff}, more = {0x3023, P + 8, 8, 0x3eff, 0x3ff3, 0x3fff};
    size_t steps;
    holds(tickmallet_read_back(&d, reads, sizeof reads, &steps) == 0, "P may be TICKMALLET_MOST_WORDS");
    holds(tickmallet_read_back(&more, reads, sizeof reads, &steps) == 13, "P may not be more");
    holds(TICKMALLET_MOST_STEPS(P, 8) == 73750 && sizeof stream == 221250, "updates and fresh streams of the largest device");
    holds(TICKMALLET_READ_BACK_STEPS(P) == 65554 && sizeof reads == 196662, "read-backs of the largest device");
    holds(sizeof old_sheet == 184375 && sizeof new_sheet == 184397, "sheets of the largest device");
    holds(sizeof hex == 458908 && sizeof hex <= TICKMALLET_MOST_HEX_READ, "HEX texts of the largest device");
    holds(TICKMALLET_MOST_STEPS(d.words, d.row) == 73750 && TICKMALLET_READ_BACK_BYTES(d.words) == 196662 && TICKMALLET_HEX_BYTES(d.words) == 458908,
          "the same from the record's 16 bits");
}

void agree_bounds(void)
{
    static const uint16_t sizes[12][2] = {
        {8, 8}, {16, 8}, {16, 16}, {32, 32}, {96, 32}, {8192, 8}, {8200, 8}, {P / 2, 16}, {P - 32, 32}, {P, 8}, {P, 16}, {P, 32}}; /* P and R */
    for (int i = 0; i < 12; i++) {
        const tickmallet_device d = {0x3023, sizes[i][0], sizes[i][1], 0x3eff, 0x3ff3, 0x3fff};
        updates(&d);
        streams(&d);
        sheets(&d);
        for (size_t name_len = 1; name_len <= TICKMALLET_MOST_NAME; name_len += 5)
            new_sheets(&d, name_len);
        hexes(&d);
        lists(&d);
    }
    limits();
}
