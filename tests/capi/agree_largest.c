/* Parts of more than 8192 words, case by case, by figures that were worked out apart from both sides. */
#include <stdio.h>
#include <string.h>

#include "agree.h"

enum { P = 32768, COUNT = P + 9, MOST_TEXT = 524288 };

static const tickmallet_device big = {0x2a01, P, 32, 0x3eff, 0x3ff3, 0x3fff}, short_rows = {0x2a01, P, 8, 0x3eff, 0x3ff3, 0x3fff};

static uint16_t image[COUNT], reading[COUNT], found[COUNT], cells[COUNT + 2];
static uint8_t text[MOST_TEXT + 1], stream[221250];

/* ---- which records keep the rules */

static uint8_t found_number(const tickmallet_device *d)
{
    char line[64];
    tickmallet_device kept;
    size_t name_at, name_len, n = (size_t)snprintf(line, sizeof line, "BIG\t2A01\t%d\t%d\t3EFF\t3FF3\n", d->words, d->row);
    uint8_t number = tickmallet_find_device((const uint8_t *)line, n, 0x2a01, &kept, &name_at, &name_len);
    holds(number ? kept.words == 0 : kept.words == d->words && kept.row == d->row && kept.idmask == 0x3fff,
          "find_device stores the record of a large part");
    return number;
}

static void record(unsigned words, unsigned row, int sound)
{
    const tickmallet_device d = {0x2a01, (uint16_t)words, (uint16_t)row, 0x3eff, 0x3ff3, 0x3fff};
    size_t steps;
    holds(found_number(&d) == (sound ? 0 : 15), "find_device takes P up to 32768 and no larger");
    holds(tickmallet_read_back(&d, stream, sizeof stream, &steps) == (sound ? 0 : 13) && steps == (sound ? 2 * words + 18 : 0),
          "read_back takes P up to 32768 and no larger");
}

static void records(void)
{
    record(8192, 32, 1);
    record(8200, 8, 1);
    record(8200, 16, 0);
    record(8224, 32, 1);
    record(32736, 32, 1);
    record(32760, 8, 1);
    record(32760, 16, 0);
    record(32768, 8, 1);
    record(32768, 32, 1);
    record(32776, 8, 0);
    record(32800, 32, 0);
    record(40000, 32, 0);
    record(65528, 8, 0);
}

/* ---- HEX */

static void blank(uint16_t *list, size_t count)
{
    for (size_t i = 0; i < count; i++)
        list[i] = 0xffff;
}

static void read_across(unsigned words, unsigned number)
{
    static const char across[] = ":04FFFE003412560063\n:00000001FF\n";
    const tickmallet_device d = {0x2a01, (uint16_t)words, 32, 0x3eff, 0x3ff3, 0x3fff};
    uint32_t line, column;
    blank(image, words + 9);
    if (number == 0)
        image[0x7fff] = 0x1234, image[P] = 0x0056;
    memset(found, 0, sizeof found);
    holds(tickmallet_read_hex(&d, (const uint8_t *)across, sizeof across - 1, found, words + 9, &line, &column) == number &&
              line == (number ? 1 : 0) && column == (number ? 10 : 0) && !memcmp(found, image, 2 * (words + 9)),
          "a record across 64 KiB gives 7FFFh and 8000h, where both are words of the device");
}

static void write_apart(void)
{
    static const char apart[] = ":02FFFE003412BB\n:020000040001F9\n:020000005600A8\n:00000001FF\n";
    size_t length;
    blank(image, COUNT);
    image[0x7fff] = 0x1234, image[P] = 0x0056;
    holds(tickmallet_write_hex(&big, image, COUNT, text, sizeof text, &length) == 0 && length == sizeof apart - 1 && !memcmp(text, apart, length),
          "7FFFh and 8000h are written as two records");
}

static void read_lines(size_t count, unsigned number)
{
    uint32_t line, column;
    memset(text, '\n', sizeof text);
    memcpy(text, ":00000001FF", 11);
    blank(image, COUNT);
    memset(found, 0, sizeof found);
    holds(tickmallet_read_hex(&big, text, count, found, COUNT, &line, &column) == number && line == 0 && column == 0 &&
              !memcmp(found, image, sizeof found),
          "a text may have 524288 bytes and no more");
}

/* ---- every word of the largest device */

/* Words that lie 16384, 8192 or fewer apart have different values. */
static uint16_t value(size_t i)
{
    return (uint16_t)((i + 0x0b57 * (i >> 14)) & 0x3fff);
}

/* An image that gives every word. In the reading either no bit of a program word or user ID is the same, so that each row rises and the user
   IDs do, or all bits are 1, so that nothing does. */
static void all_given(int rises)
{
    for (size_t i = 0; i < COUNT; i++) {
        image[i] = i >= P + 4 && i < P + 7 ? 0xffff : value(i);
        reading[i] = rises ? (uint16_t)(value(i) ^ 0x3fff) : 0x3fff;
    }
    reading[P + 6] = 0x2a01;
    reading[P + 7] = reading[P + 8] = 0x3fff;
    image[P + 7] = 0x1580, image[P + 8] = 0x0580;
}

static void update_all(int rises)
{
    const size_t in_all = rises ? 73750 : 73750 - 4096 - 1; /* a Row Erase for each row, and one for the user IDs */
    size_t steps, done, words_read;
    all_given(rises);
    holds(tickmallet_update(&short_rows, image, COUNT, reading, COUNT, stream, sizeof stream, &steps) == 0 && steps == in_all,
          "an update of every word of the largest device has 73750 steps, or 69653 if nothing rises");
    memcpy(cells, reading, sizeof reading);
    cells[COUNT] = cells[COUNT + 1] = 0x3fff;
    holds(tickmallet_run(&short_rows, cells, COUNT + 2, stream, 3 * steps, steps, found, 0, &done, &words_read) == 0 && done == in_all, "it runs");
    image[P + 4] = reading[P + 4], image[P + 5] = reading[P + 5], image[P + 6] = 0x2a01;
    image[P + 8] |= 0x000c; /* spare bits, which stay */
    holds(!memcmp(cells, image, sizeof image), "and every word is the image's");
    holds(tickmallet_read_back(&short_rows, stream, sizeof stream, &steps) == 0 && steps == 65554,
          "a read-back of the largest device has 65554 steps");
    holds(tickmallet_run(&short_rows, cells, COUNT + 2, stream, 3 * steps, steps, found, COUNT, &done, &words_read) == 0 && done == 65554 &&
              words_read == COUNT && !memcmp(found, image, sizeof image),
          "it reads every word");
}

/* The longest name. The sum by hand: the program words are each word twice, so that 3FFFh times 4000h is their sum, C000h, and with 3EFFh and
   3FF3h that is 3EF2h. */
#define NAME "ABCDEFGHIJKLMNOP"
#define FIRST "2A01\t" NAME "\t3EF2\n"

enum { OLD = 184375, NEW = 184397, FIRST_LEN = sizeof FIRST - 1 };

static const char table[] = NAME "\t2A01\t32768\t32\t3EFF\t3FF3\n";
static uint8_t new_text[NEW], moved[NEW];

static void read_all(const uint8_t *from, size_t length, const char *what)
{
    memset(found, 0, sizeof found);
    holds(tickmallet_read_sheet(&big, (const uint8_t *)NAME, 16, from, length, found, COUNT) == 0 && !memcmp(found, reading, sizeof found), what);
}

static void sheet_of_all(void)
{
    size_t length;
    all_given(1);
    holds(tickmallet_write_sheet(&big, reading, COUNT, text, sizeof text, &length) == 0 && length == OLD,
          "a sheet of the largest device has 184375 bytes");
    holds(!memcmp(text + OLD - 50 - 45 - 1, "\n7FF8\t", 6) && !memcmp(text + OLD - 50 - 1, "\n8000\t", 6), "its last lines are 7FF8 and 8000");
    read_all(text, OLD, "it is read as the same words");
    holds(tickmallet_write_new_sheet(&big, (const uint8_t *)NAME, 16, reading, COUNT, new_text, sizeof new_text, &length) == 0 && length == NEW,
          "of the new form it has 184397 bytes");
    holds(!memcmp(new_text, FIRST, FIRST_LEN) && !memcmp(new_text + FIRST_LEN, text + 5, OLD - 5), "it differs in the first line alone");
    read_all(new_text, NEW, "it is read as the same words too");
}

/* After sheet_of_all: each of its two texts is moved to both forms, into just the room that it takes and into one byte less. */
static void move_all(void)
{
    const uint8_t *const texts[2] = {text, new_text};
    const size_t lengths[2] = {OLD, NEW};
    uint8_t (*move)(const uint8_t *, size_t, const uint8_t *, size_t, uint8_t *, size_t, size_t *);
    size_t length, n = sizeof table - 1;
    for (int from = 0; from < 2; from++)
        for (int to = 0; to < 2; to++) {
            move = to ? tickmallet_to_new : tickmallet_to_old;
            memset(moved, 0, sizeof moved);
            holds(move((const uint8_t *)table, n, texts[from], lengths[from], moved, lengths[to] - 1, &length) == 26 && length == 0 && moved[0] == 0,
                  "a sheet of the largest device does not go into less");
            holds(move((const uint8_t *)table, n, texts[from], lengths[from], moved, lengths[to], &length) == 0 && length == lengths[to] &&
                      !memcmp(moved, texts[to], length),
                  "a sheet of the largest device is moved");
        }
    new_text[FIRST_LEN - 2] = '3';
    holds(tickmallet_to_old((const uint8_t *)table, n, new_text, NEW, moved, sizeof moved, &length) == 19, "its sum is judged");
    new_text[FIRST_LEN - 2] = '2', new_text[NEW - 2] = 'E'; /* the sum of before, and 3FFE at 8008h */
    holds(tickmallet_to_old((const uint8_t *)table, n, new_text, NEW, moved, sizeof moved, &length) == 19, "by all its words");
}

/* A blank board's sum by hand: 8000h for the program words, as 2^15 times 3FFFh, and 3EFFh and 3FF3h. */
static void judge_all(void)
{
    uint16_t sum, address;
    size_t count;
    for (size_t i = 0; i < COUNT; i++)
        reading[i] = 0x3fff, found[i] = 0x3ffe;
    holds(tickmallet_checksum(&big, reading, COUNT, &sum) == 0 && sum == 0xfef2, "the checksum of a blank board of the largest device");
    holds(tickmallet_verify(&big, found, COUNT, reading, COUNT, &address, &count) == 40 && address == 0 && count == P + 6,
          "every word that is judged differs");
    memcpy(found, reading, sizeof found);
    found[P] = 0;
    holds(tickmallet_verify(&big, found, COUNT, reading, COUNT, &address, &count) == 40 && address == 0x8000 && count == 1,
          "8000h alone differs");
    found[P - 1] = 0;
    holds(tickmallet_verify(&big, found, COUNT, reading, COUNT, &address, &count) == 40 && address == 0x7fff && count == 2,
          "7FFFh and 8000h differ");
}

void agree_largest(void)
{
    records();
    read_across(32768, 0);
    read_across(32736, 7);
    read_across(8192, 7);
    write_apart();
    read_lines(131073, 0);
    read_lines(MOST_TEXT, 0);
    read_lines(MOST_TEXT + 1, 1);
    update_all(1);
    update_all(0);
    sheet_of_all();
    move_all();
    judge_all();
}
