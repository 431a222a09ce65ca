/* Board sheets of either form: read, written, and their first line. */
#include <string.h>

#include "agree.h"
#include "random.h"

void both_read_id(size_t n)
{
    begin(0, 0, 0);
    proved.number = tickmallet_read_id(sheet, n, &proved.value);
    plain.number = plain_read_id(sheet, n, &plain.value);
    end(READ_ID);
}

void both_read_sheet(const tickmallet_device *d, const uint8_t *name, size_t name_len, size_t n, size_t count)
{
    begin(0, count, 0);
    proved.number = tickmallet_read_sheet(d, name, name_len, sheet, n, proved.words, count);
    plain.number = plain_read_sheet(d, name, name_len, sheet, n, plain.words, count);
    end(READ_SHEET);
}

void both_write_sheet(const tickmallet_device *d, const uint16_t *reading, size_t count, size_t room)
{
    begin(room, 0, 0);
    proved.number = tickmallet_write_sheet(d, reading, count, proved.bytes, room, &proved.a);
    plain.number = plain_write_sheet(d, reading, count, plain.bytes, room, &plain.a);
    end(WRITE_SHEET);
}

void both_write_new_sheet(const tickmallet_device *d, const uint8_t *name, size_t name_len, const uint16_t *reading, size_t count, size_t room)
{
    begin(room, 0, 0);
    proved.number = tickmallet_write_new_sheet(d, name, name_len, reading, count, proved.bytes, room, &proved.a);
    plain.number = plain_write_new_sheet(d, name, name_len, reading, count, plain.bytes, room, &plain.a);
    end(WRITE_NEW_SHEET);
}

/* ---- sheets of a board */

static void write_sheets(const struct board *b)
{
    size_t p = b->words, count = about(p + 9), new_count = about(p + 9);
    both_write_sheet(&b->device, b->reading, count, some_room(TICKMALLET_SHEET_BYTES(p)));
    both_write_new_sheet(&b->device, b->name, b->name_len, b->reading, new_count, some_room(TICKMALLET_NEW_SHEET_BYTES(p, b->name_len)));
}

/* Under the board's name, or now and then under another: a sheet of the old form is taken all the same. */
static void read_sheet(const struct board *b, size_t n)
{
    uint8_t other[TICKMALLET_MOST_NAME];
    size_t count = about(b->words + 9), other_len = sound_name(other);
    if (below(12))
        both_read_sheet(&b->device, b->name, b->name_len, n, count);
    else
        both_read_sheet(&b->device, other, other_len, n, count);
    both_read_id(below(4) ? n : below((uint32_t)(n < 40 ? n + 1 : 40)));
}

void agree_sheets(const struct board *b)
{
    write_sheets(b);
    size_t n = any_sheet(b);
    read_sheet(b, n);
    if (n)
        read_sheet(b, damaged_sheet(b, n));
}

/* ---- the first line under a mask, by figures that were worked out by hand */

static const struct {
    uint16_t mask, first;
    uint8_t number;
} firsts[] = {
    {0x3fe0, 0x2f84, 0},  {0x3fe0, 0x2f80, 0},  {0x3fe0, 0x2f82, 0},  {0x3fe0, 0x2f9f, 0}, {0x3fe0, 0x2fa0, 14}, {0x3fe0, 0x2f7f, 14},
    {0x3fe0, 0x0f82, 14}, {0x3fe0, 0x6f82, 14}, {0x3fff, 0x2f82, 0},  {0x3fff, 0x2f83, 14}, {0x0000, 0x0000, 0},  {0x0000, 0x3fff, 0},
    {0x0000, 0x4000, 14}, {0x0000, 0xffff, 14}, {0x4000, 0x2f82, 13}, {0xffff, 0x2f82, 13}};

/* The words count up, but for 8006h. CP is 0 in 0017, so that the sum is 0017 + 0010 + 0123, the last of the user IDs. */
static const char old_text[] = "2F82\n"
                               "0000\t0000\t0001\t0002\t0003\t0004\t0005\t0006\t0007\n"
                               "0008\t0008\t0009\t000A\t000B\t000C\t000D\t000E\t000F\n"
                               "8000\t0010\t0011\t0012\t0013\t0014\t0015\tXXXX\t0017\t0018\n";
static const char new_first[] = "2F82\tMCP19111\t014A\n";
static const uint8_t mcp[8] = {'M', 'C', 'P', '1', '9', '1', '1', '1'};

/* Another ID on the first line. */
static void put_id(unsigned id)
{
    static const char digits[] = "0123456789ABCDEF";
    for (int i = 0; i < 4; i++)
        sheet[i] = (uint8_t)digits[id >> (12 - 4 * i) & 15];
}

/* The sheet above, with 2F82 on the first line; its length. */
static size_t put_text(int is_new, unsigned word_8006)
{
    const size_t first = is_new ? sizeof new_first - 1 : 5, n = sizeof old_text - 1 - 5 + first, at_8006 = n - 15;
    memcpy(sheet, is_new ? new_first : old_text, first);
    memcpy(sheet + first, old_text + 5, n - first);
    memcpy(sheet + at_8006, word_8006 == 0x2f85 ? "2F85" : "2FA0", 4);
    return n;
}

/* Each writer puts the record's ID on the first line, whatever was read there. */
static void write_by_figures(const tickmallet_device *d, const uint16_t *words, unsigned word_8006)
{
    size_t n = put_text(0, word_8006);
    both_write_sheet(d, words, 25, n);
    holds(proved.number == 0 && proved.a == n && !memcmp(proved.bytes, sheet, n), "write_sheet by figures: the old form, with the record's ID");
    n = put_text(1, word_8006);
    both_write_new_sheet(d, mcp, 8, words, 25, n);
    holds(proved.number == 0 && proved.a == n && !memcmp(proved.bytes, sheet, n), "write_new_sheet by figures: the new form, with the record's ID");
}

/* Whether 8006h fits the record or not, a sheet is read. */
static void by_figures(unsigned mask, unsigned first, unsigned number, unsigned word_8006, int is_new)
{
    const tickmallet_device d = {0x2f82, 16, 8, 0x3eff, 0x3ff3, (uint16_t)mask};
    size_t n = put_text(is_new, word_8006);
    put_id(first);
    both_read_id(n);
    holds(proved.number == (first < 0x4000 ? 0 : 14) && proved.value == (first < 0x4000 ? first : 0),
          "read_id by figures: any word, and nothing above");
    both_read_sheet(&d, mcp, 8, n, 25);
    holds(proved.number == number, "read_sheet by figures: the first line has to fit the record");
    if (number)
        return;
    uint16_t words[25];
    memcpy(words, proved.words, sizeof words);
    int same = 1;
    for (unsigned i = 0; i < 25; i++)
        same &= words[i] == (i == 22 ? word_8006 : i);
    holds(same, "its words are the reading");
    write_by_figures(&d, words, word_8006);
}

void agree_first_ids(void)
{
    for (size_t i = 0; i < sizeof firsts / sizeof *firsts; i++)
        for (int is_new = 0; is_new < 2; is_new++) {
            by_figures(firsts[i].mask, firsts[i].first, firsts[i].number, 0x2f85, is_new);
            by_figures(firsts[i].mask, firsts[i].first, firsts[i].number, 0x2fa0, is_new);
        }
}
