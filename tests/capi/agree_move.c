/* Sheets moved from one form to the other, under a device table. */
#include <stdio.h>
#include <string.h>

#include "agree.h"
#include "random.h"

enum { MOST_TABLE = 512 };

static uint8_t table[MOST_TABLE], other[MOST_SHEET], back[MOST_SHEET];
static size_t table_len;

/* ---- both sides of a move */

typedef uint8_t move(const uint8_t *, size_t, const uint8_t *, size_t, uint8_t *, size_t, size_t *);

void both_move(enum call call, const uint8_t *under, size_t under_len, const uint8_t *text, size_t n, size_t room)
{
    move *proved_move = call == TO_NEW ? tickmallet_to_new : tickmallet_to_old, *plain_move = call == TO_NEW ? plain_to_new : plain_to_old;
    begin(room, 0, 0);
    proved.number = proved_move(under, under_len, text, n, proved.bytes, room, &proved.a);
    plain.number = plain_move(under, under_len, text, n, plain.bytes, room, &plain.a);
    end(call);
}

/* Whether a moved text has just so many bytes: it is taken with this room, and not with one byte less. What came out goes to `to`. */
static int moves_to(enum call call, const uint8_t *text, size_t n, size_t need, uint8_t *to)
{
    both_move(call, table, table_len, text, n, need);
    int fits = proved.number == 0 && proved.a == need;
    memcpy(to, proved.bytes, need);
    both_move(call, table, table_len, text, n, need - 1);
    return fits && proved.number == 26 && proved.a == 0;
}

/* A sheet of the new form is longer than the same of the old one by its name, two tabs and four digits. */
static size_t other_length(size_t n)
{
    if (sheet[4] == '\t')
        return n - 6 - (size_t)((uint8_t *)memchr(sheet + 5, '\t', n - 5) - (sheet + 5));
    uint16_t id;
    tickmallet_device d;
    size_t at, len;
    plain_read_id(sheet, n, &id);
    plain_find_device(table, table_len, id, &d, &at, &len);
    return n + 6 + len;
}

/* A sheet that is not refused: moved to its own form it comes out the same, and so it does there and back. */
static void there_and_back(size_t n)
{
    int is_new = sheet[4] == '\t';
    enum call own = is_new ? TO_NEW : TO_OLD, away = is_new ? TO_OLD : TO_NEW;
    size_t n_other = other_length(n);
    holds(moves_to(own, sheet, n, n, back) && !memcmp(back, sheet, n), "a sheet that has the form comes out the same");
    holds(moves_to(away, sheet, n, n_other, other), "in the other form it is longer or shorter by what that form has");
    holds(moves_to(own, other, n_other, n, back) && !memcmp(back, sheet, n), "there and back it is the same");
}

/* ---- the sheet of a board, under a table that has its record */

static size_t put_line(size_t n, const uint8_t *name, size_t name_len, const tickmallet_device *d)
{
    memcpy(table + n, name, name_len);
    n += name_len;
    n += (size_t)snprintf((char *)table + n, 48, "\t%04X\t%u\t%u\t%04X\t%04X", d->id, d->words, d->row, d->mask1, d->mask2);
    if (d->idmask != 0x3fff || below(2))
        n += (size_t)snprintf((char *)table + n, 8, "\t%04X", d->idmask);
    table[n] = '\n';
    return n + 1;
}

/* Any one bit of a mask, or none where it has none. */
static unsigned any_bit(unsigned mask)
{
    unsigned first = below(14);
    for (unsigned i = 0; i < 14; i++)
        if (mask >> (first + i) % 14 & 1)
            return 1u << (first + i) % 14;
    return 0;
}

/* A line that two bits of the board's mask keep apart from the board's line and from the other ones here; `turned` are those that it has
   turned. */
static size_t put_other(size_t n, const struct board *b, unsigned bits, unsigned turned)
{
    uint8_t name[TICKMALLET_MOST_NAME + 1];
    unsigned row = 8u << below(3), words = row * (1 + below(TICKMALLET_MOST_WORDS / row)), id = (b->device.id ^ turned) & bits, mask = bits | word();
    tickmallet_device d = {(uint16_t)(id | (word() & ~bits)), (uint16_t)words, (uint16_t)row, 0x3eff, 0x3ff3, (uint16_t)mask};
    size_t name_len = b->name_len; /* two lines may have one name */
    memcpy(name, b->name, sizeof name);
    if (below(3))
        name_len = sound_name(name);
    return put_line(n, name, name_len, &d);
}

/* Up to four lines, of which one is the board's. */
static void any_table(const struct board *b)
{
    unsigned one = any_bit(b->device.idmask), two = any_bit(b->device.idmask & ~one), turned[3] = {one, two, one | two};
    uint32_t others = below(two ? 4 : one ? 2 : 1), place = below(others + 1);
    size_t n = 0;
    for (uint32_t i = 0; i <= others; i++)
        n = i == place ? put_line(n, b->name, b->name_len, &b->device) : put_other(n, b, one | two, turned[i < place ? i : i - 1]);
    table_len = n;
}

static void damage_table(const struct board *b)
{
    switch (below(4)) {
    case 0: table_len--; break;
    case 1: table_len = put_line(table_len, b->name, b->name_len, &b->device); break; /* a word fits two lines */
    case 2: table_len = below((uint32_t)table_len); break;
    default: table[below((uint32_t)table_len)] = (uint8_t)below(256); break;
    }
}

/* With room about the length of what comes out, or, of a sheet that is refused, its own. */
static void both_ways(size_t n)
{
    size_t need;
    uint8_t number = plain_to_new(table, table_len, sheet, n, other, sizeof other, &need);
    both_move(TO_NEW, table, table_len, sheet, n, some_room(number ? n : need));
    number = plain_to_old(table, table_len, sheet, n, other, sizeof other, &need);
    both_move(TO_OLD, table, table_len, sheet, n, some_room(number ? n : need));
}

void agree_moves(const struct board *b)
{
    size_t n = any_sheet(b), need;
    any_table(b);
    both_ways(n);
    if (!plain_to_old(table, table_len, sheet, n, other, sizeof other, &need))
        there_and_back(n);
    if (n)
        n = damaged_sheet(b, n);
    if (!below(8))
        damage_table(b);
    both_ways(n);
}

/* ---- by figures that were worked out by hand */

#define PROGRAM "0000\t3FFF\t3FFF\t3FFF\t3FFF\t3FFF\t3FFF\t3FFF\t3FFF\n0008\t3FFF\t3FFF\t3FFF\t3FFF\t3FFF\t3FFF\t3FFF\t3FFF\n"
#define BLANK PROGRAM "8000\t3FFF\t3FFF\t3FFF\t3FFF\t3FFF\t2000\t2A00\t3FFF\t3FFF\n"
#define HIDDEN PROGRAM "8000\t000E\t0008\t0005\t0008\t3FFF\t2000\t2A00\t3F7F\t3FFF\n"
#define MCP PROGRAM "8000\t3FFF\t3FFF\t3FFF\t3FFF\t3FFF\t2000\t2F85\t3FFF\t3FFF\n"

static const char lines[] = "TINY\t2A00\t16\t8\t3EFF\t3FF3\nMCP19111\t2F82\t16\t8\t3EFF\t3FF3\t3FE0\n";

static const struct {
    const char *old_text, *new_text;
    size_t old_len, new_len;
} figures[] = {
    {"2A00\n" BLANK, "2A00\tTINY\t7EE2\n" BLANK, 145, 155},      /* sixteen times 3FFF, 3EFF and 3FF3 */
    {"2A00\n" HIDDEN, "2A00\tTINY\t66CA\n" HIDDEN, 145, 155},    /* E858, 3E7F and 3FF3 */
    {"2F84\n" MCP, "2F84\tMCP19111\t7EE2\n" MCP, 145, 159},      /* neither ID is the record's, and both stay */
    {"2F82\n" BLANK, "2F82\tMCP19111\t7EE2\n" BLANK, 145, 159},  /* an 8006h that does not fit is another's to refuse */
};

void agree_moved(void)
{
    table_len = sizeof lines - 1;
    memcpy(table, lines, table_len);
    for (size_t i = 0; i < sizeof figures / sizeof *figures; i++) {
        const uint8_t *const texts[2] = {(const uint8_t *)figures[i].old_text, (const uint8_t *)figures[i].new_text};
        const size_t len[2] = {figures[i].old_len, figures[i].new_len};
        for (int from = 0; from < 2; from++)
            for (int to = 0; to < 2; to++)
                holds(moves_to(to ? TO_NEW : TO_OLD, texts[from], len[from], len[to], back) && !memcmp(back, texts[to], len[to]),
                      "moves by figures: each form from each form");
    }
}
