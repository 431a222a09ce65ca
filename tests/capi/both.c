#include <stdio.h>
#include <string.h>

#include "both.h"
#include "random.h"

enum { FILLS = 4, NUMBERS = 64, ENOUGH = 20, SHOWN = 10, LAST = 255 };

/* the numbers that each call can give by tickmallet.h */
static const struct {
    const char *name;
    uint8_t numbers[16];
} calls[CALLS] = {
    {"find_device", {0, 15, 16, LAST}},
    {"read_id", {0, 14, LAST}},
    {"read_sheet", {0, 12, 13, 14, 18, 19, LAST}},
    {"write_sheet", {0, 13, 21, 26, LAST}},
    {"write_new_sheet", {0, 13, 21, 26, LAST}},
    {"to_new", {0, 14, 15, 16, 18, 19, 26, LAST}},
    {"to_old", {0, 14, 15, 16, 18, 19, 26, LAST}},
    {"read_hex", {0, 1, 2, 3, 4, 5, 6, 7, 8, 9, 10, 11, 12, 13, LAST}},
    {"write_hex", {0, 13, 20, 26, LAST}},
    {"run", {0, 13, 30, 31, 32, 33, 34, 35, LAST}},
    {"update", {0, 13, 20, 21, 22, 23, 24, 26, LAST}},
    {"fresh", {0, 13, 20, 22, 26, LAST}},
    {"read_back", {0, 13, 26, LAST}},
    {"checksum", {0, 13, 21, LAST}},
    {"verify", {0, 13, 21, 40, 41, LAST}},
};

struct side proved, plain;

static unsigned passed, failed, seen[CALLS][NUMBERS][FILLS];
static size_t bytes_lent, words_lent, cells_lent;
static unsigned fill;
static const int with[FILLS] = {0x5a, 0xa5, 0x00, 0xff};

/* No value that is stored can be what stood there before under every fill. */
static void fill_side(struct side *s)
{
    memset(s, with[fill], offsetof(struct side, bytes));
    memset(s->bytes, with[fill], bytes_lent);
    memset(s->words, with[fill], 2 * words_lent);
    memset(s->cells, with[fill], 2 * cells_lent);
}

void begin(size_t bytes, size_t words, size_t cells)
{
    bytes_lent = bytes + GUARD, words_lent = words + GUARD, cells_lent = cells + GUARD;
    fill = below(FILLS);
    fill_side(&proved);
    fill_side(&plain);
}

static int is_filled(const void *buffer, size_t count)
{
    for (const uint8_t *b = buffer; count; b++, count--)
        if (*b != with[fill])
            return 0;
    return 1;
}

int untouched(size_t from)
{
    return is_filled(proved.bytes + from, bytes_lent - from) && is_filled(proved.words, 2 * words_lent) && is_filled(proved.cells, 2 * cells_lent);
}

static int same(void)
{
    return !memcmp(&proved, &plain, offsetof(struct side, bytes)) && !memcmp(proved.bytes, plain.bytes, bytes_lent) &&
           !memcmp(proved.words, plain.words, 2 * words_lent) && !memcmp(proved.cells, plain.cells, 2 * cells_lent);
}

void end(enum call call)
{
    seen[call][proved.number % NUMBERS][fill]++;
    if (same()) {
        passed++;
    } else if (failed++ < SHOWN) {
        printf("%s differs: number %u, in C %u; what was held before: %u\n", calls[call].name, proved.number, plain.number, passed);
    }
}

unsigned zeros(enum call call)
{
    unsigned n = 0;
    for (unsigned f = 0; f < FILLS; f++)
        n += seen[call][0][f];
    return n;
}

void holds(int fact, const char *what)
{
    if (fact) {
        passed++;
    } else {
        failed++;
        printf("does not hold: %s\n", what);
    }
}

/* Takes a number out of the table: how often it came up under the fill where it came up least. */
static unsigned least(enum call call, unsigned number)
{
    unsigned n = seen[call][number][0];
    for (unsigned f = 0; f < FILLS; f++) {
        if (seen[call][number][f] < n)
            n = seen[call][number][f];
        seen[call][number][f] = 0;
    }
    return n;
}

static void show_seen(enum call call)
{
    printf("%-15s", calls[call].name);
    for (const uint8_t *number = calls[call].numbers; *number != LAST; number++) {
        unsigned n = least(call, *number);
        printf(" %u:%u", *number, n);
        holds(n >= ENOUGH, "each number of this call comes up often enough");
    }
    printf("\n");
    unsigned others = 0;
    for (unsigned number = 0; number < NUMBERS; number++)
        for (unsigned f = 0; f < FILLS; f++)
            others += seen[call][number][f];
    holds(others == 0, "this call gives no number that is not its own");
}

int all_hold(void)
{
    printf("number:times by call, the least of %d contents of the buffers before\n", FILLS);
    for (enum call call = 0; call < CALLS; call++)
        show_seen(call);
    printf("%u passed, %u failed\n", passed, failed);
    return failed == 0;
}
