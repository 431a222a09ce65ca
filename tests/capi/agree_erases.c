/* Which rows an update erases, and whether the user IDs: those in which a word rises, so that a bit which was read as 0 is to be 1. */
#include <stdio.h>
#include <string.h>

#include "agree.h"
#include "plain_common.h"
#include "random.h"

static uint8_t stream[MOST_BYTES];

static int is_configuration(uint16_t counter)
{
    return counter >= BASE;
}

/* Where the Row Erases of a stream stand: how many at each row, and behind the rows how many at the user IDs. */
static void find_erases(const uint8_t *from, size_t steps, size_t rows, size_t row, uint8_t *erases)
{
    uint16_t counter = 0;
    memset(erases, 0, rows + 1);
    for (; steps; steps--, from += 3)
        switch (from[0]) {
        case 0x16: counter = 0; break;
        case 0x00: counter = BASE; break;
        case 0x06: counter++; break;
        case 0x11: erases[is_configuration(counter) ? rows : counter / row]++; break;
        }
}

static void update(const struct board *b, size_t room)
{
    size_t count = b->words + 9;
    begin(room, 0, 0);
    proved.number = tickmallet_update(&b->device, b->image, count, b->reading, count, proved.bytes, room, &proved.a);
    plain.number = plain_update(&b->device, b->image, count, b->reading, count, plain.bytes, room, &plain.a);
    end(UPDATE);
}

/* ---- boards whose image is made of the reading, row by row, so that it is known what each row needs */

/* Of the words of a row, or of the four user IDs. The last five rise: in one word alone, or in several; others may fall. */
enum change { STAYS, FALLS, RISES_FIRST, RISES_LAST, RISES_BETWEEN, RISES_ANYWHERE, RISES_OFTEN, CHANGES };

static struct board board;
static enum change changes[TICKMALLET_MOST_WORDS / 8 + 1]; /* of each row, and behind them of the user IDs */
static unsigned rows_met[CHANGES], ids_met[CHANGES];

static uint16_t one_bit(void)
{
    return (uint16_t)(1u << below(14));
}

static void stay(size_t i)
{
    board.image[i] = below(2) ? board.reading[i] : NOT_GIVEN;
}

static void fall(size_t i)
{
    uint16_t bits = below(2) ? one_bit() : one_bit() | word();
    board.reading[i] |= bits;
    board.image[i] = board.reading[i] & ~bits;
}

/* By one bit; of the others none falls, or any. */
static void rise(size_t i)
{
    uint16_t bit = one_bit();
    board.reading[i] &= ~bit;
    board.image[i] = (below(2) ? board.reading[i] : board.reading[i] & word()) | bit;
}

static void change(size_t first, size_t count, enum change change)
{
    const size_t last = first + count - 1, any = first + below((uint32_t)count);
    for (size_t i = first; i <= last; i++)
        stay(i);
    if (change == STAYS)
        return;
    for (uint32_t falls = change == FALLS ? 1 + below((uint32_t)count) : below(3) * below((uint32_t)count); falls; falls--)
        fall(first + below((uint32_t)count));
    switch (change) {
    case RISES_FIRST: rise(first); break;
    case RISES_LAST: rise(last); break;
    case RISES_BETWEEN: rise(first + 1 + below((uint32_t)count - 2)); break;
    case RISES_ANYWHERE: rise(any); break;
    case RISES_OFTEN:
        for (uint32_t rises = 1 + below((uint32_t)count); rises; rises--)
            rise(first + below((uint32_t)count));
        break;
    default: break;
    }
}

/* One of all changes, or on some boards one of the first few: with 1 nothing differs, with 2 nothing rises. */
static enum change any_change(uint32_t of)
{
    return (enum change)below(of);
}

static size_t row_of(const struct board *b)
{
    return device_ok(&b->device) && b->device.words == b->words ? b->device.row : 8; /* 8 where the record is damaged, and so refused */
}

/* Configuration words, and what is damaged, are those of the board that is given. */
static void change_board(const struct board *b)
{
    size_t row = row_of(b), rows = b->words / row;
    uint32_t of = below(4) ? CHANGES : 1 + below(CHANGES), of_ids = below(4) ? CHANGES : 1 + below(CHANGES);
    board = *b;
    for (size_t r = 0; r < rows; r++) {
        changes[r] = any_change(of);
        change(r * row, row, changes[r]);
    }
    changes[rows] = any_change(of_ids);
    change(b->words, 4, changes[rows]);
}

static int erased_where_it_rises(size_t steps)
{
    static uint8_t erases[TICKMALLET_MOST_WORDS / 8 + 1];
    size_t row = row_of(&board), rows = board.words / row;
    find_erases(proved.bytes, steps, rows, row, erases);
    for (size_t r = 0; r <= rows; r++)
        if (erases[r] != (changes[r] >= RISES_FIRST))
            return 0;
    return 1;
}

static void count_changes(void)
{
    size_t rows = board.words / row_of(&board);
    for (size_t r = 0; r < rows; r++)
        rows_met[changes[r]]++;
    ids_met[changes[rows]]++;
}

/* Whether cells are the reading with what is given in its place; of a configuration word the image has no say in spare bits. */
static int are_wanted(const uint16_t *cells)
{
    size_t p = board.words;
    for (size_t i = 0; i < p + 11; i++) {
        uint16_t spare = i < p ? 0 : spare_bits(&board.device, i - p), read = board.reading[i];
        int given = i < p + 9 && board.image[i] != NOT_GIVEN;
        if (cells[i] != (given ? (board.image[i] & ~spare) | (read & spare) : read))
            return 0;
    }
    return 1;
}

static void run(size_t steps)
{
    size_t count = board.words + 11;
    memcpy(stream, proved.bytes, 3 * steps);
    begin(0, 0, count);
    memcpy(proved.cells, board.reading, 2 * count);
    memcpy(plain.cells, board.reading, 2 * count);
    proved.number = tickmallet_run(&board.device, proved.cells, count, stream, 3 * steps, steps, proved.words, 0, &proved.a, &proved.b);
    plain.number = plain_run(&board.device, plain.cells, count, stream, 3 * steps, steps, plain.words, 0, &plain.a, &plain.b);
    end(RUN);
}

void agree_erases(const struct board *b)
{
    size_t need = 0;
    change_board(b);
    plain_update(&board.device, board.image, b->words + 9, board.reading, b->words + 9, stream, MOST_BYTES, &need);
    update(&board, some_room(3 * need));
    if (proved.number)
        return;
    size_t steps = proved.a;
    holds(erased_where_it_rises(steps), "an update erases the rows in which a word rises, the user IDs if one of them does, and nothing else");
    count_changes();
    run(steps);
    holds(board.reading[b->words + 9] > ERASED || board.reading[b->words + 10] > ERASED || (proved.number == 0 && are_wanted(proved.cells)),
          "a board that holds the reading has every wanted word after it"); /* the two calibration words, which no update looks at, may be none */
}

/* ---- by figures that were worked out by hand */

struct word {
    uint16_t at, read, given; /* FFFFh: not given */
};

struct step {
    uint8_t code;
    uint16_t payload;
};

/* A blank board but for some words. */
struct example {
    struct word words[4];
    size_t count, steps, erases;
    const struct step *whole; /* or none */
};

static const struct step blank_row[] = {
    {0x16, 0},      {0x02, 0x7ffe}, {0x06, 0},      {0x02, 0x7ffe}, {0x06, 0},      {0x02, 0x7ffe}, {0x06, 0},      {0x02, 0x2468}, {0x06, 0},
    {0x02, 0x7ffe}, {0x06, 0},      {0x02, 0x7ffe}, {0x06, 0},      {0x02, 0x7ffe}, {0x06, 0},      {0x02, 0x7ffe}, {0x08, 0}};
static const struct step risen_row[] = {
    {0x16, 0},      {0x11, 0},      {0x02, 0x7ffe}, {0x06, 0},      {0x02, 0x7ffe}, {0x06, 0},      {0x02, 0x7ffe}, {0x06, 0},      {0x02, 0x2468},
    {0x06, 0},      {0x02, 0x7ffe}, {0x06, 0},      {0x02, 0x7ffe}, {0x06, 0},      {0x02, 0x7ffe}, {0x06, 0},      {0x02, 0x7ffe}, {0x08, 0}};
static const struct step fallen_row[] = {
    {0x16, 0},      {0x02, 0x2468}, {0x06, 0},      {0x02, 0x7ffe}, {0x06, 0},      {0x02, 0x7ffe}, {0x06, 0},      {0x02, 0x0002}, {0x06, 0},
    {0x02, 0x7ffe}, {0x06, 0},      {0x02, 0x7ffe}, {0x06, 0},      {0x02, 0x7ffe}, {0x06, 0},      {0x02, 0x0000}, {0x08, 0}};
static const struct step blank_ids[] = {
    {0x16, 0}, {0x00, 0x7ffe}, {0x02, 0x001c}, {0x08, 0}, {0x06, 0}, {0x02, 0x7ffe}, {0x08, 0}, {0x06, 0}, {0x02, 0x7ffe}, {0x08, 0},
    {0x06, 0}, {0x02, 0x7ffe}, {0x08, 0}};
static const struct step risen_ids[] = {
    {0x16, 0}, {0x00, 0x7ffe}, {0x11, 0}, {0x02, 0x0018}, {0x08, 0}, {0x06, 0}, {0x02, 0x0012}, {0x08, 0}, {0x06, 0}, {0x02, 0x000a},
    {0x08, 0}, {0x06, 0}, {0x02, 0x0010}, {0x08, 0}};
static const struct step fallen_ids[] = {
    {0x16, 0}, {0x00, 0x7ffe}, {0x02, 0x0018}, {0x08, 0}, {0x06, 0}, {0x02, 0x7ffe}, {0x08, 0}, {0x06, 0}, {0x02, 0x000a}, {0x08, 0},
    {0x06, 0}, {0x02, 0x0000}, {0x08, 0}};

static const struct example examples[] = {
    /* those of the request; the user IDs that stay are given there, and then they are not */
    {{{0x0003, 0x3fff, 0x1234}}, 1, 17, 0, blank_row},
    {{{0x000b, 0x3fff, 0x1234}}, 1, 25, 0, NULL},
    {{{0x0003, 0x1200, 0x1234}}, 1, 18, 1, risen_row},
    {{{0x000b, 0x1200, 0x1234}}, 1, 26, 1, NULL},
    {{{0x0003, 0x1200, 0x1234}, {0x000b, 0x3fff, 0x0000}}, 2, 35, 1, NULL},
    {{{0x8000, 0x3fff, 0x000e}}, 1, 13, 0, blank_ids},
    {{{0x8000, 0x000e, 0x000c}, {0x8001, 0x0008, 0x0009}, {0x8002, 0x0005, 0x0005}, {0x8003, 0x0008, 0x0008}}, 4, 14, 1, risen_ids},
    {{{0x8000, 0x000e, 0x000c}, {0x8001, 0x0008, 0x0009}, {0x8002, 0x0005, 0xffff}, {0x8003, 0x0008, 0xffff}}, 4, 14, 1, risen_ids},
    /* each row by itself, and the user IDs */
    {{{0x0003, 0x3fff, 0x0000}, {0x000b, 0x1200, 0x1234}}, 2, 35, 1, NULL},
    {{{0x0003, 0x3fff, 0x0000}, {0x000b, 0x3fff, 0x1234}}, 2, 34, 0, NULL},
    {{{0x0003, 0x1200, 0x1234}, {0x000b, 0x0000, 0x0001}}, 2, 36, 2, NULL},
    {{{0x0003, 0x1200, 0x1234}, {0x8003, 0x3fff, 0x0000}}, 2, 30, 1, NULL},
    {{{0x0003, 0x3fff, 0x1234}, {0x8003, 0x0000, 0x3fff}}, 2, 30, 1, NULL},
    /* all bits but one fall, and the word is smaller; all but one rise, and it is smaller too */
    {{{0x0007, 0x3ffe, 0x0001}}, 1, 18, 1, NULL},
    {{{0x0000, 0x2000, 0x1fff}}, 1, 18, 1, NULL},
    /* words that stay, given and not, have no say, and are loaded too; so with the user IDs */
    {{{0x0000, 0x1234, 0xffff}, {0x0003, 0x0101, 0x0001}, {0x0007, 0x0000, 0x0000}}, 3, 17, 0, fallen_row},
    {{{0x8000, 0x000e, 0x000c}, {0x8002, 0x0005, 0x0005}, {0x8003, 0x0000, 0xffff}}, 3, 13, 0, fallen_ids},
    /* a configuration word falls, and the user IDs, which are not blank, stay */
    {{{0x8000, 0x0000, 0xffff}, {0x8007, 0x3fff, 0x3f7f}}, 2, 11, 0, NULL}};

static void blank_board(size_t words, size_t row)
{
    board.device = (tickmallet_device){0x2a00, (uint16_t)words, (uint16_t)row, 0x3eff, 0x3ff3, 0x3fff};
    board.words = words;
    for (size_t i = 0; i < words + 11; i++)
        board.image[i] = NOT_GIVEN, board.reading[i] = ERASED;
    board.reading[words + 5] = 0x2000, board.reading[words + 6] = 0x2a00;
}

static size_t place_of(uint16_t at)
{
    return is_configuration(at) ? board.words + (at - BASE) : at;
}

/* Into just the room that it takes, and not into less. */
static void update_is(size_t steps, size_t erases, const char *what)
{
    static uint8_t found[TICKMALLET_MOST_WORDS / 8 + 1];
    size_t rows = board.words / board.device.row, sum = 0;
    update(&board, 3 * steps - 1);
    holds(proved.number == 26 && proved.a == 0 && untouched(0), what);
    update(&board, 3 * steps);
    holds(proved.number == 0 && proved.a == steps, what);
    find_erases(proved.bytes, proved.a, rows, board.device.row, found);
    for (size_t r = 0; r <= rows; r++)
        sum += found[r];
    holds(sum == erases, what);
}

static int is_whole(const struct step *whole, size_t steps)
{
    for (size_t i = 0; i < steps; i++)
        if (proved.bytes[3 * i] != whole[i].code || proved.bytes[3 * i + 1] + 256u * proved.bytes[3 * i + 2] != whole[i].payload)
            return 0;
    return 1;
}

static void by_figures(const struct example *e)
{
    blank_board(16, 8);
    for (size_t i = 0; i < e->count; i++) {
        size_t place = place_of(e->words[i].at);
        board.reading[place] = e->words[i].read, board.image[place] = e->words[i].given;
    }
    update_is(e->steps, e->erases, "an update by figures: its steps, and its Row Erases");
    holds(!e->whole || is_whole(e->whole, e->steps), "an update by figures: the whole stream");
    run(e->steps);
    holds(proved.number == 0 && are_wanted(proved.cells), "an update by figures: what it leaves");
}

/* One bit of one word alone goes up or down; the other words are not given, or given as they are. */
static void one_bit_goes(size_t place, unsigned bit, int up, int given, size_t steps)
{
    uint16_t other = board.reading[place], with = (uint16_t)(1u << bit);
    for (size_t i = 0; i < board.words + 4; i++)
        board.image[i] = given ? board.reading[i] : NOT_GIVEN;
    board.reading[place] = up ? other & ~with : other | with;
    board.image[place] = up ? other | with : other & ~with;
    update_is(steps, up != 0, "an update of one bit in each place: a Row Erase if it goes up, and none if it goes down");
    board.reading[place] = other;
}

/* Each bit of each word of two rows, and of the four user IDs, on a board that is blank and on one that is not. */
static void each_bit(size_t row, int blank)
{
    blank_board(2 * row, row);
    for (size_t i = 0; i < 2 * row + 4; i++)
        board.reading[i] = blank ? ERASED : word();
    for (size_t i = 0; i < 2 * row + 4; i++)
        for (unsigned bit = 0; bit < 14; bit++)
            for (int way = 0; way < 4; way++) {
                size_t without = i < row ? 1 + 2 * row : i < 2 * row ? 1 + row + 2 * row : 13;
                one_bit_goes(i, bit, way & 1, way & 2, without + (way & 1));
            }
}

static void show_met(const char *what, const unsigned *met, unsigned enough)
{
    printf("%s: %u stay, %u fall, %u rise in the first word, %u in the last, %u in one between, %u in any one, %u in several\n", what, met[STAYS],
           met[FALLS], met[RISES_FIRST], met[RISES_LAST], met[RISES_BETWEEN], met[RISES_ANYWHERE], met[RISES_OFTEN]);
    for (enum change c = 0; c < CHANGES; c++)
        holds(met[c] >= enough, "updates meet every change of a row and of the user IDs often enough");
}

void agree_erase_cases(void)
{
    for (size_t i = 0; i < sizeof examples / sizeof *examples; i++)
        by_figures(&examples[i]);
    for (size_t row = 8; row <= 32; row *= 2)
        for (int blank = 0; blank < 2; blank++)
            each_bit(row, blank);
    show_met("rows of updates", rows_met, 1000);
    show_met("user IDs of updates", ids_met, 500);
}
