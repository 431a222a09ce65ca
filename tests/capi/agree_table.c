/* Device tables: sound ones, and each rule of a table or of a line broken by itself. */
#include <stdio.h>
#include <string.h>

#include "agree.h"
#include "random.h"

enum { MOST_LINES = 70, MOST_TABLE = 8192, ALL_WORDS = 0x4000 };

/* A line as its fields are spelt, the ID's mask with the tab before it, or nothing; `extra` stands after the last of them, and `end` ends the
   line. The two numbers are what the ID and its mask are before anything is damaged. */
struct line {
    uint16_t id_word, id_mask;
    char name[24], id[8], words[64], row[64], mask1[8], mask2[8], idmask[16], extra[16], end[4];
};

static struct line lines[MOST_LINES];
static size_t line_count;
static uint8_t table[MOST_TABLE];

static void set(char *field, const char *text)
{
    memcpy(field, text, strlen(text) + 1);
}

static void any_name(char *to, size_t length)
{
    for (size_t i = 0; i < length; i++)
        to[i] = (char)(0x20 + below(0x5f));
    to[length] = 0;
}

static void put_id(struct line *l, unsigned id, unsigned mask)
{
    l->id_word = (uint16_t)id, l->id_mask = (uint16_t)mask;
    snprintf(l->id, sizeof l->id, "%04X", id);
    if (mask == 0x3fff && below(2))
        set(l->idmask, ""); /* six fields */
    else
        snprintf(l->idmask, sizeof l->idmask, "\t%04X", mask);
}

static void any_line(struct line *l, unsigned id, unsigned mask)
{
    static const uint16_t rows[3] = {8, 16, 32};
    unsigned row = rows[below(3)], most = TICKMALLET_MOST_WORDS / row;
    unsigned words = row * (below(4) ? 1 + below(most) : below(2) ? 1 : most);
    any_name(l->name, below(3) ? 1 + below(16) : below(2) ? 1 : 16);
    put_id(l, id, mask);
    snprintf(l->words, sizeof l->words, "%u", words);
    snprintf(l->row, sizeof l->row, "%u", row);
    snprintf(l->mask1, sizeof l->mask1, "%04X", word() | 0x80u);
    snprintf(l->mask2, sizeof l->mask2, "%04X", (unsigned)word());
    set(l->extra, "");
    set(l->end, "\n");
}

/* The low bits of a number, one for each bit of a mask. */
static unsigned spread(unsigned number, unsigned mask)
{
    unsigned to = 0;
    for (unsigned bit = 1; bit <= mask; bit <<= 1)
        if (mask & bit) {
            to |= number & 1 ? bit : 0;
            number >>= 1;
        }
    return to;
}

static unsigned bits_of(unsigned mask)
{
    unsigned n = 0;
    for (; mask; mask &= mask - 1)
        n++;
    return n;
}

/* Lines of which no word fits two: all their masks have some bits, in which no two IDs are the same. An odd factor goes through all values of
   these bits before it comes back. */
static void lines_apart(size_t count)
{
    unsigned first = word(), shared = any_id_mask();
    while (1u << bits_of(shared) < count)
        shared = any_id_mask();
    line_count = count;
    for (size_t i = 0; i < count; i++) {
        unsigned other = word() & ~shared, more = below(3) == 0 ? 0x3fff : below(2) ? word() : 0;
        any_line(&lines[i], spread(first + 0x1235u * (unsigned)i, shared) | other, shared | more);
    }
}

static void any_table(void)
{
    if (below(4)) {
        lines_apart(below(8) ? 1 + below(6) : below(2) ? 64 : 1 + below(64));
        return;
    }
    line_count = 1 + below(4); /* as it comes */
    for (size_t i = 0; i < line_count; i++) {
        unsigned id = word(), mask = any_id_mask();
        any_line(&lines[i], id, mask);
    }
}

/* Two lines, neighbours or not, that some word fits both, or that one bit keeps apart. */
static void lines_meet(void)
{
    struct line *a = &lines[below((uint32_t)line_count)], *b = &lines[below((uint32_t)line_count)];
    unsigned mask = below(2) ? b->id_mask : any_id_mask(), shared = a->id_mask & mask, turned = below(3) ? 0 : 1u << below(14);
    unsigned id = a->id_word ^ (word() & ~shared) ^ turned;
    put_id(b, id, mask);
}

static size_t put_table(void)
{
    size_t n = 0;
    for (size_t i = 0; i < line_count; i++) {
        const struct line *l = &lines[i];
        n += (size_t)snprintf((char *)table + n, MOST_TABLE - n, "%s\t%s\t%s\t%s\t%s\t%s%s%s%s", l->name, l->id, l->words, l->row, l->mask1, l->mask2,
                              l->idmask, l->extra, l->end);
    }
    return n;
}

/* ---- one field of a line */

static void damage_name(struct line *l)
{
    static const uint8_t others[8] = {0x1f, 0x20, 0x7e, 0x7f, 0x80, 0xff, 0x09, 0x0d};
    switch (below(6)) {
    case 0: set(l->name, ""); break;
    case 1: any_name(l->name, 17); break;
    case 2: any_name(l->name, 16 + below(4)); break;
    default: l->name[below((uint32_t)strlen(l->name))] = (char)others[below(8)]; break;
    }
}

/* Four digits: spelt wrongly, above 3FFF, or just 3FFF. */
static void damage_word(char *field)
{
    static const char *const spelt[12] = {"4000", "3FFF", "3fff", "3FF", "03FFF", "FFFF", "", "3FFG", "3 FF", "+3FF", "3FFF ", " 3FF"};
    set(field, spelt[below(12)]);
}

/* Decimals spelt wrongly, numbers about the limits, and 2^15, 2^16, 2^32 and 2^64 more than 8, 32, 8192 and 32768: these would come back to
   the smaller number in a machine word that is too short. */
static const char *const decimals[] = {
    "0", "00", "8", "08", "008", "", " 8", "8 ", "+8", "-8", "8.", "0x8", "032768", "32768 ", "12", "24", "64",
    "8192", "8193", "8200", "8224", "32736", "32760", "32767", "32768", "32769", "32784", "40000", "65528", "65535",
    "32776", "32800", "40960", "65536", "65544", "65568", "73728", "98304", "4294967304", "4294967328", "4294975488", "4295000064",
    "18446744073709551624", "18446744073709551648", "18446744073709559808", "18446744073709584384", "340282366920938463463374607431"};
enum { DECIMALS = sizeof decimals / sizeof *decimals };

static void damage_decimal(char *field)
{
    char text[32];
    if (below(4)) {
        set(field, decimals[below(DECIMALS)]);
    } else {
        set(text, field);
        snprintf(field, 64, "%s%s", below(2) ? "0" : "1844674407370955", text);
    }
}

/* The ID's mask with what stands before it, and what may follow it: most of these no line can have. */
static const char *const sevenths[] = {"", "\t3FFF", "\t0000", "\t3FE0", "\t", "\t4000", "\t3fff", "\t3fE0", "\t3FF", "\t03FFF", "\t8000", "\tFFFF",
                                       "\t3FFG", "\t3 FF", "\t 3FF", "\t3FFF ", "\t\t3FFF", "\t3FFF3FFF", "3FFF", " 3FFF"};
static const char *const eighths[] = {"\t", "\t3FFF", "\t0000", "\tx", "\t\t", " ", "\r"};
enum { SEVENTHS = sizeof sevenths / sizeof *sevenths, EIGHTHS = sizeof eighths / sizeof *eighths };

static void damage_line(struct line *l)
{
    switch (below(10)) {
    case 0: damage_name(l); break;
    case 1: damage_word(l->id); break;
    case 2: damage_decimal(l->words); break;
    case 3: damage_decimal(l->row); break;
    case 4: damage_word(l->mask1); break;
    case 5: damage_word(l->mask2); break;
    case 6: set(l->mask1, below(2) ? "3F7F" : "0080"); break; /* bit 7, and bit 7 alone */
    case 7: set(l->idmask, sevenths[below(SEVENTHS)]); break;
    case 8: set(l->extra, eighths[below(EIGHTHS)]); break; /* after six fields it is the seventh */
    case 9: set(l->end, below(3) == 0 ? "\r\n" : below(2) ? "\n\n" : ""); break;
    }
}

/* ---- the whole table */

static void damage_lines(void)
{
    size_t i = below((uint32_t)line_count), k = below((uint32_t)line_count);
    switch (below(6)) {
    case 0: line_count = 0; break;
    case 1: lines_apart(65); break;
    case 2: set(lines[k].id, lines[i].id); break; /* the same line, or an ID twice */
    case 3: set(lines[line_count - 1].end, ""); break;
    default: damage_line(&lines[i]); break;
    }
}

static size_t lose(size_t n, size_t at, size_t count)
{
    memmove(table + at, table + at + count, n - at - count);
    return n - count;
}

/* A tab lost, or a field with its tab: five fields are left, or six. */
static size_t lose_field(size_t n, size_t at)
{
    while (at && table[at] != '\t')
        at--;
    size_t end = at + 1;
    if (below(2))
        while (end < n && table[end] != '\t' && table[end] != '\n')
            end++;
    return lose(n, at, end - at);
}

/* One character changed, lost or doubled, at any place. */
static size_t damage_text(size_t n)
{
    size_t at = below((uint32_t)n);
    switch (below(4)) {
    case 0: table[at] = (uint8_t)below(256); return n;
    case 1: return lose(n, at, 1);
    case 2: memmove(table + at + 1, table + at, n - at); return n + 1;
    default: return lose_field(n, at);
    }
}

static void find(size_t n, uint16_t id)
{
    begin(0, 0, 0);
    proved.number = tickmallet_find_device(table, n, id, &proved.device, &proved.a, &proved.b);
    plain.number = plain_find_device(table, n, id, &plain.device, &plain.a, &plain.b);
    end(FIND_DEVICE);
}

/* ---- every word tried on a table, whose lines are sound each by itself */

/* tables where no word fits two lines, where one does, and of these where no such lines are neighbours */
static unsigned tried_apart, tried_clashing, tried_far;

static int fits_line(const struct line *l, unsigned number)
{
    for (unsigned bit = 1; bit < ALL_WORDS; bit <<= 1)
        if ((l->id_mask & bit) && (l->id_word & bit) != (number & bit))
            return 0;
    return 1;
}

/* Whether some word fits two lines, and some word two neighbours. */
static void try_words(int *clash, int *beside)
{
    *clash = *beside = 0;
    for (unsigned number = 0; number < ALL_WORDS; number++) {
        size_t last = MOST_LINES;
        for (size_t i = 0; i < line_count; i++) {
            if (!fits_line(&lines[i], number))
                continue;
            *clash |= last != MOST_LINES;
            *beside |= last + 1 == i;
            last = i;
        }
    }
}

static void judge_by_words(size_t n, uint16_t id)
{
    int clash, beside;
    const struct line *line = NULL;
    try_words(&clash, &beside);
    for (size_t i = 0; i < line_count && id < ALL_WORDS; i++)
        if (fits_line(&lines[i], id))
            line = &lines[i];
    find(n, id);
    holds(proved.number == (clash ? 15 : line ? 0 : 16), "15 where one of all words fits two lines, 16 where the one that is asked fits none");
    if (clash)
        tried_clashing++, tried_far += !beside;
    else
        tried_apart++;
    if (proved.number == 0)
        holds(line && proved.device.id == line->id_word && proved.device.idmask == line->id_mask && proved.b == strlen(line->name) &&
                  !memcmp(table + proved.a, line->name, proved.b),
              "the record has the ID and the mask of its line");
}

/* One that nearly fits, or fits another line. */
static uint16_t other_id(uint16_t fits)
{
    const struct line *l = &lines[below((uint32_t)line_count)];
    switch (below(4)) {
    case 0: return (uint16_t)(fits ^ 1u << below(14));
    case 1: return (uint16_t)(fits ^ 0x4000u << below(2));
    case 2: return fitting(l->id_word, l->id_mask);
    default: return word();
    }
}

void agree_tables(void)
{
    any_table();
    const struct line *l = &lines[below((uint32_t)line_count)];
    uint16_t id = fitting(l->id_word, l->id_mask), other = other_id(id);
    uint32_t kind = below(4);
    if (kind == 1)
        damage_lines();
    if (kind == 3)
        lines_meet();
    size_t n = put_table();
    if (kind == 2)
        n = damage_text(n);
    find(n, id);
    if (kind % 3 == 0 && !below(16))
        judge_by_words(n, other);
    else
        find(n, other);
}

/* Each of the decimals as P under each R, and as R under the largest P. */
void agree_decimals(void)
{
    static const char *const rows[3] = {"8", "16", "32"};
    const uint16_t id = 0x2a01;
    line_count = 1;
    for (size_t i = 0; i < DECIMALS; i++) {
        any_line(&lines[0], id, any_id_mask());
        set(lines[0].words, decimals[i]);
        for (size_t k = 0; k < 3; k++) {
            set(lines[0].row, rows[k]);
            find(put_table(), id);
        }
        set(lines[0].words, "32768");
        set(lines[0].row, decimals[i]);
        find(put_table(), id);
    }
}

/* ---- masks of the ID, by figures that were worked out by hand */

#define TINY "TINY\t2A00\t16\t8\t3EFF\t3FF3"
#define MCP "MCP19111\t2F82\t16\t8\t3EFF\t3FF3\t3FE0\n"
#define PART(id) "A\t" id "\t16\t8\t3EFF\t3FF3" /* its mask, if any, and LF follow */

struct figure {
    const char *text;
    uint16_t asked;
    uint8_t number;
    uint16_t id, mask; /* of the record */
    size_t name_at;
};

static const struct figure figures[] = {
    /* the line fits 2F80 to 2F9F, and TINY's fits 2A00 */
    {TINY "\n" MCP, 0x2f80, 0, 0x2f82, 0x3fe0, 25},
    {TINY "\n" MCP, 0x2f82, 0, 0x2f82, 0x3fe0, 25},
    {TINY "\n" MCP, 0x2f9f, 0, 0x2f82, 0x3fe0, 25},
    {TINY "\n" MCP, 0x2fa0, 16, 0, 0, 0},
    {TINY "\n" MCP, 0x2f7f, 16, 0, 0, 0},
    {TINY "\n" MCP, 0x6f82, 16, 0, 0, 0},
    {TINY "\n" MCP, 0xaf82, 16, 0, 0, 0},
    {TINY "\n" MCP, 0x2a00, 0, 0x2a00, 0x3fff, 0},
    {TINY "\n" MCP, 0x2a01, 16, 0, 0, 0},
    {TINY "\n" MCP, 0x6a00, 16, 0, 0, 0},
    /* the seventh field, and an eighth */
    {TINY "\t\n", 0x2a00, 15, 0, 0, 0},
    {TINY "\t4000\n", 0x2a00, 15, 0, 0, 0},
    {TINY "\t3fff\n", 0x2a00, 15, 0, 0, 0},
    {TINY "\t3FFF\n", 0x2a00, 0, 0x2a00, 0x3fff, 0},
    {TINY "\t3FFF\n", 0x2a01, 16, 0, 0, 0},
    {TINY "\t3FFF", 0x2a00, 15, 0, 0, 0},
    {TINY "\t3FE0", 0x2a00, 15, 0, 0, 0},
    {TINY "\t3FFF\t\n", 0x2a00, 15, 0, 0, 0},
    {TINY "\t3FFF\t3FFF\n", 0x2a00, 15, 0, 0, 0},
    /* two lines that a word fits, neighbours or not */
    {PART("3020") "\t3FE0\n" PART("3023") "\n", 0x3023, 15, 0, 0, 0},
    {PART("3023") "\n" PART("3020") "\t3FE0\n", 0x3023, 15, 0, 0, 0},
    {PART("3020") "\t3FE0\n" TINY "\n" PART("3023") "\n", 0x2a00, 15, 0, 0, 0},
    {PART("0001") "\t0001\n" PART("0002") "\t0002\n", 0x0001, 15, 0, 0, 0},
    {PART("2A00") "\t3F00\n" PART("2A00") "\t00FF\n", 0x2a00, 15, 0, 0, 0},
    {PART("2A00") "\t3F00\n" MCP PART("2A00") "\t00FF\n", 0x2f82, 15, 0, 0, 0},
    {PART("2F9F") "\t3FE0\n" MCP, 0x2f82, 15, 0, 0, 0},
    /* two lines that bit 1 keeps apart: 3020 and 3021, and 3022 */
    {PART("3020") "\t3FFE\n" PART("3022") "\n", 0x3020, 0, 0x3020, 0x3ffe, 0},
    {PART("3020") "\t3FFE\n" PART("3022") "\n", 0x3021, 0, 0x3020, 0x3ffe, 0},
    {PART("3020") "\t3FFE\n" PART("3022") "\n", 0x3022, 0, 0x3022, 0x3fff, 27},
    {PART("3020") "\t3FFE\n" PART("3022") "\n", 0x3023, 16, 0, 0, 0},
    /* that bit alone keeps them apart, and all other bits of the IDs have no say */
    {PART("3021") "\t0002\n" PART("0002") "\t0002\n", 0x3fff, 0, 0x0002, 0x0002, 27},
    {PART("3021") "\t0002\n" PART("0002") "\t0002\n", 0x3ffd, 0, 0x3021, 0x0002, 0},
    {PART("3021") "\t0002\n" PART("0002") "\t0002\n", 0x4002, 16, 0, 0, 0},
    /* a mask of no bits fits every word, and so stands alone */
    {TINY "\t0000\n", 0x2a00, 0, 0x2a00, 0x0000, 0},
    {TINY "\t0000\n", 0x0000, 0, 0x2a00, 0x0000, 0},
    {TINY "\t0000\n", 0x3fff, 0, 0x2a00, 0x0000, 0},
    {TINY "\t0000\n", 0x4000, 16, 0, 0, 0},
    {TINY "\t0000\n", 0xffff, 16, 0, 0, 0},
    {TINY "\t0000\n" MCP, 0x2f82, 15, 0, 0, 0},
    {MCP TINY "\t0000\n", 0x2f82, 15, 0, 0, 0},
    {MCP PART("3020") "\n" TINY "\t0000\n", 0x2f82, 15, 0, 0, 0},
};

static void by_figures(const struct figure *f)
{
    size_t n = strlen(f->text);
    memcpy(table, f->text, n);
    find(n, f->asked);
    holds(proved.number == f->number && proved.device.id == f->id && proved.device.idmask == f->mask && proved.a == f->name_at,
          "find_device by figures: the number, and the record as its line has it");
    holds(f->number || (proved.device.words == 16 && proved.device.row == 8 && proved.device.mask1 == 0x3eff && proved.device.mask2 == 0x3ff3),
          "the other numbers of that record");
}

/* No table is longer than 64 lines of 46 bytes. The last of these is held against the first too. */
static void longest_table(void)
{
    line_count = 64;
    for (unsigned i = 0; i < 64; i++) {
        struct line *l = &lines[i];
        any_line(l, 0x2000 + 32 * i, 0x3fe0);
        any_name(l->name, 16);
        set(l->words, "32768");
        set(l->row, "32");
    }
    size_t n = put_table();
    find(n, 0x27ff);
    holds(n == 2944 && proved.number == 0 && proved.device.id == 0x27e0 && proved.a == 2944 - 46 && proved.b == 16, "a table may have 2944 bytes");
    put_id(&lines[63], 0x201f, 0x3fe0);
    find(put_table(), 0x2020);
    holds(proved.number == 15, "the last of 64 lines and the first fit one word");
}

void agree_masks(void)
{
    for (size_t i = 0; i < sizeof figures / sizeof *figures; i++)
        by_figures(&figures[i]);
    longest_table();
    for (size_t i = 0; i < SEVENTHS; i++)
        for (size_t k = 0; k <= EIGHTHS; k++) {
            lines_apart(1);
            set(lines[0].idmask, sevenths[i]);
            set(lines[0].extra, k < EIGHTHS ? eighths[k] : "");
            find(put_table(), lines[0].id_word);
        }
    printf("tables on which every word was tried: %u where none fits two lines, %u where one does, %u of these where no such lines are neighbours\n",
           tried_apart, tried_clashing, tried_far);
    holds(tried_apart >= 100 && tried_clashing >= 100 && tried_far >= 20, "every word was tried on tables that clash and that do not");
}
