/* The first line of sheets, by figures that were worked out by hand: what it may be, each of its characters, each length, and which refusal
   comes first. Under TINY and MCP19111, on a blank board. */
#include <stdio.h>
#include <string.h>

#include "agree.h"

#define BODY "0000\t3FFF\t3FFF\t3FFF\t3FFF\t3FFF\t3FFF\t3FFF\t3FFF\n0008\t3FFF\t3FFF\t3FFF\t3FFF\t3FFF\t3FFF\t3FFF\t3FFF\n" \
             "8000\t3FFF\t3FFF\t3FFF\t3FFF\t3FFF\t2000\t2A00\t3FFF\t3FFF\n"

enum { BODY_LEN = sizeof BODY - 1, WORDS = 25, OLD = 145, NEW = 155 };

static const char table[] = "TINY\t2A00\t16\t8\t3EFF\t3FF3\nMCP19111\t2F82\t16\t8\t3EFF\t3FF3\t3FE0\n";
static const tickmallet_device tiny = {0x2a00, 16, 8, 0x3eff, 0x3ff3, 0x3fff}, mcp = {0x2f82, 16, 8, 0x3eff, 0x3ff3, 0x3fe0};

/* A device and its name. */
struct named {
    const tickmallet_device *device;
    const char *name;
};

static const struct named of_tiny = {&tiny, "TINY"}, of_mcp = {&mcp, "MCP19111"};

/* The numbers of the four calls on one text. */
struct numbers {
    uint8_t id, sheet, to_new, to_old;
};

static struct numbers call_all(const struct named *d, size_t n)
{
    struct numbers all;
    both_read_id(n);
    all.id = proved.number;
    both_read_sheet(d->device, (const uint8_t *)d->name, strlen(d->name), n, WORDS);
    all.sheet = proved.number;
    both_move(TO_NEW, (const uint8_t *)table, sizeof table - 1, sheet, n, MOST_SHEET);
    all.to_new = proved.number;
    both_move(TO_OLD, (const uint8_t *)table, sizeof table - 1, sheet, n, MOST_SHEET);
    all.to_old = proved.number;
    return all;
}

/* Puts a line, its LF and the other lines. */
static size_t put(const char *line, size_t len)
{
    memcpy(sheet, line, len);
    sheet[len] = '\n';
    memcpy(sheet + len + 1, BODY, BODY_LEN);
    return len + 1 + BODY_LEN;
}

/* ---- what a first line may be, and its numbers: of read_id, of read_sheet under TINY, and of both moves */

static const struct figure {
    const char *line;
    uint16_t value;
    uint8_t id, sheet, move;
} figures[] = {
    {"2A00", 0x2a00, 0, 0, 0},
    {"2A00\tTINY\t7EE2", 0x2a00, 0, 0, 0},
    {"2A00\tTINX\t7EE3", 0x2a00, 0, 18, 18},
    {"2A00\tTINY\t7EE3", 0x2a00, 0, 19, 19},
    /* two fields, four, and others between and after them */
    {"2A00\tTINY", 0, 14, 14, 14},
    {"2A00\t7EE2", 0, 14, 14, 14},
    {"2A00\t", 0, 14, 14, 14},
    {"2A00\t\t", 0, 14, 14, 14},
    {"2A00\tTINY\t", 0, 14, 14, 14},
    {"2A00\tTINY\t7EE2\t", 0, 14, 14, 14},
    {"2A00\tTINY\t7EE2\t7EE2", 0, 14, 14, 14},
    {"2A00\tTI\tNY\t7EE2", 0, 14, 14, 14},
    {"2A00\tTINY\t\t7EE2", 0, 14, 14, 14},
    {"2A00\t\tTINY\t7EE2", 0, 14, 14, 14},
    {"\t2A00\tTINY\t7EE2", 0, 14, 14, 14},
    {"2A00\tTINY\t7EE2 ", 0, 14, 14, 14},
    {"2A00\tTINY\t7EE2\r", 0, 14, 14, 14},
    {"2A00 TINY 7EE2", 0, 14, 14, 14},
    {"2A00\tTINY 7EE2", 0, 14, 14, 14},
    {"2A00\t7EE2\tTINY", 0, 14, 14, 14},
    {"TINY\t2A00\t7EE2", 0, 14, 14, 14},
    {"2A00\n2A00\tTINY\t7EE2", 0x2a00, 0, 14, 14},
    {"2A00\nTINY\t7EE2", 0x2a00, 0, 14, 14},
    {"2A00\r", 0, 14, 14, 14},
    {"2A00 ", 0, 14, 14, 14},
    {"", 0, 14, 14, 14},
    /* names: none */
    {"2A00\t\t7EE2", 0, 14, 14, 14},
    {"2A00\tABCDEFGHIJKLMNOPQ\t7EE2", 0, 14, 14, 14},
    {"2A00\tTINY\x1f\t7EE2", 0, 14, 14, 14},
    {"2A00\t\x1f\t7EE2", 0, 14, 14, 14},
    {"2A00\tTI\x7fNY\t7EE2", 0, 14, 14, 14},
    {"2A00\tTI\x80NY\t7EE2", 0, 14, 14, 14},
    {"2A00\tTI\xffNY\t7EE2", 0, 14, 14, 14},
    {"2A00\tTI\nNY\t7EE2", 0, 14, 14, 14},
    {"2A00\tTINY\r\t7EE2", 0, 14, 14, 14},
    /* names: other ones */
    {"2A00\tABCDEFGHIJKLMNOP\t7EE2", 0x2a00, 0, 18, 18},
    {"2A00\t \t7EE2", 0x2a00, 0, 18, 18},
    {"2A00\t~\t7EE2", 0x2a00, 0, 18, 18},
    {"2A00\tTIN\t7EE2", 0x2a00, 0, 18, 18},
    {"2A00\tTINYY\t7EE2", 0x2a00, 0, 18, 18},
    {"2A00\tTINY \t7EE2", 0x2a00, 0, 18, 18},
    {"2A00\t TINY\t7EE2", 0x2a00, 0, 18, 18},
    {"2A00\ttiny\t7EE2", 0x2a00, 0, 18, 18},
    {"2A00\tTINX\t7EE2", 0x2a00, 0, 18, 18},
    {"2A00\tMCP19111\t7EE2", 0x2a00, 0, 18, 18},
    {"2A00\t7EE2\t7EE2", 0x2a00, 0, 18, 18},
    /* sums: none, and other ones, which may be above 3FFF */
    {"2A00\tTINY\t7ee2", 0, 14, 14, 14},
    {"2A00\tTINY\t7Ee2", 0, 14, 14, 14},
    {"2A00\tTINY\t7EE", 0, 14, 14, 14},
    {"2A00\tTINY\t07EE2", 0, 14, 14, 14},
    {"2A00\tTINY\t17EE2", 0, 14, 14, 14},
    {"2A00\tTINY\t 7EE", 0, 14, 14, 14},
    {"2A00\tTINY\t+7EE", 0, 14, 14, 14},
    {"2A00\tTINY\t7EEG", 0, 14, 14, 14},
    {"2A00\tTINY\t7EE1", 0x2a00, 0, 19, 19},
    {"2A00\tTINY\t0000", 0x2a00, 0, 19, 19},
    {"2A00\tTINY\tFFFF", 0x2a00, 0, 19, 19},
    {"2A00\tTINY\tFEE2", 0x2a00, 0, 19, 19},
    {"2A00\tTINY\t66CA", 0x2a00, 0, 19, 19},
    /* IDs: none, none that fits, and MCP19111's */
    {"2a00\tTINY\t7EE2", 0, 14, 14, 14},
    {"4000\tTINY\t7EE2", 0, 14, 14, 14},
    {"6A00\tTINY\t7EE2", 0, 14, 14, 14},
    {"FFFF\tTINY\t7EE2", 0, 14, 14, 14},
    {"A00\tTINY\t7EE2", 0, 14, 14, 14},
    {"02A00\tTINY\t7EE2", 0, 14, 14, 14},
    {"2A01\tTINY\t7EE2", 0x2a01, 0, 14, 16},
    {"2A01\tTINX\t7EE3", 0x2a01, 0, 14, 16},
    {"2A01", 0x2a01, 0, 14, 16},
    {"3FFF\tTINY\t7EE2", 0x3fff, 0, 14, 16},
    {"0000\tTINY\t7EE2", 0x0000, 0, 14, 16},
    {"2FA0\tMCP19111\t7EE2", 0x2fa0, 0, 14, 16},
    {"2F7F\tMCP19111\t7EE2", 0x2f7f, 0, 14, 16},
    {"2F84\tMCP19111\t7EE2", 0x2f84, 0, 14, 0},
    {"2F9F\tMCP19111\t7EE2", 0x2f9f, 0, 14, 0},
    {"2F84\tTINY\t7EE2", 0x2f84, 0, 14, 18},
    {"2F84\tMCP19111\t7EE3", 0x2f84, 0, 14, 19},
};

static void by_figures(const struct figure *f)
{
    size_t n = put(f->line, strlen(f->line));
    both_read_id(n);
    holds(proved.value == f->value, "read_id by figures: the ID of either form");
    struct numbers all = call_all(&of_tiny, n);
    holds(all.id == f->id && all.sheet == f->sheet && all.to_new == f->move && all.to_old == f->move, "a first line by figures");
    /* without the last LF no sheet is one, which is told before its name and its sum, and after its ID */
    all = call_all(&of_tiny, n - 1);
    uint8_t move = f->move == 16 ? 16 : 14;
    holds(all.id == f->id && all.sheet == 14 && all.to_new == move && all.to_old == move, "a first line by figures, the last LF missing");
}

/* ---- each character of it */

/* Of all characters in each place of a line: how many texts have each number of a move, how many have 0 of read_id. All that have 16 in a move
   have 14 in read_sheet. */
static const struct {
    const struct named *of;
    const char *line;
    unsigned zero, unknown, other_name, other_sum, with_id;
} placed[] = {
    {&of_tiny, "2A00", 5, 48, 0, 0, 53},
    {&of_tiny, "2A00\tTINY\t7EE2", 15, 48, 4 * 94, 4 * 15, 500},
    {&of_mcp, "2F82", 21, 32, 0, 0, 53},
    {&of_mcp, "2F82\tMCP19111\t7EE2", 35, 32, 8 * 94, 4 * 15, 880},
};

static void each_character(size_t which)
{
    size_t len = strlen(placed[which].line) + 1, n = put(placed[which].line, len - 1);
    unsigned moves[64] = {0}, reads[64] = {0}, ids = 0, same = 1;
    for (size_t at = 0; at < len; at++) {
        uint8_t kept = sheet[at];
        for (unsigned c = 0; c < 256; c++) {
            sheet[at] = (uint8_t)c;
            struct numbers all = call_all(placed[which].of, n);
            moves[all.to_new % 64]++;
            reads[all.sheet % 64]++;
            ids += all.id == 0;
            same &= all.to_new == all.to_old;
        }
        sheet[at] = kept;
    }
    unsigned zero = placed[which].zero, unknown = placed[which].unknown, name = placed[which].other_name, sum = placed[which].other_sum;
    unsigned malformed = 256 * (unsigned)len - zero - unknown - name - sum;
    holds(same && moves[0] == zero && moves[14] == malformed && moves[16] == unknown && moves[18] == name && moves[19] == sum,
          "moves by figures: every character in each place of a first line");
    holds(reads[0] == zero && reads[14] == malformed + unknown && reads[18] == name && reads[19] == sum,
          "read_sheet by figures: every character in each place of a first line");
    holds(ids == placed[which].with_id, "read_id by figures: every character in each place of a first line");
}

/* ---- each length */

static void each_length(const char *line)
{
    size_t len = strlen(line) + 1, n = put(line, len - 1);
    for (size_t k = 0; k < n; k++) {
        struct numbers all = call_all(&of_tiny, k);
        holds(all.id == (k < len ? 14 : 0) && all.sheet == 14 && all.to_new == 14 && all.to_old == 14, "a sheet that is cut off");
    }
    for (const char *more = "\n0\t\r"; *more; more++) {
        sheet[n] = (uint8_t)*more;
        struct numbers all = call_all(&of_tiny, n + 1);
        holds(all.id == 0 && all.sheet == 14 && all.to_new == 14 && all.to_old == 14, "a sheet with a character more");
    }
}

/* ---- which refusal comes first, of all faults that a call can have at once */

/* A sheet of the new form with these faults; its length. */
static size_t put_faulty(int line, int id, int rest, int name, int sum)
{
    char text[32];
    int len = snprintf(text, sizeof text, "%s\t%s\t%s%s", id ? "2A01" : "2A00", name ? "TINX" : "TINY", sum ? "7EE3" : "7EE2", line ? "\t" : "");
    return put(text, (size_t)len) - (rest != 0);
}

static void read_order(unsigned faults)
{
    int record = faults & 1, no_name = faults & 2, list = faults & 4, line = faults & 8, id = faults & 16, rest = faults & 32, name = faults & 64,
        sum = faults & 128;
    tickmallet_device d = tiny;
    if (record)
        d.mask2 = 0x4000;
    size_t n = put_faulty(line, id, rest, name, sum);
    unsigned number = record || no_name ? 13 : list ? 12 : line || id || rest ? 14 : name ? 18 : sum ? 19 : 0;
    both_read_sheet(&d, (const uint8_t *)"TINY\t", no_name ? 5 : 4, n, WORDS + (list != 0));
    holds(proved.number == number && (!number || untouched(0)), "read_sheet by figures: which refusal comes first, and the buffer stays");
}

static void move_order(unsigned faults, enum call call)
{
    int whole = faults & 1, line = faults & 2, id = faults & 4, rest = faults & 8, name = faults & 16, sum = faults & 32, room = faults & 64;
    size_t n = put_faulty(line, id, rest, name, sum), need = call == TO_NEW ? NEW : OLD;
    unsigned number = whole ? 15 : line ? 14 : id ? 16 : rest ? 14 : name ? 18 : sum ? 19 : room ? 26 : 0;
    both_move(call, (const uint8_t *)table, sizeof table - 1 - (whole != 0), sheet, n, room ? need - 1 : need + 8);
    holds(proved.number == number && proved.a == (number ? 0 : need) && untouched(proved.a),
          "moves by figures: which refusal comes first, and what is not written stays");
}

static void write_order(unsigned faults)
{
    int record = faults & 1, no_name = faults & 2, list = faults & 4, no_word = faults & 8, room = faults & 16;
    tickmallet_device d = tiny;
    uint16_t reading[WORDS + 1];
    for (int i = 0; i <= WORDS; i++)
        reading[i] = 0x3fff;
    if (record)
        d.idmask = 0x4000;
    if (no_word)
        reading[WORDS - 1] = 0x4000;
    unsigned number = record || no_name ? 13 : list || no_word ? 21 : room ? 26 : 0;
    both_write_new_sheet(&d, (const uint8_t *)"TINY\n", no_name ? 5 : 4, reading, WORDS + (list != 0), room ? NEW - 1 : NEW + 8);
    holds(proved.number == number && proved.a == (number ? 0 : NEW) && untouched(proved.a),
          "write_new_sheet by figures: which refusal comes first, and what is not written stays");
}

/* ---- names that are an argument */

/* 13 goes by the name alone, also for a sheet of the old form, which has none. */
static void names(void)
{
    static const struct {
        const char *name;
        uint8_t number;
    } given[] = {{"", 13},         {"A", 0},           {"ABCDEFGHIJKLMNOP", 0}, {"ABCDEFGHIJKLMNOPQ", 13}, {" ", 0},     {"~", 0}, {"\x1f", 13},
                 {"\x7f", 13},     {"\x80", 13},       {"\xff", 13},            {"A\tB", 13},              {"A\n", 13},  {"\rA", 13}, {"TINX", 0},
                 {"A\x1f" "B", 13}, {"ABCDEFGHIJKLMNO\x7f", 13}};
    uint16_t reading[WORDS];
    for (int i = 0; i < WORDS; i++)
        reading[i] = 0x3fff;
    for (size_t i = 0; i < sizeof given / sizeof *given; i++) {
        const uint8_t *name = (const uint8_t *)given[i].name;
        size_t len = strlen(given[i].name), n = put("2A00", 4);
        both_read_sheet(&tiny, name, len, n, WORDS);
        holds(proved.number == given[i].number, "read_sheet by figures: a name, and a sheet of the old form");
        n = put("2A00\tTINY\t7EE2", 14);
        both_read_sheet(&tiny, name, len, n, WORDS);
        holds(proved.number == (given[i].number ? 13 : 18), "read_sheet by figures: a name, and a sheet that has another");
        both_write_new_sheet(&tiny, name, len, reading, WORDS, 151 + len);
        holds(proved.number == given[i].number && proved.a == (given[i].number ? 0 : 151 + len), "write_new_sheet by figures: a name");
    }
}

void agree_first_lines(void)
{
    for (size_t i = 0; i < sizeof figures / sizeof *figures; i++)
        by_figures(&figures[i]);
    for (size_t i = 0; i < sizeof placed / sizeof *placed; i++)
        each_character(i);
    each_length("2A00");
    each_length("2A00\tTINY\t7EE2");
    for (unsigned faults = 0; faults < 256; faults++)
        read_order(faults);
    for (unsigned faults = 0; faults < 128; faults++) {
        move_order(faults, TO_NEW);
        move_order(faults, TO_OLD);
    }
    for (unsigned faults = 0; faults < 32; faults++)
        write_order(faults);
    names();
}
