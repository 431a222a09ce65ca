/* Sheets of a board, of either form: sound, and each rule of a sheet or of its first line broken by itself. */
#include <stdio.h>
#include <string.h>

#include "inputs.h"
#include "random.h"

uint8_t sheet[MOST_SHEET + 128];

/* ---- the first line as its fields are spelt; the old form has ID, `extra` and `end` alone */

struct first {
    int is_new;
    char id[8], tab1[4];
    uint8_t name[TICKMALLET_MOST_NAME + 2];
    size_t name_len;
    char tab2[4], sum[8], extra[8], end[4];
};

static struct first first;
static size_t first_len; /* of the line that stands in the sheet */

static void set(char *field, const char *text)
{
    memcpy(field, text, strlen(text) + 1);
}

static size_t put(uint8_t *line, size_t n, const void *text, size_t count)
{
    memcpy(line + n, text, count);
    return n + count;
}

static size_t put_text(uint8_t *line, size_t n, const char *text)
{
    return put(line, n, text, strlen(text));
}

/* Puts the line in the place of the one that stands there; the sheet's length. */
static size_t put_first(size_t n)
{
    uint8_t line[64];
    size_t len = put_text(line, 0, first.id);
    if (first.is_new) {
        len = put_text(line, len, first.tab1);
        len = put(line, len, first.name, first.name_len);
        len = put_text(line, len, first.tab2);
        len = put_text(line, len, first.sum);
    }
    len = put_text(line, len, first.extra);
    len = put_text(line, len, first.end);
    memmove(sheet + len, sheet + first_len, n - first_len);
    memcpy(sheet, line, len);
    n = n - first_len + len;
    first_len = len;
    return n;
}

size_t any_sheet(const struct board *b)
{
    size_t n;
    uint16_t sum;
    if (plain_write_sheet(&b->device, b->reading, b->words + 9, sheet, sizeof sheet, &n))
        return 0;
    plain_checksum(&b->device, b->reading, b->words + 9, &sum);
    first.is_new = below(3) != 0;
    snprintf(first.id, sizeof first.id, "%04X", about_id(b->device.id, b->device.idmask));
    snprintf(first.sum, sizeof first.sum, "%04X", sum);
    first.name_len = b->name_len;
    memcpy(first.name, b->name, b->name_len);
    set(first.tab1, "\t");
    set(first.tab2, "\t");
    set(first.extra, "");
    set(first.end, "\n");
    first_len = 5;
    return put_first(n);
}

/* ---- one field of the first line */

static void small_letters(char *field)
{
    for (; *field; field++)
        if (*field >= 'A' && *field <= 'F')
            *field = (char)(*field + 32);
}

/* Four digits: spelt wrongly, or as the limits are. */
static void damage_digits(char *field)
{
    static const char *const spelt[14] = {"0000", "3FFF", "4000", "FFFF", "", "3FF", "03FFF", "3FFG", "3FF@", " 3FF", "3FF ", "+3FF", "0x3F", "3:FF"};
    if (below(3))
        set(field, spelt[below(14)]);
    else
        small_letters(field);
}

/* Another name, or none. */
static void damage_name(void)
{
    switch (below(6)) {
    case 0: first.name_len = sound_name(first.name); break;
    case 1: first.name[below((uint32_t)first.name_len)] ^= 1; break;
    case 2: first.name[below((uint32_t)first.name_len)] ^= 0x20; break; /* of a letter, its other size */
    case 3: first.name_len--; break;
    case 4: first.name[first.name_len++] = ' '; break;
    default: first.name_len = no_name(first.name, first.name_len); break;
    }
}

static void damage_sum(const struct board *b)
{
    uint16_t sum;
    plain_checksum(&b->device, b->reading, b->words + 9, &sum);
    switch (below(4)) {
    case 0: sum += (uint16_t)(2 * below(2) - 1); break;
    case 1: sum ^= (uint16_t)(1u << below(16)); break;
    case 2: sum = (uint16_t)below(0x10000); break;
    default: damage_digits(first.sum); return;
    }
    snprintf(first.sum, sizeof first.sum, "%04X", sum);
}

static void damage_tab(char *field)
{
    static const char *const between[5] = {"", " ", "\t\t", "\n", "\r\t"};
    set(field, between[below(5)]);
}

/* A field less, a field more, or two in each other's place. */
static void damage_fields(void)
{
    static const char *const more[6] = {"\t", "\t7EE2", " ", "0", "\t\t", "\tA"};
    switch (below(5)) {
    case 0: set(first.tab1, ""), first.name_len = 0; break; /* ID and sum */
    case 1: set(first.tab2, ""), set(first.sum, ""); break; /* ID and name */
    case 2: /* the sum before the name */
        memcpy(first.name, first.sum, 4);
        first.name_len = 4;
        set(first.sum, "TINY");
        break;
    default: set(first.extra, more[below(6)]); break;
    }
}

static size_t damage_first(const struct board *b, size_t n)
{
    static const char *const ends[4] = {"\r\n", "", "\n\n", "\t"};
    uint32_t kind = below(9);
    if (kind < 6)
        first.is_new = 1;
    if (first.name_len == 0 || first.name_len > TICKMALLET_MOST_NAME)
        first.name_len = sound_name(first.name); /* the board's is none */
    switch (kind) {
    case 0:
    case 1: damage_name(); break;
    case 2:
    case 3: damage_sum(b); break;
    case 4: damage_fields(); break;
    case 5: damage_tab(below(2) ? first.tab1 : first.tab2); break;
    case 6: damage_digits(first.id); break;
    case 7: first.is_new = !first.is_new; break; /* the other form */
    default: set(below(2) ? first.end : first.extra, ends[below(4)]); break;
    }
    return put_first(n);
}

/* ---- any line */

static size_t lose(size_t n, size_t at, size_t count)
{
    memmove(sheet + at, sheet + at + count, n - at - count);
    return n - count;
}

static size_t insert(size_t n, size_t at, const char *text)
{
    size_t count = strlen(text);
    memmove(sheet + at + count, sheet + at, n - at);
    memcpy(sheet + at, text, count);
    return n + count;
}

/* Where the line of a place begins. */
static size_t line_of(size_t at)
{
    while (at && sheet[at - 1] != '\n')
        at--;
    return at;
}

/* Where a field after the first line begins; each is four digits and one character more. */
static size_t any_field(size_t n)
{
    return first_len + 5 * below((uint32_t)(n - first_len) / 5);
}

static size_t small_letter(size_t n, size_t at)
{
    for (size_t i = at; i < n; i++)
        if (sheet[i] >= 'A' && sheet[i] <= 'F') {
            sheet[i] = (uint8_t)(sheet[i] + 32);
            break;
        }
    return n;
}

static size_t put_field(size_t n, size_t at, const char *digits)
{
    memcpy(sheet + at, digits, 4);
    return n;
}

static size_t damage_any(size_t n)
{
    static const char characters[] = "0123456789ABCDEFag@:/G \t\r\n";
    size_t at = below((uint32_t)n), line = line_of(at), field = any_field(n);
    switch (below(15)) {
    case 0: sheet[at] = (uint8_t)below(256); return n;
    case 1: sheet[at] = (uint8_t)characters[below(26)]; return n;
    case 2: sheet[line + below(4)] = (uint8_t)characters[below(16)]; return n; /* an address, or the ID */
    case 3: return small_letter(n, at);
    case 4: return put_field(n, field, "4000");
    case 5: return put_field(n, field, below(2) ? "3FFF" : "FFFF"); /* another word, which the sum does not have, or none */
    case 6: return insert(n, n - 1, "\r");
    case 7: return insert(n, line ? line - 1 : first_len - 1, "\r");
    case 8: return n - 1; /* no last LF */
    case 9: return insert(n, n, "\n");
    case 10: return insert(n, line, "0008\t0000\t0000\t0000\t0000\t0000\t0000\t0000\t0000\n");
    case 11: return lose(n, line, line ? n - line < 45 ? n - line : 45 : first_len); /* a line less */
    case 12: return insert(n, at, at % 2 ? "\t" : "0");
    case 13: return lose(n, at, 1);
    default: return at; /* cut off */
    }
}

size_t damaged_sheet(const struct board *b, size_t n)
{
    return below(2) ? damage_first(b, n) : damage_any(n);
}
