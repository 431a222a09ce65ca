/* The device table and board sheets in plain C. */
#include <string.h>

#include "plain_common.h"

enum { TAB = 9, LF = 10, MOST_LINES = 64, MOST_NAME = 16, A_LINE = 8, MOST_READING = 32768 + 9 };

struct cursor {
    const uint8_t *text;
    size_t at, end;
};

static int takes(struct cursor *c, unsigned character)
{
    if (c->at == c->end || c->text[c->at] != character)
        return 0;
    c->at++;
    return 1;
}

/* Four capital digits. */
static int takes_word(struct cursor *c, uint16_t *word)
{
    unsigned value = 0;
    if (c->end - c->at < 4)
        return 0;
    for (int i = 0; i < 4; i++) {
        unsigned ch = c->text[c->at++];
        if (ch >= '0' && ch <= '9')
            value = 16 * value + (ch - '0');
        else if (ch >= 'A' && ch <= 'F')
            value = 16 * value + (ch - 'A' + 10);
        else
            return 0;
    }
    *word = (uint16_t)value;
    return 1;
}

/* A decimal without a leading zero, as far as 16 bits go: no rule allows more. */
static int takes_decimal(struct cursor *c, uint16_t *number)
{
    uint32_t value = 0;
    size_t start = c->at;
    for (; c->at < c->end && c->text[c->at] >= '0' && c->text[c->at] <= '9'; c->at++) {
        value = 10 * value + (c->text[c->at] - '0');
        if (value > 65535)
            return 0;
    }
    if (c->at == start || (c->at - start > 1 && c->text[start] == '0'))
        return 0;
    *number = (uint16_t)value;
    return 1;
}

struct name {
    size_t at, len;
};

static int takes_name(struct cursor *c, struct name *n)
{
    n->at = c->at;
    while (c->at < c->end && c->text[c->at] >= 0x20 && c->text[c->at] <= 0x7e)
        c->at++;
    n->len = c->at - n->at;
    return n->len >= 1 && n->len <= MOST_NAME;
}

/* ---- the table */

struct line {
    tickmallet_device device;
    struct name name;
};

static int takes_line(struct cursor *c, struct line *l)
{
    tickmallet_device *d = &l->device;
    if (!(takes_name(c, &l->name) && takes(c, TAB) && takes_word(c, &d->id) && takes(c, TAB) && takes_decimal(c, &d->words) && takes(c, TAB) &&
          takes_decimal(c, &d->row) && takes(c, TAB) && takes_word(c, &d->mask1) && takes(c, TAB) && takes_word(c, &d->mask2)))
        return 0;
    d->idmask = LIMIT - 1; /* of a line with six fields: the whole ID is compared */
    if (takes(c, TAB) && !takes_word(c, &d->idmask))
        return 0;
    return takes(c, LF) && device_ok(d);
}

/* Whether some word fits both: where only one mask has a bit, or none, the word can have either. */
static int clash(const tickmallet_device *a, const tickmallet_device *b)
{
    return !((a->id ^ b->id) & a->idmask & b->idmask);
}

uint8_t plain_find_device(const uint8_t *table, size_t table_count, uint16_t id,
                          tickmallet_device *device, size_t *name_at, size_t *name_len)
{
    struct cursor c = {table, 0, table_count};
    struct line lines[MOST_LINES];
    size_t n = 0;
    *device = (tickmallet_device){0, 0, 0, 0, 0, 0};
    *name_at = *name_len = 0;
    while (c.at < c.end) {
        if (n == MOST_LINES || !takes_line(&c, &lines[n]))
            return 15;
        for (size_t i = 0; i < n; i++)
            if (clash(&lines[i].device, &lines[n].device))
                return 15;
        n++;
    }
    if (n == 0)
        return 15;
    for (size_t i = 0; i < n; i++)
        if (fits(&lines[i].device, id)) {
            *device = lines[i].device;
            *name_at = lines[i].name.at;
            *name_len = lines[i].name.len;
            return 0;
        }
    return 16;
}

/* ---- sheets, read */

/* The first line: the old form has the ID alone. */
struct first {
    uint16_t id, sum;
    struct name name;
    int is_new;
};

static int takes_first(struct cursor *c, struct first *f)
{
    *f = (struct first){0, 0, {0, 0}, 0};
    if (!takes_word(c, &f->id) || f->id >= LIMIT)
        return 0;
    f->is_new = !takes(c, LF);
    return !f->is_new || (takes(c, TAB) && takes_name(c, &f->name) && takes(c, TAB) && takes_word(c, &f->sum) && takes(c, LF));
}

uint8_t plain_read_id(const uint8_t *text, size_t text_count, uint16_t *id)
{
    struct cursor c = {text, 0, text_count};
    struct first f;
    *id = 0;
    if (!takes_first(&c, &f))
        return 14;
    *id = f.id;
    return 0;
}

/* A line of words after an address. */
static int takes_words(struct cursor *c, unsigned address, size_t count, uint16_t *to)
{
    uint16_t word;
    if (!takes_word(c, &word) || word != address)
        return 0;
    for (size_t i = 0; i < count; i++)
        if (!takes(c, TAB) || !takes_word(c, &to[i]) || to[i] >= LIMIT)
            return 0;
    return takes(c, LF);
}

/* The words of a sheet under a sound record with this name: 14, 18, 19, and then the list is whatever it is. */
static uint8_t sheet_words(const tickmallet_device *device, const uint8_t *name, size_t name_count, const uint8_t *text, size_t count, uint16_t *to)
{
    struct cursor c = {text, 0, count};
    struct first f;
    size_t words = device->words;
    uint16_t sum;
    if (!takes_first(&c, &f) || !fits(device, f.id))
        return 14;
    for (size_t i = 0; i < words; i += A_LINE)
        if (!takes_words(&c, (unsigned)i, A_LINE, to + i))
            return 14;
    if (!takes_words(&c, BASE, 9, to + words) || c.at != c.end)
        return 14;
    if (!f.is_new)
        return 0;
    if (f.name.len != name_count || memcmp(text + f.name.at, name, name_count))
        return 18;
    plain_checksum(device, to, words + 9, &sum);
    return f.sum == sum ? 0 : 19;
}

/* What a table can have as a name. */
static int name_ok(const uint8_t *name, size_t count)
{
    struct cursor c = {name, 0, count};
    struct name n;
    return takes_name(&c, &n) && n.len == count;
}

uint8_t plain_read_sheet(const tickmallet_device *device, const uint8_t *name, size_t name_count, const uint8_t *text, size_t text_count,
                         uint16_t *reading, size_t reading_count)
{
    uint16_t words[MOST_READING]; /* a refusal leaves the caller's */
    if (!device_ok(device) || !name_ok(name, name_count))
        return 13;
    if (reading_count != device->words + 9u)
        return 12;
    uint8_t number = sheet_words(device, name, name_count, text, text_count, words);
    if (number == 0)
        memcpy(reading, words, 2 * reading_count);
    return number;
}

/* ---- sheets, written */

static uint8_t *put_word(uint8_t *to, unsigned word, unsigned after)
{
    static const char digits[] = "0123456789ABCDEF";
    for (int shift = 12; shift >= 0; shift -= 4)
        *to++ = (uint8_t)digits[word >> shift & 15];
    *to++ = (uint8_t)after;
    return to;
}

static uint8_t *put_words(uint8_t *to, unsigned address, const uint16_t *words, size_t count)
{
    to = put_word(to, address, TAB);
    for (size_t i = 0; i < count; i++)
        to = put_word(to, words[i], i + 1 < count ? TAB : LF);
    return to;
}

/* A sheet with this ID; without a name it has the old form. 21, 26. */
static uint8_t put_sheet(const tickmallet_device *device, unsigned id, const uint8_t *name, size_t name_count,
                         const uint16_t *reading, size_t reading_count, uint8_t *out, size_t out_count, size_t *length)
{
    size_t words = device->words, need = 5 * (1 + words / A_LINE * (1 + A_LINE) + 1 + 9); /* each field and what ends it */
    uint16_t sum;
    if (!words_ok(reading, reading_count, words + 9))
        return 21;
    if (name)
        need += name_count + 1 + 5;
    if (out_count < need)
        return 26;
    uint8_t *to = put_word(out, id, name ? TAB : LF);
    if (name) {
        plain_checksum(device, reading, reading_count, &sum);
        memcpy(to, name, name_count);
        to[name_count] = TAB;
        to = put_word(to + name_count + 1, sum, LF);
    }
    for (size_t i = 0; i < words; i += A_LINE)
        to = put_words(to, (unsigned)i, reading + i, A_LINE);
    put_words(to, BASE, reading + words, 9);
    *length = need;
    return 0;
}

uint8_t plain_write_sheet(const tickmallet_device *device, const uint16_t *reading, size_t reading_count,
                          uint8_t *out, size_t out_count, size_t *length)
{
    *length = 0;
    if (!device_ok(device))
        return 13;
    return put_sheet(device, device->id, NULL, 0, reading, reading_count, out, out_count, length);
}

uint8_t plain_write_new_sheet(const tickmallet_device *device, const uint8_t *name, size_t name_count,
                              const uint16_t *reading, size_t reading_count, uint8_t *out, size_t out_count, size_t *length)
{
    *length = 0;
    if (!device_ok(device) || !name_ok(name, name_count))
        return 13;
    return put_sheet(device, device->id, name, name_count, reading, reading_count, out, out_count, length);
}

/* ---- sheets, moved from one form to the other */

static uint8_t move(const uint8_t *table, size_t table_count, const uint8_t *text, size_t text_count, int to_new,
                    uint8_t *out, size_t out_count, size_t *length)
{
    uint16_t id, words[MOST_READING];
    tickmallet_device device;
    struct name name;
    uint8_t first = plain_read_id(text, text_count, &id), found = plain_find_device(table, table_count, id, &device, &name.at, &name.len);
    *length = 0;
    if (found == 15)
        return 15;
    if (first)
        return first;
    if (found)
        return found;
    uint8_t number = sheet_words(&device, table + name.at, name.len, text, text_count, words);
    if (number)
        return number;
    return put_sheet(&device, id, to_new ? table + name.at : NULL, name.len, words, device.words + 9u, out, out_count, length);
}

uint8_t plain_to_new(const uint8_t *table, size_t table_count, const uint8_t *text, size_t text_count,
                     uint8_t *out, size_t out_count, size_t *length)
{
    return move(table, table_count, text, text_count, 1, out, out_count, length);
}

uint8_t plain_to_old(const uint8_t *table, size_t table_count, const uint8_t *text, size_t text_count,
                     uint8_t *out, size_t out_count, size_t *length)
{
    return move(table, table_count, text, text_count, 0, out, out_count, length);
}
