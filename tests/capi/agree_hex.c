/* HEX text, read and written. */
#include <stdio.h>
#include <string.h>

#include "agree.h"
#include "random.h"

static uint8_t text[MOST_BYTES + 8];

/* ---- at which columns a number came up */

enum { COLUMNS = 1024 };

static uint8_t columns[16][COLUMNS];

static void column_seen(unsigned number, unsigned column)
{
    if (number < 16 && column < COLUMNS)
        columns[number][column] = 1;
}

static unsigned columns_of(unsigned number)
{
    unsigned n = 0;
    for (unsigned column = 1; column < COLUMNS; column++)
        n += columns[number][column];
    return n;
}

static void read_hex(const tickmallet_device *d, const uint8_t *from, size_t n, size_t count)
{
    begin(0, count, 0);
    proved.number = tickmallet_read_hex(d, from, n, proved.words, count, &proved.line, &proved.column);
    plain.number = plain_read_hex(d, from, n, plain.words, count, &plain.line, &plain.column);
    column_seen(plain.number, plain.column);
    end(READ_HEX);
}

/* ---- text that is nearly sound */

static size_t put_line(uint8_t *to, const uint8_t *bytes, size_t count)
{
    static const char digits[2][17] = {"0123456789ABCDEF", "0123456789abcdef"};
    const char *of = digits[!below(4)];
    size_t n = 0;
    to[n++] = ':';
    for (size_t i = 0; i < count; i++) {
        to[n++] = (uint8_t)of[bytes[i] >> 4];
        to[n++] = (uint8_t)of[bytes[i] & 15];
    }
    for (uint32_t cr = below(8) == 0 ? 1 + !below(8) : 0; cr; cr--) /* one belongs to the end, two do not */
        to[n++] = '\r';
    to[n++] = '\n';
    return n;
}

static size_t put_sum(uint8_t *bytes, size_t n)
{
    unsigned sum = 0;
    for (size_t i = 0; i < n; i++)
        sum += bytes[i];
    bytes[n] = (uint8_t)(-sum - !below(60));
    return n + 1;
}

/* Data where it may lie under this upper half, near the edges too: the end of 64 KiB, the end of program space, and that of 8192 words. */
static size_t data_bytes(uint8_t *bytes, size_t p, unsigned upper)
{
    const unsigned edges[8] = {0xfffe, 0xfff6, 2 * (unsigned)p - 2, 2 * (unsigned)p, 0x3ffe, 0x4000, 0x8000, 1};
    size_t words = below(16) ? below(6) : below(128), n = 4;
    unsigned address = 2 * below(upper == 1 ? 12 : (uint32_t)p + 2);
    if (!below(20))
        address = edges[below(8)];
    bytes[0] = (uint8_t)(2 * words), bytes[1] = (uint8_t)(address >> 8), bytes[2] = (uint8_t)address, bytes[3] = 0;
    for (size_t i = 0; i < words; i++) {
        unsigned w = below(80) ? word() : 0x4000 + below(0xc000);
        bytes[n++] = (uint8_t)w;
        bytes[n++] = (uint8_t)(w >> 8);
    }
    return n;
}

static size_t upper_bytes(uint8_t *bytes, unsigned *upper)
{
    static const uint16_t uppers[5] = {1, 1, 0, 0xffff, 2};
    *upper = uppers[below(5)];
    bytes[0] = 2, bytes[1] = bytes[2] = 0, bytes[3] = 4, bytes[4] = (uint8_t)(*upper >> 8), bytes[5] = (uint8_t)*upper;
    return 6;
}

static size_t any_record(uint8_t *to, size_t p, unsigned *upper)
{
    uint8_t bytes[300] = {0, 0, 0, 1};
    uint32_t type = below(12);
    size_t n = type == 0 ? 4 : type < 3 ? upper_bytes(bytes, upper) : data_bytes(bytes, p, *upper);
    if (!below(12))
        bytes[below(4)] ^= (uint8_t)(1 << below(8));
    return put_line(to, bytes, put_sum(bytes, n));
}

static size_t any_text(uint8_t *to, size_t p)
{
    size_t n = 0;
    unsigned upper = 0;
    for (uint32_t records = below(6); records; records--) {
        n += any_record(to + n, p, &upper);
        if (!below(10))
            to[n++] = '\n';
    }
    if (below(10)) {
        memcpy(to + n, ":00000001FF\n", 12);
        n += below(10) ? 12 : 11;
    }
    if (n && !below(20))
        to[below((uint32_t)n)] = (uint8_t)":0g\n\rF"[below(6)];
    return n;
}

/* ---- both directions */

/* What is written of an image, one character changed now and then. */
static void read_written(const struct board *b, size_t n)
{
    if (n && below(2))
        text[below((uint32_t)n)] = (uint8_t)":0g\n\rF8"[below(7)];
    read_hex(&b->device, text, n, b->words + 9);
}

void agree_hex(const struct board *b)
{
    size_t p = b->words, count = about(p + 9), at = below(8), need = 0;
    read_hex(&b->device, text + at, any_text(text + at, p), count); /* a text begins at any address */

    uint8_t number = plain_write_hex(&b->device, b->image, p + 9, text, MOST_BYTES, &need);
    size_t room = some_room(need);
    count = about(p + 9);
    begin(room, 0, 0);
    proved.number = tickmallet_write_hex(&b->device, b->image, count, proved.bytes, room, &proved.a);
    plain.number = plain_write_hex(&b->device, b->image, count, plain.bytes, room, &plain.a);
    end(WRITE_HEX);
    if (number == 0)
        read_written(b, need);
}

/* The longest record, of 255 bytes of data: of no type is that many right. */
static void longest_record(const tickmallet_device *d)
{
    uint8_t bytes[300] = {255, 0, 0, (uint8_t)below(6)};
    size_t n = put_line(text, bytes, put_sum(bytes, 4 + 255));
    read_hex(d, text, n, d->words + 9u);
}

/* The longest record cut at each length, and with a character that is no digit at each place. */
static void every_length(const tickmallet_device *d)
{
    uint8_t bytes[300] = {255};
    size_t n = put_line(text, bytes, put_sum(bytes, 4 + 255));
    for (size_t k = 0; k <= n; k++)
        read_hex(d, text, k, d->words + 9u);
    for (size_t k = 0; k < n; k++) {
        uint8_t kept = text[k];
        text[k] = (uint8_t)"g/:\r\xe9"[below(5)];
        read_hex(d, text, n, d->words + 9u);
        text[k] = kept;
    }
}

/* Data of so many words from a word address on, the value of each its place but for one. */
static size_t put_words(uint8_t *to, unsigned first, size_t words, size_t place, unsigned value)
{
    uint8_t bytes[300] = {(uint8_t)(2 * words), (uint8_t)(first >> 7), (uint8_t)(2 * first), 0};
    unsigned sum = 0;
    for (size_t i = 0; i < words; i++) {
        unsigned w = i == place ? value : (unsigned)i;
        bytes[4 + 2 * i] = (uint8_t)w;
        bytes[5 + 2 * i] = (uint8_t)(w >> 8);
    }
    for (size_t i = 0; i < 4 + 2 * words; i++)
        sum += bytes[i];
    bytes[4 + 2 * words] = (uint8_t)-sum;
    return put_line(to, bytes, 5 + 2 * words);
}

/* The longest record of whole words, refused at each of them: with 7 by its address, with 8, and with 9 by a record before it. */
static void every_word(void)
{
    static const tickmallet_device d = {0x2a00, 256, 32, 0x3eff, 0x3ff3, 0x3fff};
    enum { WORDS = 127 };
    for (unsigned place = 0; place < WORDS; place++) {
        read_hex(&d, text, put_words(text, 256 - place, WORDS, place, 0x3fff), 265);
        read_hex(&d, text, put_words(text, 5, WORDS, place, 0x4000), 265);
        size_t n = put_words(text, 5 + place, 1, 0, 0x3fff);
        read_hex(&d, text, n + put_words(text + n, 5, WORDS, place, 0x3fff), 265);
    }
}

static size_t put_upper(uint8_t *to, unsigned upper)
{
    const uint8_t bytes[7] = {2, 0, 0, 4, (uint8_t)(upper >> 8), (uint8_t)upper, (uint8_t)-(6 + (upper >> 8) + upper)};
    return put_line(to, bytes, 7);
}

static size_t put_end(uint8_t *to)
{
    memcpy(to, ":00000001FF\n", 12);
    return 12;
}

/* Records that begin below 64 KiB, at each place from which they can go on past it, with no word past it up to five: the fifth is 8004h.
   Under the largest device those of up to four are sound, under the others the first words that program space lacks refuse them. */
static void across_64k(const tickmallet_device *d)
{
    for (unsigned under = 1; under <= 127; under++)
        for (unsigned past = 0; past <= 5 && under + past <= 127; past++) {
            size_t n = put_words(text, 0x8000 - under, under + past, 0, 0x3fff);
            read_hex(d, text, n + put_end(text + n), d->words + 9u);
        }
}

/* The longest record that goes past 64 KiB and is sound, refused at each of its words: with 8, and with 9 by a record before it. */
static void every_word_across(void)
{
    static const tickmallet_device d = {0x2a01, 32768, 32, 0x3eff, 0x3ff3, 0x3fff};
    enum { WORDS = 127, UNDER = WORDS - 4, FIRST = 0x8000 - UNDER };
    for (unsigned place = 0; place < WORDS; place++) {
        read_hex(&d, text, put_words(text, FIRST, WORDS, place, 0x4000), 32777);
        size_t n = put_upper(text, place >= UNDER);
        n += put_words(text + n, place >= UNDER ? place - UNDER : FIRST + place, 1, 0, 0x3fff);
        n += put_upper(text + n, 0);
        read_hex(&d, text, n + put_words(text + n, FIRST, WORDS, place, 0x3fff), 32777);
    }
}

/* The longest text that is taken, shorter ones and one byte more; a refusal in its last line; the longest record, a line that is longer, and
   records that go past 64 KiB. */
void agree_long_hex(void)
{
    static const tickmallet_device d = {0x2a00, 16, 8, 0x3eff, 0x3ff3, 0x3fff};
    static const tickmallet_device larger[4] = {{0x2a01, 32768, 32, 0x3eff, 0x3ff3, 0x3fff}, {0x2a01, 32760, 8, 0x3eff, 0x3ff3, 0x3fff},
                                                {0x2a01, 32736, 32, 0x3eff, 0x3ff3, 0x3fff}, {0x2a01, 8192, 8, 0x3eff, 0x3ff3, 0x3fff}};
    static const size_t shorter[5] = {65536, 65537, 131072, 131073, TICKMALLET_MOST_HEX_READ - 1};
    const size_t most = TICKMALLET_MOST_HEX_READ;
    memset(text, '\n', sizeof text);
    memcpy(text + most - 12, ":00000001FF", 11);
    for (int i = 0; i < 5; i++)
        read_hex(&d, text, shorter[i], 25);
    for (int i = 0; i < 4; i++)
        read_hex(&d, text, most, 25);
    for (int i = 0; i < 400; i++)
        read_hex(&d, text, most + 1, 25);
    text[most - 1] = ':';
    read_hex(&d, text, most, 25);
    for (int i = 0; i < 100; i++)
        longest_record(&d);
    memset(text, '0', most);
    text[0] = ':';
    for (size_t n = 500; n < 540; n++)
        read_hex(&d, text, n, 25);
    read_hex(&d, text, most, 25);
    every_length(&d);
    every_word();
    for (int i = 0; i < 4; i++)
        across_64k(&larger[i]);
    every_word_across();
    printf("different columns by number 2:%u 7:%u 8:%u 9:%u\n", columns_of(2), columns_of(7), columns_of(8), columns_of(9));
    holds(columns_of(2) >= 500 && columns_of(7) >= 100 && columns_of(8) >= 100 && columns_of(9) >= 100, "2 and 7 to 9 come up at nearly every column");
}
