/* HEX text in plain C. */
#include <string.h>

#include "plain_common.h"

/* 16 + the value of a digit; 0 for any other character */
static const uint8_t digits[256] = {
    ['0'] = 16, ['1'] = 17, ['2'] = 18, ['3'] = 19, ['4'] = 20, ['5'] = 21, ['6'] = 22, ['7'] = 23, ['8'] = 24, ['9'] = 25,
    ['A'] = 26, ['B'] = 27, ['C'] = 28, ['D'] = 29, ['E'] = 30, ['F'] = 31,
    ['a'] = 26, ['b'] = 27, ['c'] = 28, ['d'] = 29, ['e'] = 30, ['f'] = 31,
};

struct reader {
    size_t words;
    uint16_t *image;
    uint32_t upper;
    int ended;
    size_t refused; /* the data byte at which a word was refused */
};

/* The bytes of a record: 0, 2 or 3. */
static int decode(const uint8_t *line, size_t n, uint8_t *bytes)
{
    if (n < 11 || line[0] != ':' || n % 2 == 0)
        return 2;
    size_t count = n / 2;
    unsigned sum = 0, sound = 16;
    for (size_t i = 0; i < count; i++) {
        unsigned high = digits[line[1 + 2 * i]], low = digits[line[2 + 2 * i]];
        sound &= high & low;
        bytes[i] = (uint8_t)((high << 4) | (low & 15));
        sum += bytes[i];
    }
    if (!sound || count != bytes[0] + 5u)
        return 2;
    return sum % 256 ? 3 : 0;
}

static int refuse(struct reader *r, size_t byte, int number)
{
    r->refused = byte;
    return number;
}

static int give(struct reader *r, const uint8_t *bytes)
{
    uint64_t address = (uint64_t)r->upper * 65536 + bytes[1] * 256u + bytes[2];
    for (size_t i = 0; i < bytes[0]; i += 2) {
        uint64_t word_address = (address + i) / 2;
        size_t entry;
        if (word_address < r->words)
            entry = word_address;
        else if (word_address >= BASE && word_address < BASE + 9 && !(word_address >= BASE + 4 && word_address < BASE + 7))
            entry = r->words + (word_address - BASE);
        else
            return refuse(r, i, 7);
        unsigned word = bytes[4 + i] + 256u * bytes[5 + i];
        if (word >= LIMIT)
            return refuse(r, i, 8);
        if (r->image[entry] != NOT_GIVEN)
            return refuse(r, i, 9);
        r->image[entry] = (uint16_t)word;
    }
    return 0;
}

static int take(struct reader *r, const uint8_t *line, size_t n)
{
    uint8_t bytes[260];
    if (n == 0)
        return 0;
    if (r->ended)
        return 11;
    if (n > 521)
        return 2;
    int number = decode(line, n, bytes);
    if (number)
        return number;
    unsigned offset = bytes[1] * 256u + bytes[2];
    switch (bytes[3]) {
    case 0:
        return offset % 2 || bytes[0] % 2 ? 6 : give(r, bytes);
    case 1:
        if (offset || bytes[0])
            return 5;
        r->ended = 1;
        return 0;
    case 4:
        if (offset || bytes[0] != 2)
            return 5;
        r->upper = bytes[4] * 256u + bytes[5];
        return 0;
    default:
        return 4;
    }
}

/* The column where a line stops to be a record. Digits are passed up to the record's last column, which is known after LL. */
static size_t broken_column(const uint8_t *line, size_t n)
{
    if (line[0] != ':')
        return 1;
    size_t last = 3, passed = 1;
    while (passed < n && passed < last && digits[line[passed]]) {
        passed++;
        if (passed == 3)
            last = 1 + 2 * (16 * (digits[line[1]] & 15u) + (digits[line[2]] & 15u) + 5);
    }
    return passed + 1;
}

/* Asked for a refused line alone, so that a sound text costs nothing more. */
static uint32_t column_of(const struct reader *r, int number, const uint8_t *line, size_t n)
{
    if (number == 2)
        return (uint32_t)broken_column(line, n);
    return number >= 7 && number <= 9 ? 10 + 2 * (uint32_t)r->refused : 1;
}

static void clear(uint16_t *image, size_t count)
{
    for (size_t i = 0; i < count; i++)
        image[i] = NOT_GIVEN;
}

uint8_t plain_read_hex(const tickmallet_device *device, const uint8_t *text, size_t text_count,
                       uint16_t *image, size_t image_count, uint32_t *line, uint32_t *column)
{
    *line = *column = 0;
    if (!device_ok(device))
        return 13;
    if (image_count != device->words + 9u)
        return 12;
    clear(image, image_count);
    if (text_count > 524288)
        return 1;
    struct reader r = {device->words, image, 0, 0, 0};
    uint32_t number_of_line = 1;
    for (size_t at = 0; at < text_count; number_of_line++) {
        const uint8_t *lf = memchr(text + at, '\n', text_count - at);
        size_t stop = lf ? (size_t)(lf - text) : text_count, end = stop;
        if (end > at && text[end - 1] == '\r')
            end--;
        int number = take(&r, text + at, end - at);
        if (number) {
            clear(image, image_count);
            *line = number_of_line;
            *column = column_of(&r, number, text + at, end - at);
            return (uint8_t)number;
        }
        at = stop + 1;
    }
    if (r.ended)
        return 0;
    clear(image, image_count);
    return 10;
}

static uint8_t *put_byte(uint8_t *to, unsigned byte)
{
    static const char text[] = "0123456789ABCDEF";
    to[0] = (uint8_t)text[byte >> 4];
    to[1] = (uint8_t)text[byte & 15];
    return to + 2;
}

static uint8_t *put_record(uint8_t *to, const uint8_t *bytes, size_t count)
{
    unsigned sum = 0;
    *to++ = ':';
    for (size_t i = 0; i < count; i++) {
        to = put_byte(to, bytes[i]);
        sum += bytes[i];
    }
    to = put_byte(to, -sum & 255);
    *to++ = '\n';
    return to;
}

static uint32_t byte_address(size_t words, size_t entry)
{
    return 2 * (uint32_t)(entry < words ? entry : BASE + (entry - words));
}

/* The end of the run of given words that begins at an entry: it stays within eight entries. */
static size_t run_end(const uint16_t *image, size_t count, size_t start)
{
    size_t limit = (start / 8 + 1) * 8, i = start + 1;
    if (limit > count)
        limit = count;
    while (i < limit && image[i] != NOT_GIVEN)
        i++;
    return i;
}

static size_t text_length(const uint16_t *image, size_t count, size_t words)
{
    size_t length = 12;
    uint32_t upper = 0;
    for (size_t i = 0; i < count;) {
        if (image[i] == NOT_GIVEN) {
            i++;
            continue;
        }
        size_t stop = run_end(image, count, i);
        uint32_t next = byte_address(words, i) >> 16;
        length += (next != upper ? 16 : 0) + 12 + 4 * (stop - i);
        upper = next;
        i = stop;
    }
    return length;
}

uint8_t plain_write_hex(const tickmallet_device *device, const uint16_t *image, size_t image_count,
                        uint8_t *out, size_t out_count, size_t *length)
{
    *length = 0;
    if (!device_ok(device))
        return 13;
    size_t words = device->words;
    if (!image_ok(image, image_count, words))
        return 20;
    size_t need = text_length(image, image_count, words);
    if (out_count < need)
        return 26;
    uint8_t *to = out;
    uint32_t upper = 0;
    for (size_t i = 0; i < image_count;) {
        if (image[i] == NOT_GIVEN) {
            i++;
            continue;
        }
        size_t stop = run_end(image, image_count, i);
        uint32_t address = byte_address(words, i);
        if (address >> 16 != upper) {
            upper = address >> 16;
            uint8_t bytes[6] = {2, 0, 0, 4, (uint8_t)(upper >> 8), (uint8_t)upper};
            to = put_record(to, bytes, 6);
        }
        uint8_t bytes[20] = {(uint8_t)(2 * (stop - i)), (uint8_t)(address >> 8), (uint8_t)address, 0};
        size_t n = 4;
        for (; i < stop; i++) {
            bytes[n++] = (uint8_t)image[i];
            bytes[n++] = (uint8_t)(image[i] >> 8);
        }
        to = put_record(to, bytes, n);
    }
    put_record(to, (const uint8_t[4]){0, 0, 0, 1}, 4);
    *length = need;
    return 0;
}
