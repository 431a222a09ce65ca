/* Plans the update of a board and tries it on the model.

     example TABLE SHEET HEX      as device.tab, board.txt and new.hex of the program `update`; the sheet may have either form

   Prints the number of steps and how many words of the model changed; or `refused`, the number, a line number and a column. It takes every
   device and every text that the calls take, where that program has room for less. */

#include <stdio.h>
#include <string.h>

#include "tickmallet.h"

/* P and R of the largest device and the shortest rows: room for every record that a table can give. A sound table has 64 lines of 46 bytes
   at most. */
enum { P = TICKMALLET_MOST_WORDS, R = 8, MOST_TABLE = 64 * 46 };

/* Each text has room for one byte more than a sound one can have: a file that is too long is refused, and its beginning is not taken for it.
   No sheet is longer than one of the new form with the longest name. */
static uint8_t table[MOST_TABLE + 1], sheet[TICKMALLET_NEW_SHEET_BYTES(P, TICKMALLET_MOST_NAME) + 1], hex[TICKMALLET_MOST_HEX_READ + 1];
static uint16_t reading[TICKMALLET_READING_WORDS(P)], image[TICKMALLET_IMAGE_WORDS(P)], cells[TICKMALLET_CELLS(P)];
static uint8_t stream[TICKMALLET_STREAM_BYTES(P, R)];

/* The bytes of a file, as far as there is room; a file that can't be opened counts as empty. */
static size_t load(const char *name, uint8_t *to, size_t room)
{
    FILE *f = fopen(name, "rb");
    if (!f)
        return 0;
    size_t n = fread(to, 1, room, f);
    fclose(f);
    return n;
}

static int refused_at(unsigned number, unsigned line, unsigned column)
{
    printf("refused\t%u\t%u\t%u\n", number, line, column);
    return 1;
}

static int refused(unsigned number)
{
    return refused_at(number, 0, 0);
}

static const char *plural(size_t n)
{
    return n == 1 ? "" : "s";
}

int main(int argc, char **argv)
{
    if (argc != 4) {
        fprintf(stderr, "usage: %s TABLE SHEET HEX\n", argv[0]);
        return 2;
    }
    size_t table_count = load(argv[1], table, sizeof table);
    size_t sheet_count = load(argv[2], sheet, sizeof sheet);
    size_t hex_count = load(argv[3], hex, sizeof hex);

    /* the record: a malformed table first, then the sheet's first line, then an ID that fits no line of the table */
    uint16_t id;
    tickmallet_device device;
    size_t name_at, name_len;
    uint8_t first = tickmallet_read_id(sheet, sheet_count, &id);
    uint8_t found = tickmallet_find_device(table, table_count, id, &device, &name_at, &name_len);
    if (found == 15)
        return refused(15);
    if (first)
        return refused(first);
    if (found)
        return refused(found);

    /* never so with the P above; a program with a smaller one must ask, since the lists below have as many words as the record says */
    if (device.words > P) {
        fprintf(stderr, "%.*s: %d program words, and there is room for %d\n", (int)name_len, (const char *)table + name_at, device.words, P);
        return 1;
    }

    /* what the board holds, and what the file gives; a sheet of the new form is held against the table's name too */
    size_t count = TICKMALLET_READING_WORDS(device.words);
    uint8_t number = tickmallet_read_sheet(&device, table + name_at, name_len, sheet, sheet_count, reading, count);
    if (number)
        return refused(number);
    uint32_t line, column;
    number = tickmallet_read_hex(&device, hex, hex_count, image, count, &line, &column);
    if (number)
        return refused_at(number, line, column);

    size_t steps;
    number = tickmallet_update(&device, image, count, reading, count, stream, sizeof stream, &steps);
    if (number)
        return refused(number);
    printf("%.*s: %zu step%s\n", (int)name_len, (const char *)table + name_at, steps, plural(steps));

    /* the model holds the reading, and calibration words that nothing changes */
    memcpy(cells, reading, count * sizeof *cells);
    cells[count] = cells[count + 1] = 0x3fff;
    uint16_t none;
    size_t done, words_read;
    number = tickmallet_run(&device, cells, TICKMALLET_CELLS(device.words), stream, 3 * steps, steps, &none, 0, &done, &words_read);
    if (number)
        return refused(number);
    size_t changed = 0;
    for (size_t i = 0; i < count; i++)
        changed += cells[i] != reading[i];
    printf("%zu word%s changed\n", changed, plural(changed));
    return 0;
}
