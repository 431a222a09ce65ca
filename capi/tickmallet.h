/* Tickmallet for C: the calls of libcapi.a, which `rt lib` in crates/capi proves and builds for x86-64, and which is libtickmallet.a
   where capi/install has put it.

   How values cross
   - A call returns its number: 0, or the refusal as the paper counts it (verify also 40 and 41).
   - The other values of an answer are stored through pointers, in every case. A value that the answer does not name is stored as 0.
   - A list is two arguments, the address of its first element and the count of its elements (not of its bytes).
   - A device record crosses by address: its six numbers of 16 bits stand in a row, in the order of the struct below.

   What the caller keeps; nothing else is asked, and each call judges the contents of what it gets
   - No address is null, of a list neither where its count is 0, nor of a value that the caller does not want. Each is that of so many
     elements, aligned for their type.
   - What a call may change (an argument that is not const) overlaps no other argument of that call, const or not. Arguments that are const
     may overlap each other.

   Words have 14 bits, 0000h to 3FFFh. P is the record's program words, R its row words.
   - an image has P+9 entries, each a word or FFFFh for 'not given': entry i is word i, entry P+k is word 8000h+k; 8004h to 8006h are never given;
   - a reading has P+9 words, placed in the same way;
   - the model's cells are P+11 words: a reading and the two calibration words;
   - a stream has three bytes a step: code, payload low, payload high;
   - a sheet is text, of one of two forms, and its first line tells which. In the old form that line is the ID, in four capital hex digits, and
     LF. In the new one it is the ID, a tab, the name that the device table has for the record, a tab, the sum, in four capital hex digits, and
     LF; the sum is what tickmallet_checksum gives for the words of the sheet. The other lines are the same in both forms.
   A refused call leaves its buffers as they were, except that read_hex clears the image and run keeps the steps before the refused one.
   Bytes of a buffer past what was written stay.

   Stack: read_sheet wants 72 KiB of it, to_new and to_old 136 KiB, every other call 8 KiB, whatever the device and the text. These three keep a
   sheet's words there, in room for the largest device's: 64 KiB, a move twice. Of each figure 4 KiB are for the loader, which may take them when
   a function of the C library is first called. */

#ifndef TICKMALLET_H
#define TICKMALLET_H

#define TICKMALLET_VERSION "0.5.0"

#include <stddef.h>
#include <stdint.h>

#ifdef __cplusplus
extern "C" {
#endif

/* A device: its ID word, program words P, row words R, the masks of the two configuration words, and that of the ID. The configuration
   words' masks say what bits these have: no write changes another bit of them, an image has no say in it, and verify does not compare it.
   Bulk Erase sets all 14. The ID's mask says by what bits a part is known: a word fits a device if it is at most 3FFFh and equals the ID in
   every bit of the mask. 0x3FFF compares the whole ID, and 0 none of it; the ID's bits that the mask has not have no say.
   The rules, which every call that takes a record judges first (13): R is 8, 16 or 32; P is a multiple of R, from R to 32768; the ID and all
   three masks are at most 3FFFh; mask1 has bit 7 set.
   The ID's mask came with 0.4.0. With an older header a record has five numbers, where the calls read six and find_device stores six: such
   a program is compiled anew and not only linked anew. */
typedef struct {
    uint16_t id, words, row, mask1, mask2;
    uint16_t idmask; /* an initializer that gives only the five numbers before it leaves it 0, which every word fits */
} tickmallet_device;

/* Sizes, for a record that keeps the rules: how long each list has to be, and a room that each output fits, so that 26 is not given. The
   outputs' sizes are proved; capi/README.md names each theorem. All are constant expressions where P, R and N are, so that they can be the
   sizes of arrays. P and R are evaluated more than once. Room for every device is that of TICKMALLET_MOST_WORDS, R = 8 and TICKMALLET_MOST_NAME;
   a program that has less asks the record for its words before it lends a list of so many. The first two limits grew with 0.3.0 (8192 and
   131072 before), so that a program compiled with a header from before that has less. */
#define TICKMALLET_MOST_WORDS 32768      /* P of the largest device */
#define TICKMALLET_MOST_HEX_READ 524288  /* bytes of HEX text that read_hex takes */
#define TICKMALLET_MOST_NAME 16          /* characters of the longest name */

#define TICKMALLET_IMAGE_WORDS(P) ((size_t)(P) + 9)    /* entries of an image, just so many */
#define TICKMALLET_READING_WORDS(P) ((size_t)(P) + 9)  /* words of a reading, just so many */
#define TICKMALLET_CELLS(P) ((size_t)(P) + 11)         /* words of the model's cells, just so many */

/* An update or a fresh stream takes at most so many steps and bytes. */
#define TICKMALLET_MOST_STEPS(P, R) (2 * (size_t)(P) + 2 * ((size_t)(P) / (R)) + 22)
#define TICKMALLET_STREAM_BYTES(P, R) (3 * TICKMALLET_MOST_STEPS(P, R))

/* A read-back takes just so many steps and bytes, and reads so many words. */
#define TICKMALLET_READ_BACK_STEPS(P) (2 * (size_t)(P) + 18)
#define TICKMALLET_READ_BACK_BYTES(P) (3 * TICKMALLET_READ_BACK_STEPS(P))
#define TICKMALLET_READ_BACK_WORDS(P) ((size_t)(P) + 9)

/* A sheet has just so many bytes: in the old form, and in the new one with a name of N characters. Where N is TICKMALLET_MOST_NAME there is
   room for every name, and for a sheet of either form. */
#define TICKMALLET_SHEET_BYTES(P) (5 + 45 * ((size_t)(P) / 8) + 50)
#define TICKMALLET_NEW_SHEET_BYTES(P, N) (11 + (size_t)(N) + 45 * ((size_t)(P) / 8) + 50)

/* HEX text that write_hex writes has at most so many bytes. So much is proved; no text that was found has more than 17 P / 2 + 96. */
#define TICKMALLET_HEX_BYTES(P) (14 * (size_t)(P) + 156)

/* Looks an ID up in the text of a device table, which is judged whole. A line has six fields, or seven with the ID's mask last; six stand
   for 3FFFh. 15: the table is malformed, also where some word fits two of its lines. 16: the ID fits no line. Else 0, the record as the line
   has it, with the line's ID, and the place and length of its name in the text. A name is 1 to 16 characters from 20h to 7Eh. */
uint8_t tickmallet_find_device(const uint8_t *table, size_t table_count, uint16_t id,
                               tickmallet_device *device, size_t *name_at, size_t *name_len);

/* The ID on the first line of a sheet, of either form. 14: that line is of neither form. So it is if it has two fields or more than three, an
   ID above 3FFF, a name that no table can have, small letters or another count of digits in the ID or the sum, or no LF. */
uint8_t tickmallet_read_id(const uint8_t *text, size_t text_count, uint16_t *id);

/* Reads a sheet of either form into a buffer of P+9 words. The name is the record's, as find_device finds it in a table.
   13: the record, or the name is none that a table can have. 12: the buffer is not P+9 long. 14: the text is not a sheet of P+9 words, or the
   ID on its first line does not fit the record; it is not held against word 8006h. Then, in the new form alone, 18: the sheet has another
   name. 19: the sheet's sum is not the checksum of its words.
   The name came with 0.5.0. With an older header a call hands over two arguments less, which no linker notices: such a program is given the
   name and compiled anew, and not only linked anew. */
uint8_t tickmallet_read_sheet(const tickmallet_device *device, const uint8_t *name, size_t name_count, const uint8_t *text, size_t text_count,
                              uint16_t *reading, size_t reading_count);

/* Writes the sheet of a reading in the old form, with the record's ID on the first line, and stores its length. 13; 21: not a reading; 26: the
   buffer is too short. */
uint8_t tickmallet_write_sheet(const tickmallet_device *device, const uint16_t *reading, size_t reading_count,
                               uint8_t *out, size_t out_count, size_t *length);

/* Writes it in the new form, with the record's ID, the name and the checksum of the reading on the first line. 13: the record, or the name is
   none that a table can have; 21; 26. */
uint8_t tickmallet_write_new_sheet(const tickmallet_device *device, const uint8_t *name, size_t name_count,
                                   const uint16_t *reading, size_t reading_count, uint8_t *out, size_t out_count, size_t *length);

/* Each moves a sheet of either form to the one in its name, under a device table, and stores the length. Record and name are those of the line
   that the first line's ID fits; that ID stays, also where it is not the record's. A sheet that is in that form already is judged in the same
   way, and comes out the same. They take every device that a table can have.
   15: the table is malformed. 14: the sheet's first line is of neither form. 16: its ID fits no line of the table. 14: the other lines are not
   those of a sheet of P+9 words. 18: the sheet has another name than the table. 19: the sheet's sum is not the checksum of its words. 26: the
   buffer is too short. */
uint8_t tickmallet_to_new(const uint8_t *table, size_t table_count, const uint8_t *text, size_t text_count,
                          uint8_t *out, size_t out_count, size_t *length);
uint8_t tickmallet_to_old(const uint8_t *table, size_t table_count, const uint8_t *text, size_t text_count,
                          uint8_t *out, size_t out_count, size_t *length);

/* Reads HEX text into an image, and stores the line of a refusal and the column in it (each from 1; both 0 where the refusal has none).
   13 and 12 (the image is not P+9 long) leave the image; every other refusal makes it all FFFFh.
   1: more than 524288 bytes. Then the first bad line: 11: not empty and after the end record; 2: not a record; 3: wrong sum; 4: type not
   00, 01, 04; 5: type 01 or 04 with a wrong length or address; 6: data at an odd address or of odd length; then word by word 7: no
   program word, user ID or configuration word; 8: above 3FFFh; 9: given before. Last 10: no end record.
   The column of 2 is that of the first character that cannot stand there, or one past the end of a line that stops short; of 3 to 6 and 11
   it is 1; of 7 to 9 that of the first digit of the word's low byte. A line's characters are counted without its LF and one CR before it.
   No address wraps at 64 KiB: where P is 32768, one record can give word 7FFFh and words from 8000h on. */
uint8_t tickmallet_read_hex(const tickmallet_device *device, const uint8_t *text, size_t text_count,
                            uint16_t *image, size_t image_count, uint32_t *line, uint32_t *column);

/* Writes the given words of an image as HEX text and stores its length. What it writes is read back as the same image.
   13; 20: not an image; 26: the buffer is too short. */
uint8_t tickmallet_write_hex(const tickmallet_device *device, const uint16_t *image, size_t image_count,
                             uint8_t *out, size_t out_count, size_t *length);

/* Runs a stream on the target model: entry, and then at most `allowance` steps. Stores the steps completed and how many words were
   read, which go in order to `words`. A run that ends early because a step is refused keeps what the earlier steps did, and stores 0 for
   the count of words.
   Before the first step 13; 32: the cells are not P+11 words; 34: the stream is not in threes. Of a step 30: unknown code; 31: bad
   payload; 33: Bulk Erase above 8008h; 35: no room for the word read. */
uint8_t tickmallet_run(const tickmallet_device *device, uint16_t *cells, size_t cells_count, const uint8_t *stream, size_t stream_count,
                       size_t allowance, uint16_t *words, size_t words_count, size_t *steps, size_t *words_read);

/* Plans an update of a board that holds the reading: what the image gives changes, every other word stays, and a cut at any step followed
   by the same stream again comes to the same. Stores the number of steps; the stream is three times as many bytes.
   A row in which a word differs is written whole. It is erased before that just if a bit of one of its words has to go from 0 to 1; the four
   user IDs are written and erased in the same way, as if they were one row.
   Of a configuration word the image gives the bits under its mask; the others stay as read.
   13; 20: not an image; 21: not a reading; 22: word 8006h does not fit the record; 23: the reading is protected; 24: a configuration
   bit under its mask would have to go from 0 to 1; 26: the buffer is too short. */
uint8_t tickmallet_update(const tickmallet_device *device, const uint16_t *image, size_t image_count,
                          const uint16_t *reading, size_t reading_count, uint8_t *out, size_t out_count, size_t *steps);

/* Plans a fresh programming of any board whose word 8006h is `id_word`: what the image does not give becomes 3FFFh, and every bit of a
   configuration word that is not under its mask becomes 1. 13; 20; 22: `id_word` does not fit the record; 26. */
uint8_t tickmallet_fresh(const tickmallet_device *device, const uint16_t *image, size_t image_count, uint16_t id_word,
                         uint8_t *out, size_t out_count, size_t *steps);

/* Plans the stream that reads a whole board, P+9 words. 13, 26. */
uint8_t tickmallet_read_back(const tickmallet_device *device, uint8_t *out, size_t out_count, size_t *steps);

/* The checksum of a reading, mod 65536. 13; 21: not a reading. */
uint8_t tickmallet_checksum(const tickmallet_device *device, const uint16_t *reading, size_t reading_count, uint16_t *sum);

/* Holds a reading against a wanted one: user IDs, configuration words under their masks and, unless the reading is protected, program
   words. 0: all the same. 40: some differ; stores the first differing word address and the count of differing words. 41: nothing that
   is judged differs, but the board is protected. 13; 21: one of the two is not a reading. */
uint8_t tickmallet_verify(const tickmallet_device *device, const uint16_t *wanted, size_t wanted_count,
                          const uint16_t *reading, size_t reading_count, uint16_t *address, size_t *count);

#ifdef __cplusplus
}
#endif

#endif
