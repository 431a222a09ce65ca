/* What is compared, part by part. */
#ifndef AGREE_H
#define AGREE_H

#include "inputs.h"

void agree_tables(void);
void agree_decimals(void);
void agree_sheets(const struct board *b);
void agree_moves(const struct board *b);
void agree_hex(const struct board *b);
void agree_streams(const struct board *b);
void agree_erases(const struct board *b);
void agree_judgements(const struct board *b);

/* IDs under their masks, by figures: in tables, on the first line of sheets, in 8006h. Tables after agree_tables, whose count is printed. */
void agree_masks(void);
void agree_first_ids(void);
void agree_id_words(void);

/* What an update erases, by figures; after agree_erases, whose counts are printed. */
void agree_erase_cases(void);

/* First lines of either form, and moves from one form to the other, by figures. */
void agree_first_lines(void);
void agree_moved(void);

/* Longer than any board needs: HEX texts up to the limit, and streams that take the counter round. */
void agree_long_hex(void);
void agree_long_streams(void);

/* The sizes in tickmallet.h. */
void agree_bounds(void);

/* The largest parts, case by case. */
void agree_largest(void);

/* How much of the stack each call takes. */
void agree_stack(void);

/* Both sides of the calls on sheets. What is read is `sheet`, as far as it is told; what is moved is any text. */
void both_read_id(size_t n);
void both_read_sheet(const tickmallet_device *d, const uint8_t *name, size_t name_len, size_t n, size_t count);
void both_write_sheet(const tickmallet_device *d, const uint16_t *reading, size_t count, size_t room);
void both_write_new_sheet(const tickmallet_device *d, const uint8_t *name, size_t name_len, const uint16_t *reading, size_t count, size_t room);
void both_move(enum call call, const uint8_t *table, size_t table_len, const uint8_t *text, size_t n, size_t room);

#endif
