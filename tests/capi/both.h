/* Both sides of a call: what the proved one and plain C answer, and all that they may have changed. */
#ifndef BOTH_H
#define BOTH_H

#include "plain.h"

enum {
    GUARD = 16, /* elements past each lent buffer, which must stay */
    MOST_BYTES = TICKMALLET_MOST_HEX_READ + 2,
    MOST_LIST = TICKMALLET_CELLS(TICKMALLET_MOST_WORDS) + 1,
};

enum call {
    FIND_DEVICE, READ_ID, READ_SHEET, WRITE_SHEET, WRITE_NEW_SHEET, TO_NEW, TO_OLD, READ_HEX, WRITE_HEX, RUN, UPDATE, FRESH, READ_BACK,
    CHECKSUM, VERIFY, CALLS
};

struct side {
    uint8_t number;
    uint16_t value;
    uint32_t line, column;
    size_t a, b;
    tickmallet_device device;
    uint8_t bytes[MOST_BYTES + GUARD];
    uint16_t words[MOST_LIST + GUARD], cells[MOST_LIST + GUARD];
};

extern struct side proved, plain;

/* Before both calls: fills all values and so many elements of each buffer, on both sides with the same, every time with something else. */
void begin(size_t bytes, size_t words, size_t cells);

/* After them: compares all of it. */
void end(enum call call);

/* Whether the proved side has the lent buffers as they were filled, the bytes from a place on. */
int untouched(size_t from);

/* How often a call has answered 0 until now. */
unsigned zeros(enum call call);

/* One more assertion. */
void holds(int fact, const char *what);

/* Prints which numbers came up, asserts that they are those of each call, and prints the count. Whether all held. */
int all_hold(void);

#endif
