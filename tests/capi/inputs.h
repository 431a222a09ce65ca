/* Boards, sound and damaged. */
#ifndef INPUTS_H
#define INPUTS_H

#include "both.h"

enum { MOST_SHEET = TICKMALLET_NEW_SHEET_BYTES(TICKMALLET_MOST_WORDS, TICKMALLET_MOST_NAME) };

struct board {
    tickmallet_device device; /* sound or not */
    size_t words;             /* P of the lists, whatever the record says */
    uint8_t name[TICKMALLET_MOST_NAME + 1];
    size_t name_len; /* of a name that is too long, one more than the most */
    uint16_t image[MOST_LIST], reading[MOST_LIST]; /* the reading with its two calibration words */
};

/* A board of at most 96 program words, one of 8192 up to the most, or one of the most, with any masks; one record in twelve is damaged.
   Word 8006h fits the record nearly always, and is often not its ID. One name in twenty-four is none. */
void small_board(struct board *b);
void middle_board(struct board *b);
void large_board(struct board *b);

/* Other spare bits in the configuration words of a list of the board. */
void turn_spare_bits(const struct board *b, uint16_t *list);

/* A mask of the ID: the whole of it in five cases of twelve, else none of it, one bit, all but one or five, or any. */
uint16_t any_id_mask(void);

/* A word that fits an ID under its mask: the ID itself, or with anything for the bits that the mask has not. */
uint16_t fitting(uint16_t id, uint16_t mask);

/* Such a word; in one case of eight it has one bit turned, has a bit above the 14, or is any word. */
uint16_t about_id(uint16_t id, uint16_t mask);

/* A name of 1 to 16 characters, often the shortest or the longest; its length. Then one that is none, made of such a name. */
size_t sound_name(uint8_t *to);
size_t no_name(uint8_t *name, size_t length);

/* The text of a sheet, with room for what a damage puts in. */
extern uint8_t sheet[MOST_SHEET + 128];

/* Puts the sheet of the board's reading there, of either form, with an ID that fits the record nearly always. Its length; 0 if the record or the
   reading is refused. A name that is none stands there as it is. */
size_t any_sheet(const struct board *b);

/* Breaks it in one way, the first line in every other case; some of these leave a sheet with another ID, name or sum, or of other words. */
size_t damaged_sheet(const struct board *b, size_t n);

/* A length that is right but for one case in twenty. */
size_t about(size_t n);

/* Room for so many bytes: just that, one less, one more, none, or plenty. */
size_t some_room(size_t need);

#endif
