/* Every call under a C name beside plain C, on sound and damaged input: each number, value and buffer must be the same.
   The last line counts what was compared or asserted, one by one. */
#include "agree.h"

enum { SMALL = 20000, MIDDLE = 48, LARGE = 48, SOME = 5 };

static struct board board;

static void agree_board(void)
{
    agree_sheets(&board);
    agree_moves(&board);
    agree_hex(&board);
    agree_streams(&board);
    agree_erases(&board);
    agree_judgements(&board);
}

/* Larger boards: each call that has to do with a board's words takes them, some times at least. */
static void agree_larger(void make(struct board *), int boards, const char *what)
{
    unsigned before[CALLS];
    for (enum call call = 0; call < CALLS; call++)
        before[call] = zeros(call);
    for (int i = 0; i < boards; i++) {
        make(&board);
        agree_board();
    }
    for (enum call call = READ_ID; call < CALLS; call++)
        holds(zeros(call) - before[call] >= SOME, what);
}

int main(void)
{
    for (int i = 0; i < SMALL; i++) {
        small_board(&board);
        agree_board();
        agree_tables();
    }
    agree_decimals();
    agree_masks();
    agree_first_ids();
    agree_id_words();
    agree_erase_cases();
    agree_first_lines();
    agree_moved();
    agree_larger(middle_board, MIDDLE, "each call takes boards of 8192 words and more");
    agree_larger(large_board, LARGE, "each call takes boards of the largest device");
    agree_long_hex();
    agree_long_streams();
    agree_bounds();
    agree_largest();
    agree_stack();
    return !all_hold();
}
