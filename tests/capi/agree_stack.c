/* How much of the stack each call takes, which tickmallet.h tells a program whose threads have little of it. Each call is made on a stack of
   its own, filled before, and what it left untouched is counted. All functions of the C library were called before this, so that the loader
   takes nothing. */
#include <stdio.h>
#include <string.h>

#include "agree.h"

/* what tickmallet.h says, less what it leaves to the loader */
enum { KIB = 1024, OF_READ_SHEET = 68 * KIB, OF_MOVE = 132 * KIB, OF_OTHERS = 4 * KIB };

enum { FILL = 0x5a, ROOM = 512 * KIB };

static uint64_t stack[ROOM / 8 + 2];

/* The archive is for x86-64, and so is this. */
static size_t taken(void call(void))
{
    uint8_t *bottom = (uint8_t *)stack, *top = bottom + ((size_t)bottom % 16 ? ROOM + 8 : ROOM); /* where a call begins it is a multiple of 16 */
    size_t left = 0;
    memset(stack, FILL, sizeof stack);
    __asm__ volatile("movq %%rsp, %%rbx\n\t"
                     "movq %0, %%rsp\n\t"
                     "callq *%1\n\t"
                     "movq %%rbx, %%rsp"
                     :
                     : "r"(top), "r"(call)
                     : "rax", "rbx", "rcx", "rdx", "rsi", "rdi", "r8", "r9", "r10", "r11", "cc", "memory", "xmm0", "xmm1", "xmm2", "xmm3", "xmm4",
                       "xmm5", "xmm6", "xmm7", "xmm8", "xmm9", "xmm10", "xmm11", "xmm12", "xmm13", "xmm14", "xmm15");
    while (bottom + left < top && bottom[left] == FILL)
        left++;
    return (size_t)(top - bottom) - left;
}

/* ---- a board for all calls: a small one, one of the largest device, and one whose record, table and texts are refused */

static tickmallet_device device, kept;
static uint16_t image[MOST_LIST], reading[MOST_LIST], cells[MOST_LIST], words[MOST_LIST];
static uint8_t hex[TICKMALLET_HEX_BYTES(TICKMALLET_MOST_WORDS)], stream[TICKMALLET_STREAM_BYTES(TICKMALLET_MOST_WORDS, 8)];
static uint8_t table[64], out[MOST_SHEET];
static size_t count, table_len, name_len, sheet_len, hex_len, steps, a, b;
static uint16_t value;
static uint32_t line, column;

static void find_device(void) { tickmallet_find_device(table, table_len, device.id, &kept, &a, &b); }
static void read_id(void) { tickmallet_read_id(sheet, sheet_len, &value); }
static void read_sheet(void) { tickmallet_read_sheet(&device, table, name_len, sheet, sheet_len, words, count); }
static void write_sheet(void) { tickmallet_write_sheet(&device, reading, count, out, sizeof out, &a); }
static void write_new_sheet(void) { tickmallet_write_new_sheet(&device, table, name_len, reading, count, out, sizeof out, &a); }
static void to_new(void) { tickmallet_to_new(table, table_len, sheet, sheet_len, out, sizeof out, &a); }
static void to_old(void) { tickmallet_to_old(table, table_len, sheet, sheet_len, out, sizeof out, &a); }
static void read_hex(void) { tickmallet_read_hex(&device, hex, hex_len, words, count, &line, &column); }
static void write_hex(void) { tickmallet_write_hex(&device, image, count, hex, sizeof hex, &hex_len); }
static void update(void) { tickmallet_update(&device, image, count, reading, count, stream, sizeof stream, &steps); }
static void fresh(void) { tickmallet_fresh(&device, image, count, device.id, stream, sizeof stream, &steps); }
static void read_back(void) { tickmallet_read_back(&device, stream, sizeof stream, &steps); }
static void run(void) { tickmallet_run(&device, cells, count + 2, stream, 3 * steps, steps, words, count, &a, &b); }
static void checksum(void) { tickmallet_checksum(&device, reading, count, &value); }
static void verify(void) { tickmallet_verify(&device, words, count, reading, count, &value, &a); }

static const struct {
    void (*make)(void);
    size_t limit;
} calls[] = {{find_device, OF_OTHERS}, {read_id, OF_OTHERS}, {read_sheet, OF_READ_SHEET}, {write_sheet, OF_OTHERS}, {write_new_sheet, OF_OTHERS},
             {to_new, OF_MOVE},        {to_old, OF_MOVE},    {write_hex, OF_OTHERS},      {read_hex, OF_OTHERS},    {update, OF_OTHERS},
             {run, OF_OTHERS},         {fresh, OF_OTHERS},   {read_back, OF_OTHERS},      {checksum, OF_OTHERS},    {verify, OF_OTHERS}};

static void take_board(unsigned program, int is_new)
{
    device = (tickmallet_device){0x2a01, (uint16_t)program, 8, 0x3eff, 0x3ff3, 0x3fff};
    count = program + 9, name_len = 16;
    table_len = (size_t)snprintf((char *)table, sizeof table, "ABCDEFGHIJKLMNOP\t2A01\t%u\t8\t3EFF\t3FF3\t3FFF\n", program);
    for (size_t i = 0; i < count; i++) {
        image[i] = i >= program + 4u && i < program + 7u ? 0xffff : 0x1580;
        reading[i] = cells[i] = i < program && i & 8 ? 0x0a7f : 0x3fff; /* every other row rises */
    }
    reading[program + 6] = cells[program + 6] = 0x2a01;
    cells[count] = cells[count + 1] = 0x3fff;
    if (is_new)
        tickmallet_write_new_sheet(&device, table, name_len, reading, count, sheet, sizeof sheet, &sheet_len);
    else
        tickmallet_write_sheet(&device, reading, count, sheet, sizeof sheet, &sheet_len);
}

static size_t most[3]; /* of read_sheet, of the moves, of the others */

static void take_all(void)
{
    for (size_t i = 0; i < sizeof calls / sizeof *calls; i++) {
        size_t bytes = taken(calls[i].make), *of = &most[calls[i].limit == OF_READ_SHEET ? 0 : calls[i].limit == OF_MOVE ? 1 : 2];
        holds(bytes <= calls[i].limit, "a call takes no more of the stack than tickmallet.h says");
        if (bytes > *of)
            *of = bytes;
    }
}

void agree_stack(void)
{
    for (int is_new = 0; is_new < 2; is_new++) {
        take_board(16, is_new);
        take_all();
        take_board(TICKMALLET_MOST_WORDS, is_new);
        take_all();
        hex[hex_len / 2] = 'x', sheet_len--; /* 2, with a column that is looked for; and 14 */
        take_all();
        table_len--, device.row = 9; /* 15 and 13 */
        take_all();
    }
    printf("bytes of the stack: read_sheet %zu, a move %zu, any other call %zu\n", most[0], most[1], most[2]);
}
