/* The proved calls beside plain C, each job on the same input: both must give the same, and their times are compared.

     speed [REPETITIONS [ratios]]     the table; `ratios` leaves the times out
     speed only JOB SIDE TIMES        one job (from 0) on one side (0: proved, 1: plain C), so many times: for a counter of instructions
     speed name JOB                   its name; nothing past the last */
#include <stdio.h>
#include <string.h>
#include <time.h>

#include "plain.h"
#include "random.h"

enum {
    P = 8192, /* of every job, however large a device may be, so that a table can be held against an older one */
    COUNT = TICKMALLET_READING_WORDS(P),
    CELLS = TICKMALLET_CELLS(P),
    TEXT = 16 * P, /* room for HEX text */
    STREAM = TICKMALLET_STREAM_BYTES(P, 8),
    PROVED = 0,
    PLAIN = 1,
};

static const tickmallet_device device = {0x3023, P, 32, 0x3eff, 0x3ff3, 0x3fff};

/* inputs; from `board` to the image `full` every row rises, and the user IDs do, and from `above` to it nothing does */
static uint16_t full[COUNT], board[CELLS], above[COUNT], other[COUNT];
static uint8_t hex[TEXT], long_hex[65536], planned[STREAM], reads[STREAM];
static size_t hex_count, planned_count, reads_count;

/* what each side gives */
static struct {
    uint8_t number;
    uint16_t value;
    uint32_t line, column;
    size_t a, b;
    uint16_t image[COUNT], cells[CELLS], words[COUNT];
    uint8_t text[TEXT], stream[STREAM];
} out[2];

static void read_hex(int side)
{
    out[side].number = (side == PLAIN ? plain_read_hex : tickmallet_read_hex)(&device, hex, hex_count, out[side].image, COUNT,
                                                                              &out[side].line, &out[side].column);
}

static void read_long_hex(int side)
{
    out[side].number = (side == PLAIN ? plain_read_hex : tickmallet_read_hex)(&device, long_hex, sizeof long_hex, out[side].image, COUNT,
                                                                              &out[side].line, &out[side].column);
}

static void write_hex(int side)
{
    out[side].number = (side == PLAIN ? plain_write_hex : tickmallet_write_hex)(&device, full, COUNT, out[side].text, TEXT, &out[side].a);
}

static void update(int side, const uint16_t *reading)
{
    out[side].number = (side == PLAIN ? plain_update : tickmallet_update)(&device, full, COUNT, reading, COUNT, out[side].stream, STREAM, &out[side].a);
}

static void update_rising(int side)
{
    update(side, board);
}

static void update_falling(int side)
{
    update(side, above);
}

static void fresh(int side)
{
    out[side].number = (side == PLAIN ? plain_fresh : tickmallet_fresh)(&device, full, COUNT, device.id, out[side].stream, STREAM, &out[side].a);
}

static void run_update(int side)
{
    memcpy(out[side].cells, board, sizeof board);
    out[side].number = (side == PLAIN ? plain_run : tickmallet_run)(&device, out[side].cells, CELLS, planned, planned_count, planned_count,
                                                                   out[side].words, COUNT, &out[side].a, &out[side].b);
}

static void run_read_back(int side)
{
    memcpy(out[side].cells, board, sizeof board);
    out[side].number = (side == PLAIN ? plain_run : tickmallet_run)(&device, out[side].cells, CELLS, reads, reads_count, reads_count,
                                                                   out[side].words, COUNT, &out[side].a, &out[side].b);
}

static void checksum(int side)
{
    out[side].number = (side == PLAIN ? plain_checksum : tickmallet_checksum)(&device, board, COUNT, &out[side].value);
}

static void verify(int side)
{
    out[side].number = (side == PLAIN ? plain_verify : tickmallet_verify)(&device, other, COUNT, board, COUNT, &out[side].value, &out[side].a);
}

static const struct {
    const char *name;
    void (*once)(int side);
} jobs[] = {
    {"read HEX, 8192 words", read_hex},
    {"read HEX, 65536 bytes", read_long_hex},
    {"write HEX, 8192 words", write_hex},
    {"plan update, every row rises", update_rising},
    {"plan update, no row rises", update_falling},
    {"plan fresh, every row", fresh},
    {"run the update", run_update},
    {"run a read-back", run_read_back},
    {"checksum", checksum},
    {"verify", verify},
};

enum { JOBS = sizeof jobs / sizeof *jobs };

/* A text of 65536 bytes that gives every program word: records of three words, some of four, and empty lines at the end. */
static void make_long_hex(void)
{
    static const char digits[] = "0123456789ABCDEF";
    size_t n = 0;
    for (unsigned i = 0; i < P;) {
        unsigned words = i < 3 * 2724 ? 3 : 4, count = 0, sum = 0;
        uint8_t bytes[16] = {(uint8_t)(2 * words), (uint8_t)(2 * i >> 8), (uint8_t)(2 * i), 0};
        for (count = 4; count < 4 + 2 * words; i++) {
            bytes[count++] = (uint8_t)full[i];
            bytes[count++] = (uint8_t)(full[i] >> 8);
        }
        for (unsigned k = 0; k < count; k++)
            sum += bytes[k];
        bytes[count++] = (uint8_t)-sum;
        long_hex[n++] = ':';
        for (unsigned k = 0; k < count; k++) {
            long_hex[n++] = (uint8_t)digits[bytes[k] >> 4];
            long_hex[n++] = (uint8_t)digits[bytes[k] & 15];
        }
        long_hex[n++] = '\n';
    }
    memcpy(long_hex + n, ":00000001FF\n", 12);
    memset(long_hex + n + 12, '\n', sizeof long_hex - n - 12);
}

static int make_inputs(void)
{
    for (unsigned i = 0; i < COUNT; i++) {
        board[i] = word();
        full[i] = i >= P + 4 && i < P + 7 ? 0xffff : word() ^ (i < P && full[i] == board[i]);
    }
    for (unsigned i = 0; i < P; i += 32)
        full[i] = board[i] ^ 1;
    board[P + 6] = device.id;
    board[P + 7] = board[P + 8] = board[P + 9] = board[P + 10] = 0x3fff;
    full[P + 7] |= 0x80;
    memcpy(other, board, sizeof other);
    for (unsigned i = 0; i < 40; i++)
        other[100 + 200 * i] ^= 1;
    memcpy(above, board, sizeof above);
    for (unsigned i = 0; i < P + 4; i++)
        above[i] = full[i] | word();
    make_long_hex();
    size_t steps, fewer;
    if (tickmallet_write_hex(&device, full, COUNT, hex, TEXT, &hex_count))
        return 0;
    if (tickmallet_update(&device, full, COUNT, board, COUNT, planned, STREAM, &steps))
        return 0;
    planned_count = 3 * steps;
    if (tickmallet_update(&device, full, COUNT, above, COUNT, reads, STREAM, &fewer))
        return 0;
    if (steps != TICKMALLET_MOST_STEPS(P, 32) || fewer != steps - P / 32 - 1) /* a Row Erase for each row, and one for the user IDs */
        return 0;
    if (tickmallet_read_back(&device, reads, STREAM, &steps))
        return 0;
    reads_count = 3 * steps;
    return 1;
}

static double now(void)
{
    struct timespec t;
    clock_gettime(CLOCK_PROCESS_CPUTIME_ID, &t);
    return (double)t.tv_sec * 1e6 + (double)t.tv_nsec / 1e3;
}

static double microseconds(unsigned job, int side, unsigned times)
{
    double start = now();
    for (unsigned i = 0; i < times; i++)
        jobs[job].once(side);
    return (now() - start) / times;
}

static unsigned decimal(const char *text)
{
    unsigned n = 0;
    for (; *text; text++)
        n = 10 * n + (unsigned)(*text - '0');
    return n;
}

int main(int argc, char **argv)
{
    if (!make_inputs()) {
        printf("the inputs are refused, or have other steps than they should\n");
        return 1;
    }
    unsigned job = argc > 2 ? decimal(argv[2]) : 0;
    if (argc == 5 && !strcmp(argv[1], "only")) {
        if (job < JOBS)
            microseconds(job, decimal(argv[3]) % 2, decimal(argv[4]));
        return 0;
    }
    if (argc == 3 && !strcmp(argv[1], "name")) {
        if (job < JOBS)
            printf("%s\n", jobs[job].name);
        return 0;
    }
    unsigned repetitions = argc > 1 ? decimal(argv[1]) : 99, bad = 0;
    int times_too = argc < 3 || strcmp(argv[2], "ratios");
    printf(times_too ? "%-28s %7s %12s %12s\n" : "%-28s %7s\n", "job", "ratio", "proved, us", "plain C, us");
    for (unsigned j = 0; j < JOBS; j++) {
        memset(out, 0, sizeof out);
        double best[2] = {1e18, 1e18};
        unsigned times = 1 + (unsigned)(500 / (microseconds(j, PLAIN, 3) + 0.01));
        for (unsigned r = 0; r < repetitions; r++)
            for (int side = PROVED; side <= PLAIN; side++) {
                double t = microseconds(j, side, times);
                if (t < best[side])
                    best[side] = t;
            }
        if (times_too)
            printf("%-28s %7.2f %12.2f %12.2f\n", jobs[j].name, best[PROVED] / best[PLAIN], best[PROVED], best[PLAIN]);
        else
            printf("%-28s %7.2f\n", jobs[j].name, best[PROVED] / best[PLAIN]);
        fflush(stdout);
        jobs[j].once(PROVED);
        jobs[j].once(PLAIN);
        if (memcmp(&out[PROVED], &out[PLAIN], sizeof out[0])) {
            printf("%s: the two sides differ\n", jobs[j].name);
            bad++;
        }
    }
    return bad != 0;
}
