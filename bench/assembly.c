/* A message of 16,384 bytes put together from its pieces, by the library and over a bitmap in three forms (bitmap.h), by turns in one
 * process. Each piece is a record of its own: it is begun, and asked for pieces until its end.
 *
 *   assembly RUNS             times of each row
 *   assembly rows             the rows by number
 *   assembly SIDE ROW COUNT   COUNT messages, at most 60,000, of one row on one side, 0 to 3, for callgrind
 *
 * Before anything is timed, all sides must give the message of each row, and the library and the two forms that have its answers the same
 * answers and bytes for random pieces. */
#define _POSIX_C_SOURCE 200809L

#include <stdio.h>
#include <stdlib.h>
#include <string.h>
#include <time.h>

#include "bitmap.h"

enum { ROOM = HUSK_MESSAGE_ROOM, RECORDS = 100, LONGEST = PIECE_HEADER + ROOM, MOST_RUNS = 99, TURNS = 10, MESSAGES = 100,
    MOST_MESSAGES = 60000, PLACES = 41, LINE = 64, RANDOM = 20000 };

enum { RATTLE, BITS, EIGHTS, OVER, SIDES };

static const char *const sides[SIDES] = {"Rattle", "bitmap", "by eight", "OpenSSL's form"};

static const struct row {
    const char *name;
    uint32_t pieces;
    int reversed, doubled;
} rows[] = {{"12 pieces in order", 12, 0, 0}, {"50 pieces reversed", 50, 1, 0}, {"12 pieces, each doubled", 12, 0, 1},
    {"50 pieces in order", 50, 0, 0}};

enum { ROWS = sizeof rows / sizeof *rows };

static struct {
    size_t n;
    uint8_t bytes[LONGEST];
} record[RECORDS];
static int records;

static HuskAssembly assembly;
static Bitmap bitmaps[SIDES];
/* Of each side; a message begins at the place of the turn. */
static uint8_t buffers[SIDES][LINE * PLACES + ROOM], body[ROOM];
static size_t place;

static void need(int holds, const char *what)
{
    if (!holds) {
        fprintf(stderr, "bench/run: %s\n", what);
        exit(1);
    }
}

/* Nanoseconds that this thread has run. */
static double cpu_time(void)
{
    struct timespec t;
    clock_gettime(CLOCK_THREAD_CPUTIME_ID, &t);
    return (double)t.tv_sec * 1e9 + (double)t.tv_nsec;
}

/* ---- records */

static void put_24(uint8_t *p, uint32_t x)
{
    p[0] = (uint8_t)(x >> 16);
    p[1] = (uint8_t)(x >> 8);
    p[2] = (uint8_t)x;
}

static void put_record(int i, uint32_t total, uint32_t offset, uint32_t length)
{
    uint8_t *p = record[i].bytes;
    p[0] = 11;
    put_24(p + 1, total);
    put_24(p + 6, offset);
    put_24(p + 9, length);
    memcpy(p + PIECE_HEADER, body + offset, length);
    record[i].n = PIECE_HEADER + length;
}

static void put_number(int i, uint32_t number)
{
    record[i].bytes[4] = (uint8_t)(number >> 8);
    record[i].bytes[5] = (uint8_t)number;
}

static void make_records(const struct row *r)
{
    records = 0;
    for (uint32_t i = 0; i < r->pieces; i++) {
        uint32_t k = r->reversed ? r->pieces - 1 - i : i, start = ROOM * k / r->pieces;
        for (int twice = 0; twice <= r->doubled; twice++)
            put_record(records++, ROOM, start, ROOM * (k + 1) / r->pieces - start);
    }
}

/* ---- the sides */

static void fresh(void)
{
    husk_assembly_init(&assembly);
    for (int side = 0; side < SIDES; side++)
        bitmap_init(&bitmaps[side]);
}

static inline void begin(int side, size_t n)
{
    if (side == RATTLE)
        need(husk_assembly_begin(&assembly, n) == 0, "a record is refused");
    else
        bitmap_begin(&bitmaps[side], n);
}

static inline HuskPiece take(int side, const uint8_t *content, size_t n)
{
    uint8_t *b = buffers[side] + place;
    switch (side) {
    case RATTLE: return husk_assembly_take(&assembly, content, n, b, ROOM);
    case BITS: return bitmap_take(&bitmaps[side], content, n, b, ROOM);
    case EIGHTS: return bitmap_take_by_eight(&bitmaps[side], content, n, b, ROOM);
    default: return bitmap_take_over(&bitmaps[side], content, n, b, ROOM);
    }
}

/* The pieces of one message; how many messages come out. The pieces get the number in it, which takes the same time on every side. */
static int one_message(int side, uint32_t number)
{
    int out = 0;
    for (int i = 0; i < records; i++) {
        HuskPiece a;
        put_number(i, number);
        begin(side, record[i].n);
        do {
            a = take(side, record[i].bytes, record[i].n);
            out += a.kind == HUSK_PIECE_MESSAGE;
        } while (a.kind > HUSK_PIECE_END);
    }
    return out;
}

/* Nanoseconds of a message. It has a name of its own in the program: callgrind counts only what is called from here. */
__attribute__((noinline)) double timed_part(int side, uint32_t number, uint32_t count);
double timed_part(int side, uint32_t number, uint32_t count)
{
    uint32_t out = 0;
    double start = cpu_time();
    for (uint32_t i = 0; i < count; i++)
        out += (uint32_t)one_message(side, number + i);
    double time = cpu_time() - start;
    need(out == count, "a message does not come out");
    return time / count;
}

/* ---- the same answers */

static int is_equal(HuskPiece a, HuskPiece b)
{
    return a.kind == b.kind && a.refusal == b.refusal && a.msg_type == b.msg_type && a.number == b.number && a.length == b.length;
}

/* The record's pieces on the sides up to a last one: every answer and every byte is the library's. The last answer that is no end. */
static HuskPiece same_answers(int i, int last)
{
    HuskPiece a, told = {0, 0, 0, 0, 0};
    for (int side = 0; side <= last; side++)
        begin(side, record[i].n);
    do {
        a = take(RATTLE, record[i].bytes, record[i].n);
        for (int side = RATTLE + 1; side <= last; side++) {
            need(is_equal(a, take(side, record[i].bytes, record[i].n)), "the sides answer otherwise");
            need(memcmp(buffers[RATTLE], buffers[side], sizeof buffers[side]) == 0, "the sides write other bytes");
        }
        if (a.kind != HUSK_PIECE_END)
            told = a;
    } while (a.kind > HUSK_PIECE_END);
    return told;
}

/* Each row on every side gives the message. */
static void check_rows(void)
{
    for (int r = 0; r < ROWS; r++) {
        fresh();
        make_records(&rows[r]);
        for (int side = 0; side < SIDES; side++) {
            memset(buffers[side], 0, sizeof buffers[side]);
            need(one_message(side, 0) == 1 && memcmp(buffers[side], body, ROOM) == 0, "another message than was cut");
        }
    }
}

/* A piece of a message of mostly 300 bytes, and its offset: mostly with the type, total and bytes of those held, else with one altered. */
static uint32_t random_record(int i)
{
    const Bitmap *b = &bitmaps[BITS];
    uint32_t most = b->count > 0 ? b->total : 300, total = i % 40 == 0 ? (uint32_t)rand() % 300 : i % 77 == 0 ? ROOM + 1 : most;
    uint32_t offset = i % 9 == 0 ? 0 : (uint32_t)rand() % 300, length = (uint32_t)rand() % (301 - offset);
    if (i % 13 == 0 && b->count > 0) {
        uint32_t k = (uint32_t)rand() % b->count;
        offset = b->offset[k], length = b->length[k];
    }
    put_record(0, total, offset, length);
    put_number(0, b->expected + (rand() % 16 == 0));
    if (b->count > 0)
        record[0].bytes[0] = (uint8_t)b->type;
    if (rand() % 32 == 0)
        record[0].bytes[0] ^= 1;
    if (length > 0 && rand() % 8 == 0)
        record[0].bytes[PIECE_HEADER + (uint32_t)rand() % length] ^= (uint8_t)(1u << rand() % 8);
    return offset;
}

/* Random pieces, overlapping, doubled, disagreeing, too long and too many. What is held is the message from then on. */
static void check_random(void)
{
    static const int answers[] = {HUSK_PIECE_OTHER, HUSK_PIECE_SAME, HUSK_PIECE_HELD, HUSK_PIECE_MESSAGE, HUSK_BAD_PIECE,
        HUSK_TOO_MANY_PIECES, HUSK_PIECES_DISAGREE};
    int seen[HUSK_PIECES_DISAGREE + 1] = {0};
    fresh();
    srand(1);
    for (int i = 0; i < RANDOM; i++) {
        uint32_t offset = random_record(i);
        HuskPiece a = same_answers(0, EIGHTS);
        seen[a.kind + a.refusal]++; /* one of them is 0 */
        if (a.kind == HUSK_PIECE_HELD)
            memcpy(body + offset, record[0].bytes + PIECE_HEADER, record[0].n - PIECE_HEADER);
        if (bitmaps[BITS].count == MOST_PIECES && rand() % 8 == 0)
            fresh();
    }
    for (size_t i = 0; i < sizeof answers / sizeof *answers; i++)
        need(seen[answers[i]] > 0, "the random pieces miss an answer");
}

/* ---- runs */

/* A run: nanoseconds a message on each side, by turns, each turn at another place. */
static void run(int r, double time[SIDES])
{
    memset(time, 0, SIDES * sizeof *time);
    fresh();
    for (uint32_t i = 0; i < TURNS; i++) {
        place = LINE * ((uint32_t)r * TURNS + i) * 13 % (LINE * PLACES);
        for (int side = 0; side < SIDES; side++)
            time[side] += timed_part(side, i * MESSAGES, MESSAGES) / TURNS;
    }
}

static int by_value(const void *a, const void *b)
{
    double x = *(const double *)a, y = *(const double *)b;
    return (x > y) - (x < y);
}

static void compare(const struct row *r, int runs)
{
    double least[SIDES], ratio[SIDES][MOST_RUNS];
    make_records(r);
    for (int i = 0; i < runs; i++) {
        double time[SIDES];
        run(i, time);
        for (int side = 0; side < SIDES; side++) {
            least[side] = i == 0 || time[side] < least[side] ? time[side] : least[side];
            ratio[side][i] = time[RATTLE] / time[side];
        }
    }
    printf("%-28s Rattle %7.0f ns", r->name, least[RATTLE]);
    for (int side = RATTLE + 1; side < SIDES; side++) {
        double *x = ratio[side];
        qsort(x, (size_t)runs, sizeof *x, by_value);
        printf("   %s %7.0f ns, ratio %.2f (%.2f to %.2f)", sides[side], least[side], x[runs / 2], x[0], x[runs - 1]);
    }
    printf("\n");
}

static int given(const char *arg, int most)
{
    int n = atoi(arg);
    need(n >= 0 && n <= most, "a number is out of its range (see the head of bench/assembly.c)");
    return n;
}

static void make_body(void)
{
    for (int i = 0; i < ROOM; i++)
        body[i] = (uint8_t)(i * 7 + i / 256);
}

/* For callgrind. */
static void once(int side, int row, int count)
{
    make_records(&rows[row]);
    fresh();
    timed_part(side, 0, (uint32_t)count);
}

int main(int argc, char **argv)
{
    if (argc == 2 && strcmp(argv[1], "rows") == 0) {
        for (int r = 0; r < ROWS; r++)
            printf("%d %s\n", r, rows[r].name);
        return 0;
    }
    make_body();
    if (argc == 4) {
        once(given(argv[1], SIDES - 1), given(argv[2], ROWS - 1), given(argv[3], MOST_MESSAGES));
        return 0;
    }
    check_rows();
    check_random();
    make_body();
    int runs = given(argc > 1 ? argv[1] : "9", MOST_RUNS);
    for (int r = 0; r < ROWS && runs > 0; r++)
        compare(&rows[r], runs);
    return 0;
}
