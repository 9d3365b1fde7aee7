/* The layer's share of a real record: the time of the link's calls over the time of the whole, which is these calls with the suite's AEAD and
 * the block of its mask by OpenSSL's libcrypto, a context kept for each key. With mask keys the link makes the mask itself, and it is part
 * of the link's time.
 *
 *   share RUNS
 *   share rows                 the rows by number
 *   share SUITE ROW COUNT      for callgrind: the link's calls of a row, the suite by its number, COUNT times, at most 256 */
#define _POSIX_C_SOURCE 200809L

#include <openssl/evp.h>
#include <stdio.h>
#include <stdlib.h>
#include <string.h>
#include <time.h>

#include "huskelapse.h"

enum { MTU = 1500, LIMIT = 16, ROW = 256, TURNS = 40, MOST_RUNS = 99, HEADER = 5, KEY = 32 };

/* Parts that are timed: the whole, the link's calls alone, the cipher alone. */
enum { WHOLE, LAYER, CIPHER, PARTS };

/* The AEAD, and the cipher of the mask: none where the link has the number key and makes the mask. */
typedef struct {
    const char *name;
    const EVP_CIPHER *(*aead)(void), *(*mask)(void);
} Suite;

static const Suite suites[] = {
    {"AES-128-GCM", EVP_aes_128_gcm, EVP_aes_128_ecb},
    {"ChaCha20-Poly1305", EVP_chacha20_poly1305, EVP_chacha20},
    {"ChaCha20-Poly1305 with mask keys", EVP_chacha20_poly1305, NULL},
};
enum { SUITES = sizeof suites / sizeof *suites };

/* AES takes the first 16 bytes of each key. */
static const uint8_t key[KEY] = "the traffic key, of 32 bytes", number_key[KEY] = "the number key, of 32 bytes";
static const uint8_t iv[12] = {1, 2, 3, 4, 5, 6, 7, 8, 9, 10, 11, 12};
static const Suite *suite;
static EVP_CIPHER_CTX *seals, *opens, *masks;

static void need(int holds, const char *what)
{
    if (!holds) {
        fprintf(stderr, "bench/run: %s\n", what);
        exit(1);
    }
}

/* Nanoseconds that this thread has run. */
static double cpu_time(void)
{
    struct timespec t;
    clock_gettime(CLOCK_THREAD_CPUTIME_ID, &t);
    return (double)t.tv_sec * 1e9 + (double)t.tv_nsec;
}

/* ---- the cipher */

static EVP_CIPHER_CTX *context(const EVP_CIPHER *cipher, const uint8_t *k, int encrypt)
{
    EVP_CIPHER_CTX *c = EVP_CIPHER_CTX_new();
    need(c != NULL && EVP_CipherInit_ex(c, cipher, NULL, k, NULL, encrypt) == 1, "libcrypto does not have the cipher");
    return c;
}

static void free_contexts(void)
{
    EVP_CIPHER_CTX_free(seals);
    EVP_CIPHER_CTX_free(opens);
    EVP_CIPHER_CTX_free(masks);
    masks = NULL;
}

static void make_contexts(const Suite *of)
{
    free_contexts();
    suite = of;
    seals = context(suite->aead(), key, 1);
    opens = context(suite->aead(), key, 0);
    if (suite->mask == NULL)
        return;
    masks = context(suite->mask(), number_key, 1);
    EVP_CIPHER_CTX_set_padding(masks, 0);
}

/* Seals n bytes in place; the tag is put behind them. */
static int seal_in_place(const uint8_t *nonce, const uint8_t *header, uint8_t *text, int n)
{
    int k;
    return EVP_EncryptInit_ex(seals, NULL, NULL, NULL, nonce) == 1 && EVP_EncryptUpdate(seals, NULL, &k, header, HEADER) == 1
        && EVP_EncryptUpdate(seals, text, &k, text, n) == 1 && EVP_EncryptFinal_ex(seals, text + n, &k) == 1
        && EVP_CIPHER_CTX_ctrl(seals, EVP_CTRL_AEAD_GET_TAG, HUSK_TAG, text + n) == 1;
}

/* Opens n bytes in place, with the tag behind them. */
static int open_in_place(const uint8_t *nonce, const uint8_t *header, uint8_t *text, int n)
{
    int k;
    return EVP_DecryptInit_ex(opens, NULL, NULL, NULL, nonce) == 1 && EVP_DecryptUpdate(opens, NULL, &k, header, HEADER) == 1
        && EVP_DecryptUpdate(opens, text, &k, text, n) == 1
        && EVP_CIPHER_CTX_ctrl(opens, EVP_CTRL_AEAD_SET_TAG, HUSK_TAG, text + n) == 1
        && EVP_DecryptFinal_ex(opens, text + n, &k) == 1;
}

/* AES takes the sample as its block; ChaCha20 takes it as counter and nonce, and turns zeros. */
static void mask_of(const uint8_t *sample, uint8_t block[16])
{
    static const uint8_t zeros[16];
    int k, ok = 1;
    if (suite->mask == EVP_chacha20)
        ok = EVP_EncryptInit_ex(masks, NULL, NULL, NULL, sample) == 1 && EVP_EncryptUpdate(masks, block, &k, zeros, 2) == 1;
    else if (suite->mask != NULL)
        ok = EVP_EncryptUpdate(masks, block, &k, sample, 16) == 1;
    need(ok, "no mask");
}

/* ---- sending */

static HuskSending sending;
static HuskFlight flight;
static uint8_t queue[LIMIT * MTU], content[MTU], out[MTU];

static size_t send_one(size_t n, int part)
{
    uint8_t block[16] = {0};
    need(husk_sending_send(&sending, 3, HUSK_APPLICATION_DATA, content, n, queue, sizeof queue) == 0, "a record is refused");
    HuskSealing a = husk_sending_sealing(&sending);
    if (part == WHOLE) {
        need(seal_in_place(a.nonce, a.header, queue + a.start, (int)a.length - HUSK_TAG), "a sealing failed");
        mask_of(queue + a.start, block);
    }
    need(husk_sending_sealed(&sending, &flight, a.length, block[0], block[1], queue, sizeof queue) == 0, "a sealing is refused");
    HuskTake t = husk_sending_take(&sending, out, sizeof out, queue, sizeof queue);
    need(t.kind == HUSK_TAKE_TAKEN, "no datagram");
    return t.length;
}

static void seal_one(size_t n)
{
    uint8_t block[16];
    need(seal_in_place(iv, key, queue, (int)n + 1), "a sealing failed");
    mask_of(queue, block);
}

/* Nanoseconds of a row of records sent. */
static double send_row(size_t n, int part)
{
    double start = cpu_time();
    for (int i = 0; i < ROW; i++)
        if (part == CIPHER)
            seal_one(n);
        else
            send_one(n, part);
    return cpu_time() - start;
}

/* ---- reading */

static HuskReceiving receiving;
static uint8_t record[ROW][MTU];

/* The reply to the question of a mask, which must be asked where the link has no mask key. */
static HuskReading masked(HuskReading r, uint8_t *d, size_t n, int part)
{
    uint8_t block[16] = {0};
    need(r.kind == HUSK_READING_MASK, "no mask is asked for");
    if (part == WHOLE)
        mask_of(d + r.start, block);
    return husk_receiving_mask(&receiving, block[0], block[1], d, n);
}

static void read_one(uint8_t *d, size_t n, int part)
{
    HuskReading r = husk_receiving_begin_read(&receiving, d, n);
    if (suite->mask != NULL)
        r = masked(r, d, n, part);
    need(r.kind == HUSK_READING_OPENING, "no opening is asked for");
    uint8_t *text = d + r.start + r.header_len;
    int len = (int)r.length - HUSK_TAG;
    if (part == WHOLE)
        need(open_in_place(r.nonce, d + r.start, text, len), "an opening failed");
    r = husk_receiving_opened(&receiving, 1, (size_t)len, d, n);
    need(r.kind == HUSK_READING_OPENED && r.length + 1 == (size_t)len, "a record is not opened");
}

static void open_one(uint8_t *d, size_t n)
{
    uint8_t block[16];
    mask_of(d + HEADER, block);
    need(open_in_place(iv, d, d + HEADER, (int)n + 1), "an opening failed");
}

/* A row of records: for the whole as they are sent, for the link's calls as they are before sealing, for the cipher under one nonce. */
static void make_row(size_t n, int part)
{
    for (int i = 0; i < ROW; i++) {
        size_t len = send_one(n, part == WHOLE ? WHOLE : LAYER);
        memcpy(record[i], out, len);
        if (part == CIPHER)
            need(seal_in_place(iv, record[i], record[i] + HEADER, (int)n + 1), "a sealing failed");
    }
}

/* Nanoseconds of a row of records read. */
static double read_row(size_t n, int part)
{
    make_row(n, part);
    double start = cpu_time();
    for (int i = 0; i < ROW; i++)
        if (part == CIPHER)
            open_one(record[i], n);
        else
            read_one(record[i], HEADER + n + 1 + HUSK_TAG, part);
    return cpu_time() - start;
}

/* ---- runs */

static int is_keyed(void)
{
    if (suite->mask != NULL)
        return husk_sending_key(&sending, 3, iv) == 0 && husk_receiving_key(&receiving, 3, iv) == 0;
    return husk_sending_key_masked(&sending, 3, iv, number_key, KEY) == 0 && husk_receiving_key_masked(&receiving, 3, iv, number_key, KEY) == 0;
}

static void fresh(void)
{
    husk_flight_init(&flight);
    need(husk_sending_init(&sending, MTU, LIMIT) == 0, "no sending side");
    need(husk_receiving_init(&receiving, HUSK_TAG) == 0 && husk_receiving_enable_encryption(&receiving) == 0
            && husk_receiving_release_application_data(&receiving) == 0,
        "no receive side");
    need(is_keyed(), "an epoch is not keyed");
}

/* A row with the stack further down: times depend on where it lies. */
static double at_place(int i, double (*row)(size_t, int), size_t n, int part)
{
    volatile uint8_t shift[64 * (1 + i * 13 % 41)];
    shift[0] = 0;
    double time = row(n, part);
    (void)shift[0];
    return time;
}

/* A run: nanoseconds a record of each part, by turns, each turn at another place. */
static void run(double (*row)(size_t, int), size_t n, double time[PARTS])
{
    memset(time, 0, PARTS * sizeof *time);
    fresh();
    for (int i = 0; i < TURNS; i++)
        for (int part = 0; part < PARTS; part++)
            time[part] += at_place(i, row, n, part) / ROW / TURNS;
}

static int by_value(const void *a, const void *b)
{
    double x = *(const double *)a, y = *(const double *)b;
    return (x > y) - (x < y);
}

static void spread(const char *what, double *share, int runs)
{
    qsort(share, (size_t)runs, sizeof *share, by_value);
    printf("   %s %4.1f %% (%.1f to %.1f)", what, share[runs / 2], share[0], share[runs - 1]);
}

/* A row: records of so many bytes, read or sent. */
static const struct row {
    const char *what;
    double (*time)(size_t, int);
    size_t n;
} rows[] = {
    {"read", read_row, 16},
    {"read", read_row, 200},
    {"read", read_row, 1200},
    {"send", send_row, 16},
    {"send", send_row, 200},
    {"send", send_row, 1200},
};
enum { ROWS = sizeof rows / sizeof *rows };

static void tell(const struct row *r, int runs)
{
    double least[PARTS] = {1e18, 1e18, 1e18}, share[MOST_RUNS], rest[MOST_RUNS];
    for (int i = 0; i < runs; i++) {
        double time[PARTS];
        run(r->time, r->n, time);
        for (int part = 0; part < PARTS; part++)
            least[part] = time[part] < least[part] ? time[part] : least[part];
        share[i] = 100 * time[LAYER] / time[WHOLE];
        rest[i] = 100 * (1 - time[CIPHER] / time[WHOLE]);
    }
    printf("%s a record of %-5zu whole %6.1f ns   link %5.1f ns   cipher %6.1f ns", r->what, r->n, least[WHOLE], least[LAYER],
        least[CIPHER]);
    spread("share", share, runs);
    spread("whole less cipher", rest, runs);
    printf("\n");
}

/* ---- for callgrind */

/* What is counted: records that were made before are read, or as many are sent. */
static __attribute__((noinline)) void timed_part(const struct row *r, int count)
{
    for (int i = 0; i < count; i++)
        if (r->time == read_row)
            read_one(record[i], HEADER + r->n + 1 + HUSK_TAG, LAYER);
        else
            send_one(r->n, LAYER);
}

static void once(const struct row *r, int count)
{
    fresh();
    make_row(r->n, LAYER);
    timed_part(r, count);
}

static int given(const char *arg, int most)
{
    int n = atoi(arg);
    need(n >= 0 && n <= most, "a number is out of its range (see the head of bench/share.c)");
    return n;
}

int main(int argc, char **argv)
{
    if (argc == 2 && strcmp(argv[1], "rows") == 0) {
        for (int r = 0; r < ROWS; r++)
            printf("%d %s a record of %zu bytes\n", r, rows[r].what, rows[r].n);
        return 0;
    }
    if (argc == 4) {
        make_contexts(&suites[given(argv[1], SUITES - 1)]);
        once(&rows[given(argv[2], ROWS - 1)], given(argv[3], ROW));
        return 0;
    }
    int runs = argc > 1 ? atoi(argv[1]) : 9;
    need(runs > 0 && runs <= MOST_RUNS, "RUNS is 1 to 99");
    for (int i = 0; i < SUITES; i++) {
        make_contexts(&suites[i]);
        printf("%s\n", suite->name);
        for (int r = 0; r < ROWS; r++)
            tell(&rows[r], runs);
    }
    return 0;
}
