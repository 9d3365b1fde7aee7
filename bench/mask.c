/* The mask of a record number under the ChaCha20 suites (RFC 9147, section 4.2.3) beside OpenSSL's ChaCha20: the same blocks and masks for
 * random keys and samples, the time of one mask, and how far down the stack it writes.
 *
 *   mask RUNS */
#define _POSIX_C_SOURCE 200809L

#include <openssl/evp.h>
#include <stdio.h>
#include <stdlib.h>
#include <string.h>
#include <time.h>

#include "paint.h"

enum { KEY = 32, SAMPLE = 16, MASK = 2, WORDS = 16, BLOCK = 4 * WORDS, RANDOM = 100000, MASKS = 200000, MOST_RUNS = 99, PAINTED = 65536 };

enum { RATTLE, EVP, SIDES };

/* Of libleaves.a. */
void leaves_chacha_mask(const uint8_t k[KEY], const uint8_t s[SAMPLE], uint8_t out[MASK]);
uint32_t leaves_chacha_block_word(const uint8_t k[KEY], const uint8_t s[SAMPLE], size_t word);

static EVP_CIPHER_CTX *context;
static uint8_t key[KEY], sample[SAMPLE], mask[MASK], block[BLOCK];

static void need(int holds, const char *what)
{
    if (!holds) {
        fprintf(stderr, "bench/run: %s\n", what);
        exit(1);
    }
}

/* Nanoseconds that this thread has run. */
static double cpu_time(void)
{
    struct timespec t;
    clock_gettime(CLOCK_THREAD_CPUTIME_ID, &t);
    return (double)t.tv_sec * 1e9 + (double)t.tv_nsec;
}

static void make_context(void)
{
    context = EVP_CIPHER_CTX_new();
    need(context != NULL && EVP_EncryptInit_ex(context, EVP_chacha20(), NULL, key, NULL) == 1,
        "libcrypto has no ChaCha20: link one that is built with it");
}

/* The context is kept: it gets the sample, which is the counter and the nonce, as its IV. */
static void evp_block(void)
{
    static const uint8_t zeros[BLOCK];
    int n;
    need(EVP_EncryptInit_ex(context, NULL, NULL, NULL, sample) == 1 && EVP_EncryptUpdate(context, block, &n, zeros, BLOCK) == 1,
        "libcrypto gives no block");
}

/* ---- the same blocks */

static void fill(uint8_t *p, int n)
{
    for (int i = 0; i < n; i++)
        p[i] = (uint8_t)(rand() >> 7);
}

static uint32_t word_of(const uint8_t *p)
{
    return p[0] | (uint32_t)p[1] << 8 | (uint32_t)p[2] << 16 | (uint32_t)p[3] << 24;
}

static int is_same(void)
{
    int same = memcmp(mask, block, MASK) == 0 && leaves_chacha_block_word(key, sample, WORDS) == 0;
    for (size_t i = 0; i < WORDS; i++)
        same &= leaves_chacha_block_word(key, sample, i) == word_of(block + 4 * i);
    return same;
}

static void tell_bytes(const char *what, const uint8_t *p, int n)
{
    printf("%s ", what);
    for (int i = 0; i < n; i++)
        printf("%02x", p[i]);
    printf("\n");
}

static void check_random(void)
{
    int differ = 0;
    srand(1);
    for (int i = 0; i < RANDOM; i++) {
        fill(key, KEY);
        fill(sample, SAMPLE);
        need(EVP_EncryptInit_ex(context, NULL, NULL, key, NULL) == 1, "libcrypto takes no key");
        evp_block();
        leaves_chacha_mask(key, sample, mask);
        if (!is_same() && differ++ == 0) {
            tell_bytes("key", key, KEY);
            tell_bytes("sample", sample, SAMPLE);
        }
    }
    printf("%d random keys and samples, block and mask: %d differ from OpenSSL's\n", RANDOM, differ);
    need(differ == 0, "a block or a mask is not OpenSSL's: try the first key and sample that differ, above, in crates/run_chacha");
}

/* ---- time */

/* Nanoseconds of a mask. Each sample holds the mask before it, so that no two overlap. */
static double run(int side)
{
    memset(sample, 0, sizeof sample);
    double start = cpu_time();
    for (uint32_t i = 0; i < MASKS; i++) {
        memcpy(sample, &i, sizeof i);
        if (side == RATTLE) {
            leaves_chacha_mask(key, sample, sample + 9);
        } else {
            evp_block();
            memcpy(sample + 9, block, MASK);
        }
    }
    return (cpu_time() - start) / MASKS;
}

static void compare(int runs)
{
    double least[SIDES] = {1e18, 1e18};
    for (int i = 0; i < runs; i++) {
        uint8_t last[SIDES][SAMPLE];
        for (int side = 0; side < SIDES; side++) {
            double time = run(side);
            least[side] = time < least[side] ? time : least[side];
            memcpy(last[side], sample, SAMPLE);
        }
        need(memcmp(last[RATTLE], last[EVP], SAMPLE) == 0, "the sides end with other masks");
    }
    printf("a mask   Rattle %.1f ns   EVP %.1f ns   ratio %.2f\n", least[RATTLE], least[EVP], least[RATTLE] / least[EVP]);
}

/* ---- stack */

static __attribute__((noinline)) size_t stack_of_mask(void)
{
    volatile uint64_t *top = stack_pointer();
    paint_below(top, PAINTED / WORD);
    leaves_chacha_mask(key, sample, mask);
    return written_below(top, PAINTED / WORD) * WORD;
}

int main(int argc, char **argv)
{
    int runs = argc > 1 ? atoi(argv[1]) : 9;
    need(runs > 0 && runs <= MOST_RUNS, "RUNS is 1 to 99");
    make_context();
    check_random();
    compare(runs);
    printf("a mask   %zu bytes of stack\n", stack_of_mask());
    return 0;
}
