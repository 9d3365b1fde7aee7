/* Mask keys: a model of their slots, and ChaCha20 after RFC 8439, section 2.3, written for the driver alone. */
#include <string.h>

#include "masks.h"

const uint8_t no_keys[RECEIVE_KEYS];

/* ---- the mask */

static uint32_t word_at(const uint8_t *p)
{
    return p[0] | (uint32_t)p[1] << 8 | (uint32_t)p[2] << 16 | (uint32_t)p[3] << 24;
}

static uint32_t turned(uint32_t x, int by)
{
    return x << by | x >> (32 - by);
}

static void quarter_round(uint32_t *x, int a, int b, int c, int d)
{
    x[a] += x[b];
    x[d] = turned(x[d] ^ x[a], 16);
    x[c] += x[d];
    x[b] = turned(x[b] ^ x[c], 12);
    x[a] += x[b];
    x[d] = turned(x[d] ^ x[a], 8);
    x[c] += x[d];
    x[b] = turned(x[b] ^ x[c], 7);
}

/* Columns, then diagonals: each of the latter begins one further to the right in every row. */
static void double_round(uint32_t *x)
{
    for (int i = 0; i < 4; i++)
        quarter_round(x, i, 4 + i, 8 + i, 12 + i);
    for (int i = 0; i < 4; i++)
        quarter_round(x, i, 4 + (i + 1) % 4, 8 + (i + 2) % 4, 12 + (i + 3) % 4);
}

void chacha_mask(const uint8_t *key, const uint8_t *sample, uint8_t mask[2])
{
    static const uint8_t constant[17] = "expand 32-byte k";
    uint32_t x[16];
    for (int i = 0; i < 4; i++) {
        x[i] = word_at(constant + 4 * i);
        x[4 + i] = word_at(key + 4 * i);
        x[8 + i] = word_at(key + 16 + 4 * i);
        x[12 + i] = word_at(sample + 4 * i);
    }
    for (int i = 0; i < 10; i++)
        double_round(x);
    x[0] += word_at(constant);
    mask[0] = (uint8_t)x[0];
    mask[1] = (uint8_t)(x[0] >> 8);
}

/* ---- the slots */

const uint8_t *key_in(const uint8_t *slots, uint64_t i)
{
    const uint8_t *slot = slots + SLOT * i;
    return slot[0] == 1 ? slot + 1 : NULL;
}

void put_key(uint8_t *slots, uint64_t i, const uint8_t *key)
{
    uint8_t *slot = slots + SLOT * i;
    memset(slot, 0, SLOT);
    if (key == NULL)
        return;
    slot[0] = 1;
    memcpy(slot + 1, key, HUSK_MASK_KEY);
}

void drop_slot(uint8_t *slots, uint64_t n, uint64_t i)
{
    memmove(slots + SLOT * i, slots + SLOT * (i + 1), (size_t)(SLOT * (n - 1 - i)));
    put_key(slots, n - 1, NULL);
}

uint8_t masked_answer(uint8_t without, size_t n)
{
    return n == HUSK_MASK_KEY || without == HUSK_OUT_OF_RANGE || without == HUSK_BAD_EPOCH ? without : HUSK_BAD_MASK_KEY;
}

/* ---- random choices */

size_t mask_key_length(void)
{
    static const size_t wrong[] = {0, 1, 16, 31, 33, 64};
    return one_in(4) ? wrong[below(sizeof wrong / sizeof *wrong)] : HUSK_MASK_KEY;
}

void forge_slots(uint8_t *slots, uint64_t n)
{
    scatter(slots, (size_t)(SLOT * n));
    for (uint64_t i = 0; i < n; i++)
        slots[SLOT * i] = one_in(2) ? 1 : one_in(2) ? 0 : (uint8_t)edge_word(1);
}
