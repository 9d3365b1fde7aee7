/* Mask keys: the slots in which they lie, and the mask that each makes, by a ChaCha20 of the driver's own. */
#ifndef MASKS_H
#define MASKS_H

#include "fuzz.h"

/* A slot is a flag, 1 where it holds a key, and the key. Receiving has one for each entry of the words, sending one for epoch 2 and one for
 * the application epoch. */
enum { SLOT = 1 + HUSK_MASK_KEY, RECEIVE_KEYS = 5 * SLOT, SEND_KEYS = 2 * SLOT, SAMPLE = 16 };

/* No key in any slot, of either side. */
extern const uint8_t no_keys[RECEIVE_KEYS];

/* The first two bytes of the block of ChaCha20 under the key, with the sample's first 4 bytes as counter and the other 12 as nonce. */
void chacha_mask(const uint8_t *key, const uint8_t *sample, uint8_t mask[2]);

/* The key in a slot, NULL where it holds none: no flag but 1 says that it does. */
const uint8_t *key_in(const uint8_t *slots, uint64_t i);
/* A slot that holds this key, or with NULL none. */
void put_key(uint8_t *slots, uint64_t i, const uint8_t *key);
/* A slot goes, of n, and those behind it move up. */
void drop_slot(uint8_t *slots, uint64_t n, uint64_t i);

/* What keying with a mask key of n bytes must answer where keying without one answers this: 27 behind 12 and 13, before all else. */
uint8_t masked_answer(uint8_t without, size_t n);

/* How many bytes a mask key has: mostly 32. */
size_t mask_key_length(void);
/* Slots with anything in them: about half have a key, and some a flag that is neither 0 nor 1. */
void forge_slots(uint8_t *slots, uint64_t n);

#endif
