/* The words of a flight, and what an ACK marks in them. */
#ifndef MARKS_H
#define MARKS_H

#include "fuzz.h"

enum { RECORD_WORDS = 73, NUMBERS = 384, ENTRIES = 12, SAVED = 72, REMEMBERED = 32, PAIR = 16 };

/* The words of an entry (crates/flight_words/specs/Words.antt). */
enum { E_TYPE, E_EPOCH, E_NUMBER, E_LENGTH, E_MARKED, E_REMEMBERED, E_WORDS };

/* The two parts of a HuskFlight, lent apart: the histories call the library's functions over them, known.c the header's over the whole. */
typedef struct {
    uint64_t word[RECORD_WORDS];
} Records;

typedef struct {
    uint64_t word[NUMBERS];
} Numbers;

/* The words of the same meaning in which no bit is without one. */
Records flight_plain(const Records *x);
/* Saved records that are not acknowledged. */
unsigned unmarked(const Records *x);
/* A number in n bytes. */
void put(uint8_t *p, uint64_t x, int n);
/* A pair that names a record with these words by its number or one of these, or perhaps nothing. */
void put_pair(uint8_t *p, const uint64_t *w, const uint64_t *remembered);
/* An ACK with this content, n bytes, has left this flight of the one before, and told this. */
void check_marks(const Records *before, const Numbers *numbers, const Records *now, const uint8_t *c, size_t n, const HuskAcked *told);

#endif
