/* What the histories of the sending side and of the flight share. */
#ifndef SENDING_H
#define SENDING_H

#include "fuzz.h"

enum { SLOTS = 16, LONGEST_MTU = 1500 };
#define LAST_NUMBER 0xFFFFFFFFFFFFu

/* The words of a sending side (crates/send_words/specs/Words.antt). */
enum { W_MTU, W_LIMIT, W_FIRST, W_COUNT, W_CLOSED, W_WAITS, W_SLOT, W_START, W_LENGTH, W_EPOCH, W_NUMBER, W_PLAINTEXT_NEXT,
    W_HANDSHAKE, W_HANDSHAKE_NEXT, W_HANDSHAKE_SEALED, W_APPLICATION, W_APPLICATION_NEXT, W_APPLICATION_SEALED, W_MESSAGE, W_LENGTHS,
    W_IVS = W_LENGTHS + SLOTS };

/* The words of a HuskSending, lent apart from its mask keys: the histories call the library's functions over them, known.c the header's over
 * the whole. */
typedef struct {
    uint64_t word[39];
} Sending;

extern Lent queue, content;
/* The state, and as it was before the call. */
extern Sending *s, before;
/* Whether calls alone have made the state, from fresh, with a queue that is long enough. */
extern int made;

/* The words, for functions that are given the whole and use no more of it. */
HuskSending *sending_whole(void);

/* The answer is one that is named; the memory beside what is lent, and the state where the call is refused, are as they were. */
void sending_done(int call, unsigned kind, unsigned refusal, int refused, int may_be_12);

/* The queue as it is before a call. */
void keep_queue(void);
/* These n bytes from at on may have changed. */
void forgive_queue(size_t at, size_t n);
/* No byte of the queue has changed but n from at on. */
void check_queue(size_t at, size_t n);
/* One record lies at the end of the last datagram, as the words then tell, and nothing else is written; where it starts. */
size_t check_laid(uint16_t epoch);

uint16_t some_epoch(void);
uint8_t some_type(void);
size_t content_length(void);
void lend_content(size_t n);
/* An empty content may be lent without a place. */
const uint8_t *content_bytes(void);

/* The flight: its memory, fresh; one call; changed or forged words. */
void flight_start(void);
void flight_fresh(void);
void flight_step(void);
void flight_change(void);
void flight_forge(void);

/* Resends and ACKs: the memory of the notes, nothing noted; one call; changed or forged notes. */
void acks_start(void);
void acks_fresh(void);
void acks_step(void);
void notes_change(void);
void notes_forge(void);

#endif
