/* What the histories of the receive side use of the call that deals with a reading. */
#ifndef CLASSES_H
#define CLASSES_H

#include "fuzz.h"

/* The two parts of a HuskReceiving, lent apart: the histories call the library's functions over them, known.c the header's over the whole. */
typedef struct {
    uint64_t word[39];
} Words;

typedef struct {
    uint64_t word[9];
} Pending;

/* The words (crates/recv_words/specs/Words.antt). */
enum { W_WINDOWS = 5, W_MARKS = 10, W_COUNT = 15, W_HIGHEST, W_ENCRYPTION, W_RELEASED, W_MIN, W_SIZE, W_CURSOR, W_READINGS, W_ASKED, W_EPOCH,
    W_TWO, W_HEADER, W_LENGTH, W_NUMBER, W_IVS };

/* The words of what waits (crates/classify/specs/Classify.antt). */
enum { P_KIND, P_TYPE, P_EPOCH, P_NUMBER, P_START, P_LENGTH, P_CLOSED, P_CLOSE_EPOCH, P_CLOSE_NUMBER, P_WORDS };

/* What waits behind an answer of a call that reads. */
Pending noted(const Pending *before, const HuskReading *r);
/* What waits once no reading does. */
Pending cleared(const Pending *before);
/* Words that are anything, most of them in range, for a datagram of n bytes. */
void forge_pending(Pending *p, uint64_t n);

/* The flight that ACKs are for, and one whose words are changed. */
void classes_flight(void);
void classes_change_flight(void);
/* A content type, and a content of it in at most room bytes; its length. */
uint8_t classes_type(void);
size_t classes_content(uint8_t type, uint8_t *p, size_t room);

/* Words that a call leaves as they are; those that no call made it may write anew with the same meaning. */
void check_words(const Words *before, const Words *now, int made);
/* One call, and its kind. made: calls alone have made the words. */
unsigned call_classify(Words *w, Pending *p, int made, const uint8_t *d, size_t n);

void classes_start(void);

#endif
