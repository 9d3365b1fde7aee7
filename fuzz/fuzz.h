/* What the parts of the driver share: random choices, memory lent at the edge of what may be touched, answers counted, findings. */
#ifndef FUZZ_H
#define FUZZ_H

#include <stddef.h>
#include <stdint.h>

#include "huskelapse.h"

/* ---- random choices, the same for the same seed and history */

uint64_t any(void);
uint64_t below(uint64_t n);
int one_in(uint64_t n);
void scatter(uint8_t *p, size_t n);
/* A word at or near an edge of some range, or anything. */
uint64_t edge_word(uint64_t old);
/* A few bytes changed. */
void mutate(uint8_t *p, size_t n);

/* ---- memory: each area has an inaccessible page on either side, and a second view through which it cannot be written */

typedef struct {
    uint8_t *bytes;
    const uint8_t *fixed;
    size_t room;
} Area;

/* n bytes of an area, from its start or up to its end; the bytes beside them are watched. */
typedef struct {
    uint8_t *bytes;
    const uint8_t *fixed;
    size_t n;
    uint8_t *beside;
} Lent;

Area area(size_t room);
Lent lend(const Area *a, size_t n, int at_end);
/* Fails if a byte beside it has changed. */
void check_beside(const Lent *l);

/* ---- answers and findings */

enum {
    RECEIVING_INIT, RECEIVING_KEY, RECEIVING_KEY_MASKED, RECEIVING_REMOVE, RECEIVING_ENABLE, RECEIVING_RELEASE, RECEIVING_BEGIN,
    RECEIVING_READ, RECEIVING_BEGIN_READ, RECEIVING_MASK, RECEIVING_OPENED, RECEIVING_CLASSIFY,
    SENDING_INIT, SENDING_KEY, SENDING_KEY_MASKED, SENDING_SEND, SENDING_SEALING, SENDING_SEALED, SENDING_TAKE, SENDING_TAKE_IN_PLACE,
    SENDING_STATUS,
    FLIGHT_INIT, FLIGHT_BEGIN, FLIGHT_SEND, FLIGHT_MESSAGE, FLIGHT_RESEND, FLIGHT_ACK, FLIGHT_STATUS,
    NOTES_INIT, NOTES_ADD, NOTES_SEND,
    ASSEMBLY_INIT, ASSEMBLY_BEGIN, ASSEMBLY_TAKE,
    CALLS
};

extern uint64_t datagrams, replies, handshakes, calls_made, words_rewritten;

/* Before a call, so that a fault names it. */
void calling(int call);
/* Fails if the call may not answer so. Answers without a kind have 0; those that tell how many, or whether, have 1 where that is not 0. */
void answered(int call, unsigned kind, unsigned refusal);
_Noreturn void finding(const char *what);
void require(int holds, const char *what);

/* Some answers worked by hand. */
void known(void);
void receiving_start(void);
void receiving_history(void);
void sending_start(void);
void sending_history(void);
void assembly_start(void);
void assembly_history(void);
/* A line of what its pieces came to that is no answer of its own; how much of it never came. */
unsigned assembly_tell(void);

#endif
