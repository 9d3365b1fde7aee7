/* What the calls that save records and those that resend and acknowledge them share. */
#ifndef FLIGHT_H
#define FLIGHT_H

#include "marks.h"
#include "sending.h"

extern Lent kept;
/* The flight, and as it was before the call. */
extern Records *f, flight_before;
extern Numbers *numbers, numbers_before;
/* Whether calls alone have made the flight, from fresh, with a buffer that is long enough. */
extern int flight_made;

/* The flight as it is before a call. */
void flight_keep(void);
/* The answer is one that is named; the memory beside what is lent, and state and flight where the call is refused, are as they were. */
void flight_done(int call, unsigned kind, uint8_t answer);
/* The length of a datagram, counted from the front one. */
uint64_t datagram_length(const Sending *x, uint64_t datagram);
/* Datagrams have grown at their ends, or are new; all else in the queue is as it was. */
void check_grown(void);

#endif
