/* include/huskelapse.h alone, as C11 and as C++17: its structs and their fields have the places and sizes of the
 * library's, for 64-bit hosts. */
#include "huskelapse.h"

#include <assert.h>

#define PLACED(type, field, at, size) \
    static_assert(offsetof(type, field) == (at) && sizeof(((type *)0)->field) == (size), #type "." #field)
#define SIZED(type, size, align) static_assert(sizeof(type) == (size) && alignof(type) == (align), #type)

#ifndef __cplusplus
#include <stdalign.h>
#endif

static_assert(sizeof(size_t) == 8 && sizeof(void *) == 8, "a host of 64 bits");

SIZED(HuskTold, 2, 1);
PLACED(HuskTold, refusal, 0, 1);
PLACED(HuskTold, told, 1, 1);

SIZED(HuskReceiving, (39 + 9) * 8 + 168, 8);
PLACED(HuskReceiving, word, 0, 39 * 8);
PLACED(HuskReceiving, pending, 39 * 8, 9 * 8);
PLACED(HuskReceiving, mask_keys, (39 + 9) * 8, 5 * (1 + HUSK_MASK_KEY));

SIZED(HuskReading, 56, 8);
PLACED(HuskReading, kind, 0, 1);
PLACED(HuskReading, refusal, 1, 1);
PLACED(HuskReading, content_type, 2, 1);
PLACED(HuskReading, epoch, 4, 2);
PLACED(HuskReading, number, 8, 8);
PLACED(HuskReading, start, 16, 8);
PLACED(HuskReading, header_len, 24, 8);
PLACED(HuskReading, length, 32, 8);
PLACED(HuskReading, nonce, 40, 12);

SIZED(HuskSending, 39 * 8 + 72, 8);
PLACED(HuskSending, word, 0, 39 * 8);
PLACED(HuskSending, mask_keys, 39 * 8, 2 * (1 + HUSK_MASK_KEY));

SIZED(HuskSealing, 56, 8);
PLACED(HuskSealing, kind, 0, 1);
PLACED(HuskSealing, refusal, 1, 1);
PLACED(HuskSealing, epoch, 2, 2);
PLACED(HuskSealing, number, 8, 8);
PLACED(HuskSealing, start, 16, 8);
PLACED(HuskSealing, length, 24, 8);
PLACED(HuskSealing, nonce, 32, 12);
PLACED(HuskSealing, header, 44, 5);

SIZED(HuskTake, 16, 8);
PLACED(HuskTake, kind, 0, 1);
PLACED(HuskTake, refusal, 1, 1);
PLACED(HuskTake, length, 8, 8);

SIZED(HuskPart, 24, 8);
PLACED(HuskPart, kind, 0, 1);
PLACED(HuskPart, refusal, 1, 1);
PLACED(HuskPart, start, 8, 8);
PLACED(HuskPart, length, 16, 8);

SIZED(HuskQueued, 16, 8);
PLACED(HuskQueued, refusal, 0, 1);
PLACED(HuskQueued, queued, 1, 1);
PLACED(HuskQueued, waiting, 8, 8);

SIZED(HuskFlight, (73 + 384) * 8, 8);
PLACED(HuskFlight, word, 0, 73 * 8);
PLACED(HuskFlight, numbers, 73 * 8, 384 * 8);

SIZED(HuskAcked, 4, 1);
PLACED(HuskAcked, refusal, 0, 1);
PLACED(HuskAcked, marked, 1, 1);
PLACED(HuskAcked, unacknowledged, 2, 1);
PLACED(HuskAcked, saved, 3, 1);

SIZED(HuskSaved, 3, 1);
PLACED(HuskSaved, refusal, 0, 1);
PLACED(HuskSaved, saved, 1, 1);
PLACED(HuskSaved, unacknowledged, 2, 1);

SIZED(HuskClass, 24, 8);
PLACED(HuskClass, kind, 0, 1);
PLACED(HuskClass, refusal, 1, 1);
PLACED(HuskClass, description, 2, 1);
PLACED(HuskClass, marked, 3, 1);
PLACED(HuskClass, unacknowledged, 4, 1);
PLACED(HuskClass, saved, 5, 1);
PLACED(HuskClass, start, 8, 8);
PLACED(HuskClass, length, 16, 8);

SIZED(HuskNotes, (1 + 32 + 32) * 8, 8);
PLACED(HuskNotes, count, 0, 8);
PLACED(HuskNotes, epochs, 8, 32 * 8);
PLACED(HuskNotes, numbers, 33 * 8, 32 * 8);

SIZED(HuskAssembly, 106 * 8, 8);
PLACED(HuskAssembly, word, 0, 106 * 8);

SIZED(HuskPiece, 16, 8);
PLACED(HuskPiece, kind, 0, 1);
PLACED(HuskPiece, refusal, 1, 1);
PLACED(HuskPiece, msg_type, 2, 1);
PLACED(HuskPiece, number, 4, 2);
PLACED(HuskPiece, length, 8, 8);
