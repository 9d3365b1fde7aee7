/* The record layer of DTLS 1.3 (RFC 9147) for charging posts and gateways, proved: the C interface of libhuskelapse.a.
 *
 * Plain functions (C99 and later, C++) over memory that the host lends: no allocation, no global state, no thread, and nothing asked of the caller but that
 * each pointer leads to what its type or the length beside it says, and that no two of them overlap. A state is words whose meaning the
 * library keeps. Whatever stands in them, a call ends with an answer. The host keeps keys, cipher, timers and sockets.
 *
 * Five objects, each begun by its _init call: HuskReceiving and HuskSending are the two directions of one end; HuskFlight holds the
 * records that go out again until they are acknowledged; HuskNotes the records to acknowledge; HuskAssembly puts whole handshake messages
 * together. Names are husk_OBJECT_VERB.
 *
 * Answers. A call that answers a uint8_t answers 0 (HUSK_DONE), or the number of a refusal. Others answer a struct with a field
 * `refusal`, 0 where nothing is refused. A refused call leaves every buffer, and words that calls made, as they are, but for the _init
 * calls, which begin them, and for 24, 25 and 28, which end a handshake record; words that no call made it may write anew with the same meaning.
 *
 * What 12 covers: a setting outside its range; words that are no state; a queue under limit times mtu bytes, a flight's memory under 12
 * times mtu bytes; an opening reply above 1. Words are no state with a flag above 1; with more epochs, datagrams, readings, saved or noted
 * records than there can be; with a cursor, a question or a sealing that reaches beyond the datagram or its slot; with a question of no
 * kind or under an epoch that is not keyed; with a window or an opening question above number 2^48 - 1, or a sealing above 2^48 - 2; and a
 * HuskAssembly with a message number above 65,535, more than 50 pieces, a total above 16,384 or a place behind its record; and for
 * husk_receiving_classify alone with a waiting reading of no kind or beyond the datagram. So the bytes that a HuskReading or a HuskClass
 * names lie within the datagram lent, whatever stands in the words. What 12 does not cover: whether words are those that the last call at
 * this end left, whether a buffer is the one lent before, a next number to send that is too high (20), epochs and the message number to
 * send (read modulo 65,536), and words that a call does not use.
 *
 * Refusals are listed with each call in the order in which they are tested; docs/SPECIFICATION.md has every test. */
#ifndef HUSKELAPSE_H
#define HUSKELAPSE_H

#include <stddef.h>
#include <stdint.h>

#ifdef __cplusplus
extern "C" {
#endif

#define HUSK_VERSION_MAJOR 0
#define HUSK_VERSION_MINOR 13
#define HUSK_VERSION_PATCH 0
#define HUSK_VERSION "0.13.0"

/* ---- refusals */

enum {
    HUSK_DONE = 0,
    /* The far end or a stranger causes these. */
    HUSK_DATAGRAM_TOO_LONG = 1, /* a datagram over 16,384 bytes */
    HUSK_TRUNCATED = 2,         /* a header or a length reaches beyond the datagram, which ends there */
    HUSK_TOO_MANY_READINGS = 3, /* a seventeenth reading; the datagram ends there */
    HUSK_BAD_PLAINTEXT = 4,     /* a plaintext record's type, version or epoch is not allowed */
    HUSK_BEFORE_ENCRYPTION = 5, /* a sealed record with epoch bits 0 or 1 before peer encryption is on */
    HUSK_NO_KEYS = 6,           /* no keys for the record's epoch */
    HUSK_TOO_SHORT = 7,         /* the protected part is too short */
    HUSK_NUMBER_TOO_LARGE = 8,  /* the record's number would be above 2^48 - 1 */
    HUSK_SEEN = 9,              /* the record's number was used: the record came before */
    HUSK_TOO_OLD = 26,          /* the record's number is 64 or more below the highest used: it comes too late, used or not */
    HUSK_NOT_OPENED = 10,       /* the cipher did not open the record */
    HUSK_NO_CONTENT_TYPE = 11,  /* the opened record has no content type; its number is used */
    /* The host causes these. */
    HUSK_OUT_OF_RANGE = 12,     /* a setting or a state is out of its range, or a buffer too short for them */
    HUSK_BAD_EPOCH = 13,        /* the epoch cannot be used so */
    HUSK_BAD_RECORD = 14,       /* the content type is not allowed, the body over 16,384 bytes or the record over the MTU */
    HUSK_NO_QUESTION = 15,      /* no such question waits, or the reply, or a handshake record, has the wrong length */
    HUSK_BUFFER_TOO_SMALL = 16, /* the buffer is too small for the datagram or a message; the answer says what is needed */
    HUSK_KEYS_ABSENT = 17,      /* no keys to send in the epoch */
    HUSK_BAD_MASK_KEY = 27,     /* a mask key that has not 32 bytes */
    /* Use causes these. */
    HUSK_FLIGHT_FULL = 18,      /* the flight would have a thirteenth record */
    HUSK_QUEUE_FULL = 19,       /* a new datagram is needed and the queue has no room for one */
    HUSK_NUMBERS_SPENT = 20,    /* the epoch's record numbers are spent */
    HUSK_MESSAGES_SPENT = 21,   /* the handshake message numbers are spent */
    HUSK_RESENDS_SPENT = 22,    /* a handshake record remembers 32 numbers */
    HUSK_WAITING = 23,          /* the front datagram is not wholly sealed, four application epochs are keyed to receive, or a sealing
                                   waits under the application epoch that would be replaced */
    /* The far end or a stranger causes these; the rest of the record is left out, and it counts as handed over. */
    HUSK_BAD_PIECE = 24,        /* a piece of a message runs past its own total, that of the first piece or its record, its total is over
                                   16,384, or the message numbers are spent */
    HUSK_PIECES_DISAGREE = 28,  /* a piece has another type or total than the first piece held of its message, or another byte in a place
                                   that pieces held have; the message so far is kept, and the piece that agrees can still come */
    HUSK_TOO_MANY_PIECES = 25   /* a fifty-first different piece of one message */
};

/* What a refusal means, for a log. */
static inline const char *husk_refusal_text(uint8_t refusal) {
    static const char *const text[] = {
        "done",
        "the datagram has more than 16,384 bytes",
        "a header or a length reaches beyond the datagram",
        "the datagram has a seventeenth reading",
        "a plaintext record's type, version or epoch is not allowed",
        "a sealed record with epoch bits 0 or 1 before peer encryption",
        "no keys for the record's epoch",
        "the protected part is too short",
        "the record's number is above 2^48 - 1",
        "the record's number was used",
        "the cipher did not open the record",
        "the opened record has no content type",
        "a setting or a state is out of its range, or a buffer too short for it",
        "the epoch cannot be used so",
        "the type is not allowed, the body over 16,384 bytes or the record over the MTU",
        "the reply answers no waiting question, or it or a handshake record has the wrong length",
        "the buffer is too small for the datagram or a message",
        "no keys to send in this epoch",
        "the flight is full",
        "the queue is full",
        "the record numbers of this epoch are spent",
        "the message numbers are spent",
        "a record was sent again 32 times",
        "a sealing still waits, or four application epochs are keyed to receive",
        "a piece runs past its message or its record, its total is over 16,384 bytes, or the message numbers are spent",
        "the message has more than 50 different pieces",
        "the record's number is 64 or more below the highest used",
        "the mask key has not 32 bytes",
        "a piece disagrees with the pieces held of its message: another type or total, or other bytes in the same place",
    };
    return refusal < sizeof text / sizeof *text ? text[refusal] : "no refusal of this version";
}

/* Content types of records. */
enum {
    HUSK_ALERT = 21,
    HUSK_HANDSHAKE = 22,
    HUSK_APPLICATION_DATA = 23, /* in sealed records only */
    HUSK_ACK = 26
};

/* A tag has 16 bytes; a sealed record is content, its type and the tag. */
enum { HUSK_TAG = 16 };

/* Answer of a call that tells one thing besides its refusal. */
typedef struct {
    uint8_t refusal;
    uint8_t told;
} HuskTold;

/* ---- receiving */

/* Bytes of a mask key. */
enum { HUSK_MASK_KEY = 32 };

/* The receive side: epochs with their IVs and windows, the begun datagram, the question that waits; behind them the reading that waits
 * to be dealt with, and the close; and the mask keys of the epochs that have one. */
typedef struct {
    uint64_t word[39], pending[9];
    uint8_t mask_keys[165];
} HuskReceiving;

enum {
    HUSK_READING_REFUSED = 0,   /* refusal 1, 12 or 15: nothing has changed */
    HUSK_READING_END = 1,       /* the datagram ends; refusal 0, 2 or 3 */
    HUSK_READING_DROPPED = 2,   /* one record is dropped; refusal 4 to 11 or 26 */
    HUSK_READING_PLAINTEXT = 3, /* content_type, number; content at start, length bytes. Anyone can have written it. Readings 3, 4 and 5 are
                                   what husk_receiving_classify deals with */
    HUSK_READING_UNOPENED = 4,  /* before peer encryption: epoch (its two bits), number (its bytes as they lie, masked); protected part
                                   at start, length bytes */
    HUSK_READING_OPENED = 5,    /* epoch, number, content_type; content at start, length bytes */
    HUSK_READING_MASK = 6,      /* asked, but not in an epoch with a mask key: the mask by the number key of epoch of the 16 bytes at
                                   start (length is 16): RFC 9147, 4.2.3, the block of AES-ECB of these bytes, or of ChaCha20 with the
                                   first 4 as counter and 12 as nonce */
    HUSK_READING_OPENING = 7    /* asked: the opening for epoch and number under nonce; header at start, header_len bytes (its number
                                   unmasked), the additional data of the AEAD; behind it the protected part, length bytes */
};

/* What a call says of the record at the cursor. Fields that a kind does not use are zeros. */
typedef struct {
    uint8_t kind, refusal, content_type;
    uint16_t epoch;
    uint64_t number;
    size_t start, header_len, length;
    uint8_t nonce[12];
} HuskReading;

/* Functions of the library over the parts of a HuskReceiving: hosts call the inline functions below, which take one pointer. */
uint8_t husk_receiving_init_words(uint64_t word[39], uint64_t pending[9], uint8_t mask_keys[165], size_t min_protected);
uint8_t husk_receiving_key_words(uint64_t word[39], uint8_t mask_keys[165], uint16_t epoch, const uint8_t iv[12]);
uint8_t husk_receiving_key_masked_words(uint64_t word[39], uint8_t mask_keys[165], uint16_t epoch, const uint8_t iv[12],
    const uint8_t *mask_key, size_t mask_key_len);
HuskTold husk_receiving_remove_words(uint64_t word[39], uint8_t mask_keys[165], uint16_t epoch);
uint8_t husk_receiving_begin_words(uint64_t word[39], uint64_t pending[9], size_t n);
HuskReading husk_receiving_read_words(uint64_t word[39], uint64_t pending[9], const uint8_t mask_keys[165], uint8_t *d, size_t n);
HuskReading husk_receiving_begin_read_words(uint64_t word[39], uint64_t pending[9], const uint8_t mask_keys[165], uint8_t *d, size_t n);
HuskReading husk_receiving_opened_words(uint64_t word[39], uint64_t pending[9], uint8_t opened, size_t length, const uint8_t *d, size_t n);

/* Nothing keyed, no datagram begun, no close, whatever stood in the words. A protected part has at least 16 and at least min_protected
 * bytes, 0 to 17: give 17 (a content type and the tag) for AES-GCM and ChaCha20-Poly1305; 16 lets a record without a content type come to the
 * cipher, as the Rust does. Refused by 12, and then so is every call on it. */
static inline uint8_t husk_receiving_init(HuskReceiving *s, size_t min_protected) {
    return husk_receiving_init_words(s->word, s->pending, s->mask_keys, min_protected);
}

/* Keys an epoch to receive, 2 or above and above every earlier one, with its IV. Its masks are asked of the host. Refused by 12, 13, 23. */
static inline uint8_t husk_receiving_key(HuskReceiving *s, uint16_t epoch, const uint8_t iv[12]) {
    return husk_receiving_key_words(s->word, s->mask_keys, epoch, iv);
}

/* The same with a mask key, of HUSK_MASK_KEY bytes: the number key (sn_key) of a ChaCha20 suite, of the direction that is received. Its masks
 * are made by the library (RFC 9147, 4.2.3), and the host is asked for none. Epochs with and without one stand beside each other. Refused
 * by 12, 13, 27, 23. */
static inline uint8_t husk_receiving_key_masked(HuskReceiving *s, uint16_t epoch, const uint8_t iv[12], const uint8_t *mask_key,
    size_t mask_key_len) {
    return husk_receiving_key_masked_words(s->word, s->mask_keys, epoch, iv, mask_key, mask_key_len);
}

/* Removes an epoch that is keyed, and its mask key. told is 1 where a question waited under it: its record is dropped, and the cut goes on
 * behind it. Refused by 12, 13. */
static inline HuskTold husk_receiving_remove(HuskReceiving *s, uint16_t epoch) {
    return husk_receiving_remove_words(s->word, s->mask_keys, epoch);
}

/* From the next record read on sealed records are opened. This is not undone. Plaintext records are read as before, and anyone can have
 * written them: husk_receiving_classify drops them from now on. Refused by 12. */
uint8_t husk_receiving_enable_encryption(HuskReceiving *s);
/* From the next record read on epoch bits 2 mean an application epoch (6, 10, ..) before they mean epoch 2. It holds no data back or lets
 * it go: records of application epochs are handed over as soon as these are keyed. This is not undone. Refused by 12. */
uint8_t husk_receiving_release_application_data(HuskReceiving *s);

/* One record after the other: read; where asked, mask; where asked, opened; and for what is read husk_receiving_classify, which says where
 * it goes. The same datagram, of the length begun, goes into each call. d is not const where a call may write the number bytes of a record:
 * mask does, and read and begin_read in epochs with a mask key. */

/* Begins a datagram of n bytes; a question that waits is cancelled. Refused by 12, 1. */
static inline uint8_t husk_receiving_begin(HuskReceiving *s, size_t n) {
    return husk_receiving_begin_words(s->word, s->pending, n);
}

/* The next record, or the question that waits again. In an epoch with a mask key the record's number is unmasked in place and its opening is
 * asked for at once. Refused by 12, 15; ended by 2, 3; dropped by 4, 5, 6, 7, with a mask key by 8, 9, 26 too. */
static inline HuskReading husk_receiving_read(HuskReceiving *s, uint8_t *d, size_t n) {
    return husk_receiving_read_words(s->word, s->pending, s->mask_keys, d, n);
}

/* Begins a datagram and reads its first record in one call; a refused beginning is kind 0 with 1 or 12. Else as husk_receiving_read. */
static inline HuskReading husk_receiving_begin_read(HuskReceiving *s, uint8_t *d, size_t n) {
    return husk_receiving_begin_read_words(s->word, s->pending, s->mask_keys, d, n);
}

/* The reply to HUSK_READING_MASK: the first two bytes of the mask, XORed onto the number bytes in place (onto one byte the first alone).
 * Refused by 12, 15; dropped by 8, 9, 26. */
HuskReading husk_receiving_mask(HuskReceiving *s, uint8_t mask_0, uint8_t mask_1, uint8_t *d, size_t n);
/* The reply to HUSK_READING_OPENING. opened is exactly 1 if the host put the plaintext, length bytes (16 fewer than the protected part),
 * at the start of the protected part, and exactly 0 if the tag was wrong; anything else is 12, and the question waits on. Refused by
 * 12, 15; ended by 3; dropped by 10, 11. */
static inline HuskReading husk_receiving_opened(HuskReceiving *s, uint8_t opened, size_t length, const uint8_t *d, size_t n) {
    return husk_receiving_opened_words(s->word, s->pending, opened, length, d, n);
}

/* ---- sending */

/* The sending side: settings, the queue's lengths, the oldest sealing that waits, epochs with their IVs and next numbers; behind them the
 * mask keys of the epochs that have one. */
typedef struct {
    uint64_t word[39];
    uint8_t mask_keys[66];
} HuskSending;

/* The flight: twelve saved records, and for handshake records of epoch 2 and above 32 earlier numbers each, by which an ACK may still
 * name them. Any other record is known by its last number alone: an ACK of an earlier sending marks nothing, so the time between two
 * resends has to be longer than a round trip. Each sending is a record of its own; a receiver may get the content twice. The contents are
 * in a buffer of the host with at least 12 times mtu bytes, the same in every call. */
typedef struct {
    uint64_t word[73], numbers[384];
} HuskFlight;

/* The records noted for the outgoing ACK, at most 32. */
typedef struct {
    uint64_t count[1], epochs[32], numbers[32];
} HuskNotes;

enum {
    HUSK_SEALING_REFUSED = 0, /* refusal 12 */
    HUSK_SEALING_NONE = 1,    /* none waits */
    HUSK_SEALING_SEAL = 2     /* seal length bytes of the queue from start on, for epoch and number under nonce, header as additional data */
};

/* The part to seal is the content, its type and room for the tag of 16. The header has 5 bytes; with connection IDs it will have up to
 * 25, and this struct a length for it: read it by sizeof. */
typedef struct {
    uint8_t kind, refusal;
    uint16_t epoch;
    uint64_t number;
    size_t start, length;
    uint8_t nonce[12], header[5];
} HuskSealing;

enum {
    HUSK_TAKE_REFUSED = 0, /* refusal 12, 16 or 23 */
    HUSK_TAKE_EMPTY = 1,   /* the queue is empty */
    HUSK_TAKE_TAKEN = 2    /* a datagram of length bytes is at the start of the buffer, or at start in the queue */
};

/* By 16, length bytes are needed. */
typedef struct {
    uint8_t kind, refusal;
    size_t length;
} HuskTake;

typedef struct {
    uint8_t kind, refusal;
    size_t start, length;
} HuskPart;

/* Datagrams queued, and records among them that wait to be sealed. */
typedef struct {
    uint8_t refusal, queued;
    size_t waiting;
} HuskQueued;

/* Functions of the library over the two parts of a HuskSending: hosts call the inline functions. */
uint8_t husk_sending_init_words(uint64_t word[39], uint8_t mask_keys[66], size_t mtu, size_t limit);
uint8_t husk_sending_key_words(uint64_t word[39], uint8_t mask_keys[66], uint16_t epoch, const uint8_t iv[12]);
uint8_t husk_sending_key_masked_words(uint64_t word[39], uint8_t mask_keys[66], uint16_t epoch, const uint8_t iv[12], const uint8_t *mask_key,
    size_t mask_key_len);
uint8_t husk_sending_sealed_words(uint64_t word[39], const uint8_t mask_keys[66], size_t length, uint8_t mask_0, uint8_t mask_1,
    uint8_t *queue, size_t queue_len);

/* Nothing keyed, nothing queued, whatever stood in the words: MTU 576 to 1,500, at most limit datagrams, 1 to 16. The queue is a buffer
 * of the host with at least limit times mtu bytes, the same in every call. Refused by 12, and then so is every call on it. */
static inline uint8_t husk_sending_init(HuskSending *s, size_t mtu, size_t limit) {
    return husk_sending_init_words(s->word, s->mask_keys, mtu, limit);
}

/* Keys an epoch to send, 2 or above and above every earlier one, with its IV; an application epoch replaces the one before. Its masks are
 * asked of the host, with each sealing. Refused by 12, 13, 23. */
static inline uint8_t husk_sending_key(HuskSending *s, uint16_t epoch, const uint8_t iv[12]) {
    return husk_sending_key_words(s->word, s->mask_keys, epoch, iv);
}

/* The same with a mask key, of HUSK_MASK_KEY bytes: the number key (sn_key) of a ChaCha20 suite, of the direction that is sent. Its masks
 * are made by the library, and what a sealing reply brings as mask is not read. Refused by 12, 13, 27, 23. */
static inline uint8_t husk_sending_key_masked(HuskSending *s, uint16_t epoch, const uint8_t iv[12], const uint8_t *mask_key,
    size_t mask_key_len) {
    return husk_sending_key_masked_words(s->word, s->mask_keys, epoch, iv, mask_key, mask_key_len);
}

/* A record that is not saved: in plaintext in epoch 0, else to be sealed. Refused by 12, 13, 14, 17, 19, 20. */
uint8_t husk_sending_send(HuskSending *s, uint16_t epoch, uint8_t content_type, const uint8_t *content, size_t content_len,
    uint8_t *queue, size_t queue_len);
/* The oldest sealing that waits; the host seals it in place in the queue, then says so, until HUSK_SEALING_NONE. Where the cipher fails,
 * do not reply and do not seal that part again: a reply would let the text out readable, and a second sealing under one nonce gives it
 * back. Datagrams before it can still be taken; then a new sending side, with new keys, takes the place of this one. Refused by 12. */
HuskSealing husk_sending_sealing(const HuskSending *s);
/* The front datagram, copied to the start of a buffer. Refused by 12, 23, 16. */
HuskTake husk_sending_take(HuskSending *s, uint8_t *buffer, size_t buffer_len, const uint8_t *queue, size_t queue_len);
/* The front datagram taken without a copy: it is the length bytes of the queue from start on, and stays there until the next call that
 * is lent the queue to write to. Refused by 12, 23. */
HuskPart husk_sending_take_in_place(HuskSending *s, const uint8_t *queue, size_t queue_len);
/* What is queued and waits to be sealed. Refused by 12. */
HuskQueued husk_sending_status(const HuskSending *s);

/* ---- functions of the library over the parts of flight and notes: hosts call the inline functions below, which take one pointer each */

/* What an ACK did: how many saved records it acknowledged that were not before, and what is left: records not acknowledged, and saved
 * ones (0: the flight is empty). */
typedef struct {
    uint8_t refusal, marked, unacknowledged, saved;
} HuskAcked;

/* Records saved, and those of them not acknowledged. */
typedef struct {
    uint8_t refusal, saved, unacknowledged;
} HuskSaved;

void husk_flight_init_words(uint64_t word[73], uint64_t numbers[384]);
uint8_t husk_flight_begin_words(uint64_t word[73]);
uint8_t husk_flight_send_words(HuskSending *s, uint64_t word[73], uint64_t numbers[384], uint16_t epoch, uint8_t content_type,
    const uint8_t *content, size_t content_len, uint8_t *queue, size_t queue_len, uint8_t *kept, size_t kept_len);
uint8_t husk_flight_message_words(HuskSending *s, uint64_t word[73], uint64_t numbers[384], uint8_t msg_type, const uint8_t *body,
    size_t body_len, uint8_t *queue, size_t queue_len, uint8_t *kept, size_t kept_len);
HuskTold husk_flight_resend_words(HuskSending *s, uint64_t word[73], uint64_t numbers[384], const uint8_t *kept, size_t kept_len,
    uint8_t *queue, size_t queue_len);
HuskAcked husk_flight_ack_words(uint64_t word[73], uint64_t numbers[384], const uint8_t *content, size_t content_len);
HuskSaved husk_flight_status_words(const uint64_t word[73]);
void husk_notes_init_words(uint64_t count[1], uint64_t epochs[32], uint64_t numbers[32]);
HuskTold husk_notes_add_words(uint64_t count[1], uint64_t epochs[32], uint64_t numbers[32], uint64_t epoch, uint64_t number);
HuskTold husk_notes_send_words(HuskSending *s, uint64_t count[1], uint64_t epochs[32], uint64_t numbers[32], uint8_t *queue,
    size_t queue_len);

/* The oldest sealing is sealed, length bytes, and this is the mask of its two number bytes: of the first 16 sealed bytes. In an epoch with a
 * mask key the mask is made here, and the two bytes are not read. f is the flight of this end; it is not used until the release in which
 * keys are renewed. Refused by 12, 15. */
static inline uint8_t husk_sending_sealed(HuskSending *s, HuskFlight *f, size_t length, uint8_t mask_0, uint8_t mask_1, uint8_t *queue,
    size_t queue_len) {
    (void)f;
    return husk_sending_sealed_words(s->word, s->mask_keys, length, mask_0, mask_1, queue, queue_len);
}

/* ---- saved records and handshake messages */

/* Nothing saved, whatever stood in the words. */
static inline void husk_flight_init(HuskFlight *f) {
    husk_flight_init_words(f->word, f->numbers);
}

/* A new flight: it is empty. s is not used until the release in which keys are renewed. Refused by 12. */
static inline uint8_t husk_flight_begin(HuskFlight *f, HuskSending *s) {
    (void)s;
    return husk_flight_begin_words(f->word);
}

/* A record sent and saved. A flight without records of epoch 2 is not emptied by ACKs: begin it anew once none is unacknowledged. Refused
 * by 12, 13, 14, 17, 18, 19, 20. */
static inline uint8_t husk_flight_send(HuskFlight *f, HuskSending *s, uint16_t epoch, uint8_t content_type, const uint8_t *content,
    size_t content_len, uint8_t *queue, size_t queue_len, uint8_t *kept, size_t kept_len) {
    return husk_flight_send_words(s, f->word, f->numbers, epoch, content_type, content, content_len, queue, queue_len, kept, kept_len);
}

/* A handshake message of a type, cut, sent and saved, wholly or not at all: ClientHello (1) and ServerHello (2) in epoch 0, others in
 * epoch 2, NewSessionTicket and KeyUpdate too (docs/DIFFERENCES.md 43). A message that needs more datagrams than limit is 19 however many
 * are taken. Refused by 12, 14, 17, 21, 18, 19, 20. */
static inline uint8_t husk_flight_message(HuskFlight *f, HuskSending *s, uint8_t msg_type, const uint8_t *body, size_t body_len,
    uint8_t *queue, size_t queue_len, uint8_t *kept, size_t kept_len) {
    return husk_flight_message_words(s, f->word, f->numbers, msg_type, body, body_len, queue, queue_len, kept, kept_len);
}

/* The saved records that are not acknowledged, sent again under new numbers in new datagrams, wholly or not at all. told is how many:
 * with 0 a retransmission timer has nothing to do. Refused by 12, 13, 14, 17, 22, 19, 20. */
static inline HuskTold husk_flight_resend(HuskFlight *f, HuskSending *s, const uint8_t *kept, size_t kept_len, uint8_t *queue,
    size_t queue_len) {
    return husk_flight_resend_words(s, f->word, f->numbers, kept, kept_len, queue, queue_len);
}

/* Acts on an ACK with this content, of a reading HUSK_READING_OPENED of type HUSK_ACK and no other: anyone can write a plaintext one.
 * husk_receiving_classify does this with each ACK for the flight that it is given: call this for a second flight alone, with the content of
 * HUSK_CLASS_ACK. It marks the saved records that it names. The flight empties if it has records of epoch 2 and all of these are marked, and
 * records of other epochs go with it, acknowledged or not: save those in a flight of their own. A content without the form of an ACK marks
 * nothing and is not refused. s is not used until the release in which keys are renewed. Refused by 12. */
static inline HuskAcked husk_flight_ack(HuskFlight *f, HuskSending *s, const uint8_t *content, size_t content_len) {
    (void)s;
    return husk_flight_ack_words(f->word, f->numbers, content, content_len);
}

/* What is saved and not acknowledged: with 0 unacknowledged a retransmission timer can stop. Refused by 12. */
static inline HuskSaved husk_flight_status(const HuskFlight *f) {
    return husk_flight_status_words(f->word);
}

/* ---- where a reading goes */

enum {
    HUSK_CLASS_REFUSED = 0,          /* refusal 12 or 15: nothing has changed */
    HUSK_CLASS_NOTHING = 1,          /* no reading waits to be dealt with */
    HUSK_CLASS_BEYOND = 2,           /* dropped: beyond the close, in its epoch a higher number, or a higher epoch */
    HUSK_CLASS_UNPROTECTED = 3,      /* dropped: in plaintext, and peer encryption is on */
    HUSK_CLASS_IGNORED = 4,          /* nothing is done with it: an ACK in plaintext, alert 90, an alert under two bytes, a close after the
                                        first, a record of type 20 */
    HUSK_CLASS_ACK = 5,              /* an opened ACK, acted on: marked, unacknowledged and saved are as in HuskAcked */
    HUSK_CLASS_CLOSE = 6,            /* the first alert 0: its place is remembered, and what lies beyond is dropped from now on */
    HUSK_CLASS_ALERT = 7,            /* an alert with another description, and the datagram is over: the next read tells its end */
    HUSK_CLASS_HANDSHAKE = 8,        /* for husk_assembly_begin. In plaintext only before peer encryption is on, and then anyone can have
                                        written it */
    HUSK_CLASS_APPLICATION_DATA = 9, /* an opened record of type HUSK_APPLICATION_DATA */
    HUSK_CLASS_OTHER = 10,           /* an opened record of a type not named here */
    HUSK_CLASS_UNOPENED = 11         /* a reading HUSK_READING_UNOPENED */
};

/* What became of a reading. From kind 2 on its content, or protected part, is at start, length bytes; other fields that a kind does not use
 * are zeros. */
typedef struct {
    uint8_t kind, refusal, description, marked, unacknowledged, saved;
    size_t start, length;
} HuskClass;

HuskClass husk_receiving_classify_words(uint64_t word[39], uint64_t pending[9], uint64_t flight[73], uint64_t numbers[384], const uint8_t *d,
    size_t n);

/* Deals with the reading that was told last, as the Rust's classify_record does: call it right after each reading of kind 3, 4 or 5, over the
 * same datagram and before anything is written there. Each reading is dealt with once. One that is not dealt with before the next read or
 * beginning is left behind: if it was an ACK it marks nothing, if it was a close nothing is dropped for it.
 *
 * A host acts on kinds 6 to 10, and on 5 by its timer; with 11 it may keep the record until its epoch is keyed. Kinds 2, 3 and 4 ask for
 * nothing. After a close the host can still send, and records before the close that come late are told as ever. After an alert nothing more
 * is read of its datagram: the records behind it are left out, and their numbers are not used. Before peer encryption is on closes and alerts
 * in plaintext are told, too, and anyone can have written them. A plaintext alert 0 closes every sealed epoch then, as in the Rust: each
 * sealed record is dropped, and a host that goes on begins anew with husk_receiving_init. An unopened record is held against the close by its
 * epoch bits and its number bytes as they lie.
 *
 * f is the flight that ACKs are for. t is not used until the release in which keys are renewed. Refused by 12 (also where an ACK comes for a
 * flight out of its range; it waits on), 15. */
static inline HuskClass husk_receiving_classify(HuskReceiving *s, HuskFlight *f, HuskSending *t, const uint8_t *d, size_t n) {
    (void)t;
    return husk_receiving_classify_words(s->word, s->pending, f->word, f->numbers, d, n);
}

/* ---- ACKs */

/* Nothing noted, whatever stood in the words. */
static inline void husk_notes_init(HuskNotes *n) {
    husk_notes_init_words(n->count, n->epochs, n->numbers);
}

/* Notes a record for the outgoing ACK. told is 1, or 0 where 32 are noted already: then nothing changes. Refused by 12. */
static inline HuskTold husk_notes_add(HuskNotes *n, uint64_t epoch, uint64_t number) {
    return husk_notes_add_words(n->count, n->epochs, n->numbers, epoch, number);
}

/* The ACK of all that is noted, sent in the application epoch if keyed, else in 2; then nothing is noted. A far end that has no keys yet
 * for that application epoch drops it: key it to send when the far end can read it, or send the ACK with husk_sending_send in epoch 2.
 * told is 1, or 0 where nothing was noted and nothing is sent. Refused by 12, 17, 19, 20 (and 13 from words that no call made). */
static inline HuskTold husk_notes_send(HuskNotes *n, HuskSending *s, uint8_t *queue, size_t queue_len) {
    return husk_notes_send_words(s, n->count, n->epochs, n->numbers, queue, queue_len);
}

/* ---- whole handshake messages */

/* The next handshake message: its number, the pieces of it that are held, and the record that is taken apart. */
typedef struct {
    uint64_t word[106];
} HuskAssembly;

/* Bytes of the buffer that a message is put together in: as many as a body may have. */
enum { HUSK_MESSAGE_ROOM = 16384 };

enum {
    HUSK_PIECE_REFUSED = 0, /* refusal 12, 15 or 16 (length is what the buffer needs): nothing has changed; 24, 28 or 25: the rest of
                               the record is left out, and what was held stays */
    HUSK_PIECE_END = 1,     /* the record has no more pieces */
    HUSK_PIECE_OTHER = 2,   /* a piece of another message, passed over: number; one above those handed over has to come again */
    HUSK_PIECE_SAME = 3,    /* a piece that is one held: type, total, offset, length and every byte agree; passed over */
    HUSK_PIECE_HELD = 4,    /* a piece of the message, which is not whole yet */
    HUSK_PIECE_MESSAGE = 5  /* the message is whole: msg_type, number; its body is the first length bytes of the buffer */
};

/* Answer for the next piece of a record. */
typedef struct {
    uint8_t kind;
    uint8_t refusal;
    uint8_t msg_type;
    uint16_t number;
    size_t length;
} HuskPiece;

/* Message 0 is expected and nothing is held, whatever stood in the words. */
void husk_assembly_init(HuskAssembly *s);

/* Begins a record whose content has n bytes, a reading of HUSK_CLASS_HANDSHAKE. What an earlier record had left is left out. Anyone can write
 * a plaintext record: a host that does not classify gives opened ones alone once peer encryption is on, and where the first message comes out
 * wrong, or not at all because the right pieces disagree with a forged one that is held (28), begin again with husk_assembly_init, which expects
 * message 0. Refused by 12. */
uint8_t husk_assembly_begin(HuskAssembly *s, size_t n);

/* The next piece of the record begun, whose content is the same in every call: ask until HUSK_PIECE_END, 24, 28 or 25. Messages come out
 * whole, once, as 0, 1, 2 and so on. Every piece of a message has the type and total of the first one held, and where pieces overlap their
 * bytes are equal; else it is refused by 28. A message lies at the start of the buffer until the next call: use or copy it first. While a
 * piece is held lend the buffer as the last call left it, at least the bytes that pieces have brought: a new piece is compared with them, so
 * that with others there the right piece is refused by 28 and a wrong one may pass. A call changes only bytes that no piece held has brought,
 * and none for a piece that is refused, the same as one held or of another message. Refused by 16 (ask again with HUSK_MESSAGE_ROOM bytes),
 * 12, 15 (the content is not as long as the one begun), 24, 28, 25. */
HuskPiece husk_assembly_take(HuskAssembly *s, const uint8_t *content, size_t content_len, uint8_t *buffer, size_t buffer_len);

#ifdef __cplusplus
}
#endif

#endif
