/* What the parts of the host share: the session's lines, the ciphers, what is done with readings, the writer, the handshake messages. */
#ifndef HOST_H
#define HOST_H

#include <stddef.h>
#include <stdint.h>

#include "huskelapse.h"

/* LONGEST is the longest datagram that the layer reads, ROOM the longest that UDP can bring. */
enum { EPOCHS = 256, LONGEST = 16384, ROOM = 65536 };

/* ---- the session's lines (host.c) */

/* Says why after the session's name and the line's number, and ends: 1 something differs, 2 the input is bad. */
_Noreturn void stop(int status, const char *format, ...);
/* The bytes of a hexadecimal text, none for `-`; how many. */
size_t bytes_of(const char *text, uint8_t *out, size_t room);
/* The number of n bytes, the highest first. */
uint64_t number_at(const uint8_t *d, size_t n);
/* Stops unless a call's answer is 0. */
void take(uint8_t answer);

/* Side 0 is the client, 1 the server; a receiver has the side of those whose records it reads. */
extern const char *const side_names[2];

/* A record that must be read, as the session has it: where its content is in the datagram, and the content. In plaintext the epoch is 0. */
typedef struct {
    int sealed;
    unsigned epoch, content_type;
    uint64_t number;
    size_t start, length;
    const uint8_t *content;
} Expected;

/* ---- the ciphers (ciphers.c) */

/* tag is how many bytes the suite's tags have; the layer is made for 16. masked: the layer has the number key as mask key and makes the
 * masks itself. */
typedef struct {
    const struct Suite *suite;
    size_t tag;
    int masked;
    uint8_t key[32], sn_key[32], iv[12];
} Keys;

/* Keys by the words of a line: suite, key, IV, number key. */
Keys keys_of(const char *suite, const char *key, const char *iv, const char *sn_key);
/* Whether the number key can be a mask key: the suite's masks are made by ChaCha20. */
int is_mask_key(const Keys *keys);
/* The first two bytes of the mask of 16 bytes (RFC 9147, section 4.2.3). */
void mask_of(const Keys *keys, const uint8_t *sample, uint8_t mask[2]);
/* Opens in place all but the tag of a protected part; whether the tag is right. */
int open_part(const Keys *keys, const uint8_t *nonce, const uint8_t *header, size_t header_len, uint8_t *part, size_t length);
/* Seals in place all but the last 16 bytes of a part, which take the tag. */
void seal_part(const Keys *keys, const uint8_t *nonce, const uint8_t *header, size_t header_len, uint8_t *part, size_t length);

/* A sealed record as the layer writes them, with two bytes of its number and a length; how many bytes. */
size_t seal_record(const Keys *keys, const Expected *record, uint8_t *out, size_t room);

/* ---- what is done with readings (classes.c) */

void classes_begin(void);
/* From now on the session is read again with each close first, by new receivers. */
void classes_close_first(void);
/* Peer encryption is on for the receiver of a side. */
void classes_encrypted(unsigned side);
/* A record was read as it must be: the layer deals with it, once, and the answer is judged. */
void classes_deal(unsigned side, HuskReceiving *layer, const Expected *record, const uint8_t *d, size_t n);
/* No record was read: there must be nothing to deal with. */
void classes_none(unsigned side, HuskReceiving *layer, const uint8_t *d, size_t n);
/* For a control: from now on the layer's answers are changed. */
void classes_spoil(const char *what);
/* Prints how many records were dealt with, by what became of them. */
void classes_report(const char *name);

/* ---- the writer (writer.c) */

/* A captured record: the bytes that were sent, and what was opened of them. */
typedef struct {
    unsigned epoch, content_type;
    uint64_t number;
    const uint8_t *bytes, *content;
    size_t length, content_len;
} Captured;

void writer_begin(void);
/* Keys that are masked go to the layer with the number key. */
void writer_key(unsigned side, unsigned epoch, const Keys *keys);
void writer_record(unsigned side, const Captured *record);
/* A captured datagram ends: what was written is taken and compared. */
void writer_take(unsigned side);
/* Whether all that was written is compared. */
int writer_done(void);
/* Prints how many records were written again, and how many cannot be made, by reason. */
void writer_report(void);
/* How many records were sealed in epochs with a mask key. */
size_t writer_masked(void);

/* ---- handshake messages (messages.c) */

void messages_begin(void);
/* The next message that a side sent, as it was captured. */
void messages_sent(unsigned side, unsigned type, const uint8_t *body, size_t length);
/* A handshake record was read: its pieces are taken and judged. */
void messages_record(unsigned side, const uint8_t *content, size_t length);
/* For a control: from now on the layer's answers are changed. */
void messages_spoil(const char *what);
/* Gives the records again in other orders. */
void messages_reorder(void);
/* Prints how many messages came out of how many pieces. */
void messages_report(const char *name);

#endif
