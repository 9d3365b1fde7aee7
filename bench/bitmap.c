/* The tests are those of husk_assembly_take, in their order, but for 12: a struct of the program itself is taken as it is. */
#include <string.h>

#include "bitmap.h"

typedef struct {
    uint32_t type, total, number, offset, length;
} Piece;

void bitmap_init(Bitmap *b)
{
    memset(b, 0, sizeof *b);
}

void bitmap_begin(Bitmap *b, size_t n)
{
    b->size = n;
    b->place = 0;
}

static HuskPiece told(uint8_t kind, uint8_t refusal, size_t length)
{
    HuskPiece a = {kind, refusal, 0, 0, length};
    return a;
}

static HuskPiece ended(Bitmap *b, uint8_t refusal)
{
    b->place = b->size;
    return told(HUSK_PIECE_REFUSED, refusal, 0);
}

static uint32_t get_24(const uint8_t *p)
{
    return (uint32_t)p[0] << 16 | (uint32_t)p[1] << 8 | p[2];
}

static Piece parsed(const uint8_t *p)
{
    Piece h = {p[0], get_24(p + 1), (uint32_t)p[4] << 8 | p[5], get_24(p + 6), get_24(p + 9)};
    return h;
}

static int is_bad(const Bitmap *b, const Piece *h)
{
    uint32_t end = h->offset + h->length;
    return b->expected == LAST_NUMBER || h->total > HUSK_MESSAGE_ROOM || end > h->total || (b->count > 0 && end > b->total);
}

static int is_same(const Bitmap *b, const Piece *h)
{
    for (uint32_t k = 0; k < b->count; k++)
        if (b->offset[k] == h->offset && b->length[k] == h->length)
            return 1;
    return 0;
}

/* ---- a body compared: whether a byte of it is another than the one that a piece held has brought */

typedef int Compare(const Bitmap *b, const Piece *h, const uint8_t *body, const uint8_t *buffer);

static inline int is_other(const uint8_t *bits, uint32_t at, uint8_t byte, const uint8_t *buffer)
{
    return (bits[at / 8] >> at % 8 & 1) && buffer[at] != byte;
}

static inline int compare_bits(const Bitmap *b, const Piece *h, const uint8_t *body, const uint8_t *buffer)
{
    for (uint32_t i = 0; i < h->length; i++)
        if (is_other(b->bits, h->offset + i, body[i], buffer))
            return 1;
    return 0;
}

static inline int compare_eights(const Bitmap *b, const Piece *h, const uint8_t *body, const uint8_t *buffer)
{
    for (uint32_t i = 0; i < h->length;) {
        uint32_t at = h->offset + i;
        uint8_t bits = b->bits[at / 8];
        if (at % 8 != 0 || h->length - i < 8 || (bits != 0 && bits != 0xFF)) {
            if (is_other(b->bits, at, body[i++], buffer))
                return 1;
            continue;
        }
        if (bits == 0xFF && memcmp(buffer + at, body + i, 8) != 0)
            return 1;
        i += 8;
    }
    return 0;
}

static inline int compare_nothing(const Bitmap *b, const Piece *h, const uint8_t *body, const uint8_t *buffer)
{
    (void)b, (void)h, (void)body, (void)buffer;
    return 0;
}

/* ---- a body written: whether the message is whole then */

typedef int Write(Bitmap *b, const Piece *h, const uint8_t *body, uint8_t *buffer);

/* How many bytes are brought: 1, or 0 where one is there. */
static inline uint32_t write_byte(uint8_t *restrict bits, uint32_t at, uint8_t byte, uint8_t *restrict buffer)
{
    uint8_t bit = (uint8_t)(1u << at % 8);
    if (bits[at / 8] & bit)
        return 0;
    bits[at / 8] |= bit;
    buffer[at] = byte;
    return 1;
}

static inline int write_bits(Bitmap *b, const Piece *h, const uint8_t *body, uint8_t *buffer)
{
    uint32_t brought = 0;
    for (uint32_t i = 0; i < h->length; i++)
        brought += write_byte(b->bits, h->offset + i, body[i], buffer);
    b->brought += brought;
    return b->brought == b->total;
}

static inline int write_eights(Bitmap *b, const Piece *h, const uint8_t *body, uint8_t *buffer)
{
    uint32_t brought = 0;
    for (uint32_t i = 0; i < h->length;) {
        uint32_t at = h->offset + i;
        uint8_t bits = b->bits[at / 8];
        if (at % 8 != 0 || h->length - i < 8 || (bits != 0 && bits != 0xFF)) {
            brought += write_byte(b->bits, at, body[i++], buffer);
            continue;
        }
        if (bits == 0) {
            memcpy(buffer + at, body + i, 8);
            b->bits[at / 8] = 0xFF;
            brought += 8;
        }
        i += 8;
    }
    b->brought += brought;
    return b->brought == b->total;
}

/* Whole bytes of the bitmap at once; its ends bit by bit. */
static inline void set_bits(uint8_t *bits, uint32_t at, uint32_t end)
{
    for (; at < end && at % 8 != 0; at++)
        bits[at / 8] |= (uint8_t)(1u << at % 8);
    if (end - at >= 8)
        memset(bits + at / 8, 0xFF, (end - at) / 8);
    for (at += (end - at) / 8 * 8; at < end; at++)
        bits[at / 8] |= (uint8_t)(1u << at % 8);
}

/* From the end on, where the last byte of a message that comes in order is missing longest. */
static inline int write_over(Bitmap *b, const Piece *h, const uint8_t *body, uint8_t *buffer)
{
    uint32_t whole = b->total / 8, rest = b->total % 8;
    memcpy(buffer + h->offset, body, h->length);
    set_bits(b->bits, h->offset, h->offset + h->length);
    if (rest != 0 && b->bits[whole] != (1u << rest) - 1)
        return 0;
    while (whole > 0 && b->bits[whole - 1] == 0xFF)
        whole--;
    return whole == 0;
}

/* ---- a piece taken */

static inline HuskPiece hold(Bitmap *b, const Piece *h, const uint8_t *body, uint8_t *buffer, Write *write)
{
    if (b->count == 0) {
        b->type = h->type;
        b->total = h->total;
    }
    if (b->count < MOST_PIECES) {
        b->offset[b->count] = h->offset;
        b->length[b->count++] = h->length;
    }
    if (!write(b, h, body, buffer))
        return told(HUSK_PIECE_HELD, 0, 0);
    HuskPiece a = {HUSK_PIECE_MESSAGE, 0, (uint8_t)b->type, (uint16_t)b->expected, b->total};
    memset(b->bits, 0, (b->total + 7) / 8);
    b->expected++;
    b->count = 0;
    b->brought = 0;
    return a;
}

/* A piece of the number expected. */
static inline __attribute__((always_inline)) HuskPiece offer(Bitmap *b, const Piece *h, const uint8_t *body, uint8_t *buffer,
    Compare *compare, Write *write)
{
    int answers_all = write != write_over;
    if (is_bad(b, h))
        return ended(b, HUSK_BAD_PIECE);
    if (answers_all && b->count > 0 && (h->type != b->type || h->total != b->total || compare(b, h, body, buffer)))
        return ended(b, HUSK_PIECES_DISAGREE);
    int same = answers_all && is_same(b, h);
    if (answers_all && !same && b->count == MOST_PIECES)
        return ended(b, HUSK_TOO_MANY_PIECES);
    b->place += PIECE_HEADER + h->length;
    return same ? told(HUSK_PIECE_SAME, 0, 0) : hold(b, h, body, buffer, write);
}

static inline __attribute__((always_inline)) HuskPiece take(Bitmap *b, const uint8_t *content, size_t n, uint8_t *buffer, size_t room,
    Compare *compare, Write *write)
{
    if (room < HUSK_MESSAGE_ROOM)
        return told(HUSK_PIECE_REFUSED, HUSK_BUFFER_TOO_SMALL, HUSK_MESSAGE_ROOM);
    if (n != b->size)
        return told(HUSK_PIECE_REFUSED, HUSK_NO_QUESTION, 0);
    if (b->place == n)
        return told(HUSK_PIECE_END, 0, 0);
    const uint8_t *p = content + b->place;
    if (n - b->place < PIECE_HEADER)
        return ended(b, HUSK_BAD_PIECE);
    Piece h = parsed(p);
    if (n - b->place - PIECE_HEADER < h.length)
        return ended(b, HUSK_BAD_PIECE);
    if (h.number == b->expected)
        return offer(b, &h, p + PIECE_HEADER, buffer, compare, write);
    b->place += PIECE_HEADER + h.length;
    HuskPiece other = {HUSK_PIECE_OTHER, 0, 0, (uint16_t)h.number, 0};
    return other;
}

HuskPiece bitmap_take(Bitmap *b, const uint8_t *content, size_t n, uint8_t *buffer, size_t room)
{
    return take(b, content, n, buffer, room, compare_bits, write_bits);
}

HuskPiece bitmap_take_by_eight(Bitmap *b, const uint8_t *content, size_t n, uint8_t *buffer, size_t room)
{
    return take(b, content, n, buffer, room, compare_eights, write_eights);
}

HuskPiece bitmap_take_over(Bitmap *b, const uint8_t *content, size_t n, uint8_t *buffer, size_t room)
{
    return take(b, content, n, buffer, room, compare_nothing, write_over);
}
