/* Reassembly over a bitmap, which bench/assembly.c times the library beside. */
#ifndef BITMAP_H
#define BITMAP_H

#include "huskelapse.h"

enum { PIECE_HEADER = 12, MOST_PIECES = 50, LAST_NUMBER = 65535 };

/* The message expected, the pieces of it that are held, a bit for each byte that they have brought, how many such bytes there are, and the
 * record that is taken apart. */
typedef struct {
    uint32_t expected, count, type, total, brought;
    size_t size, place;
    uint32_t offset[MOST_PIECES], length[MOST_PIECES];
    uint8_t bits[HUSK_MESSAGE_ROOM / 8];
} Bitmap;

void bitmap_init(Bitmap *b);
void bitmap_begin(Bitmap *b, size_t n);

/* Bit by bit: a byte is compared with that of the buffer where its bit is set; if all are equal, it is written and its bit set where the bit
 * is clear. The same answers as husk_assembly_take. */
HuskPiece bitmap_take(Bitmap *b, const uint8_t *content, size_t n, uint8_t *buffer, size_t room);
/* The same, by eight bytes where eight bits are all clear or all set. */
HuskPiece bitmap_take_by_eight(Bitmap *b, const uint8_t *content, size_t n, uint8_t *buffer, size_t room);
/* The form of OpenSSL's dtls1_reassemble_fragment: the whole piece is copied over what is there, its bits are set, and all bits are looked
 * through for one that is clear. It answers less: nothing is compared and later bytes win where pieces overlap, no piece is the same as
 * another, and there may be any number of them. */
HuskPiece bitmap_take_over(Bitmap *b, const uint8_t *content, size_t n, uint8_t *buffer, size_t room);

#endif
