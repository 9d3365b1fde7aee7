/* Histories of the assembly of handshake messages, beside a model of it: a map of the bytes covered, a list of the pieces held, and the
 * tests in the order in which change requests 2 and 7 word them. */
#include <inttypes.h>
#include <stdio.h>
#include <string.h>

#include "fuzz.h"

enum { WORDS = 106, PIECES = 50, HEAD = 12, LAST_NUMBER = 65535, ROOM = HUSK_MESSAGE_ROOM, CONTENT = 20000, BUFFER = ROOM + 100 };

/* The words (crates/assembly/specs/Spans.antt). */
enum { W_EXPECTED, W_COUNT, W_TYPE, W_TOTAL, W_SIZE, W_PLACE, W_OFFSETS, W_LENGTHS = W_OFFSETS + PIECES };

typedef struct {
    uint64_t type, total, number, offset, length;
} Piece;

/* What must be reached and is no answer of its own: a disagreement by one reason alone, and pieces that overlap and agree. */
enum { BY_TYPE, BY_TOTAL, BY_BYTE, OVERLAPS, OF_OTHERS, REACHES };

static const char *const reach_names[REACHES] = {"disagreed by the type alone", "by the total alone", "by a byte alone", "held over others",
    "held though all its bytes were there"};
static uint64_t reached[REACHES];

static Area states, contents, buffers, shorts;
static Lent state, content, buffer, short_buffer;
static HuskAssembly *s;

/* ---- the model */

/* Words and buffer as they must be; of the map, bytes that a piece held has brought are 1. */
static struct {
    uint64_t expected, count, type, total, size, place, offset[PIECES], length[PIECES];
    uint8_t covered[ROOM], bytes[BUFFER];
} model;

static void cover(uint64_t offset, uint64_t length)
{
    if (offset < ROOM)
        memset(model.covered + offset, 1, length < ROOM - offset ? (size_t)length : (size_t)(ROOM - offset));
}

/* The model of words that no call made. */
static void load(void)
{
    const uint64_t *w = s->word;
    model.expected = w[W_EXPECTED];
    model.count = w[W_COUNT];
    model.type = w[W_TYPE];
    model.total = w[W_TOTAL];
    model.size = w[W_SIZE];
    model.place = w[W_PLACE];
    memcpy(model.offset, w + W_OFFSETS, sizeof model.offset);
    memcpy(model.length, w + W_LENGTHS, sizeof model.length);
    memset(model.covered, 0, ROOM);
    for (uint64_t k = 0; k < model.count && k < PIECES; k++)
        cover(model.offset[k], model.length[k]);
}

static int in_range(void)
{
    return model.expected <= LAST_NUMBER && model.count <= PIECES && model.total <= ROOM && model.place <= model.size;
}

static HuskPiece told(uint8_t kind, uint8_t refusal, size_t length)
{
    HuskPiece a = {kind, refusal, 0, 0, length};
    return a;
}

/* "a refusal other than 16 ends the record"; "the message so far is kept" */
static HuskPiece ended(uint8_t refusal)
{
    model.place = model.size;
    return told(HUSK_PIECE_REFUSED, refusal, 0);
}

/* "24, .. for a piece that runs past its own total, the held total .., a total over 16,384, or 65,535 as the expected number" */
static int is_bad(const Piece *p)
{
    uint64_t end = p->offset + p->length;
    return end > p->total || (model.count > 0 && end > model.total) || p->total > ROOM || model.expected == LAST_NUMBER;
}

/* How many of a piece's bytes are in places that pieces held cover, and how many of these are others. */
static uint64_t shared_bytes(const Piece *p, const uint8_t *body, uint64_t *others)
{
    uint64_t shared = 0;
    *others = 0;
    for (uint64_t i = 0; i < p->length; i++)
        if (model.covered[p->offset + i]) {
            shared++;
            *others += model.bytes[p->offset + i] != body[i];
        }
    return shared;
}

/* "Every piece must have the held type and total, and where pieces overlap, shared bytes must be equal" */
static int disagrees(const Piece *p, const uint8_t *body)
{
    uint64_t others;
    if (model.count == 0)
        return 0;
    shared_bytes(p, body, &others);
    int type = p->type != model.type % 256, total = p->total != model.total, byte = others > 0;
    if (type + total + byte == 1)
        reached[type ? BY_TYPE : total ? BY_TOTAL : BY_BYTE]++;
    return type || total || byte;
}

/* "the same exactly when message number, type, total length, offset, length and every byte agree": of a piece that does not disagree */
static int is_same(const Piece *p)
{
    for (uint64_t k = 0; k < model.count; k++)
        if (model.offset[k] == p->offset && model.length[k] == p->length)
            return 1;
    return 0;
}

/* "handed over once when every byte is covered"; "Type and total are those of the first piece held" */
static HuskPiece hold(const Piece *p, const uint8_t *body)
{
    uint64_t others, shared = shared_bytes(p, body, &others);
    reached[OVERLAPS] += shared > 0 && shared < p->length;
    reached[OF_OTHERS] += shared > 0 && shared == p->length;
    if (model.count == 0) {
        model.type = p->type;
        model.total = p->total;
    }
    memcpy(model.bytes + p->offset, body, (size_t)p->length);
    cover(p->offset, p->length);
    model.offset[model.count] = p->offset;
    model.length[model.count++] = p->length;
    if (memchr(model.covered, 0, (size_t)model.total) != NULL)
        return told(HUSK_PIECE_HELD, 0, 0);
    HuskPiece a = {HUSK_PIECE_MESSAGE, 0, (uint8_t)model.type, (uint16_t)model.expected, (size_t)model.total};
    model.expected++;
    model.count = 0;
    memset(model.covered, 0, ROOM);
    return a;
}

static uint64_t get(const uint8_t *p, int n)
{
    uint64_t x = 0;
    for (int i = 0; i < n; i++)
        x = x << 8 | p[i];
    return x;
}

/* The record goes on behind the piece, which changes nothing else. */
static HuskPiece passed(uint8_t kind, uint64_t number, uint64_t next)
{
    HuskPiece a = {kind, 0, 0, (uint16_t)number, 0};
    model.place = next;
    return a;
}

/* "Pieces of other messages change nothing and are only measured against the record"; "24, before sameness", "28 for a disagreement, after
 * 24 and before 25", "25 for a fifty-first different piece" */
static HuskPiece take_piece(const uint8_t *p, size_t left)
{
    if (left < HEAD || left - HEAD < get(p + 9, 3))
        return ended(24);
    Piece h = {p[0], get(p + 1, 3), get(p + 4, 2), get(p + 6, 3), get(p + 9, 3)};
    uint64_t next = model.place + HEAD + h.length;
    if (h.number != model.expected)
        return passed(HUSK_PIECE_OTHER, h.number, next);
    if (is_bad(&h))
        return ended(24);
    if (disagrees(&h, p + HEAD))
        return ended(28);
    if (is_same(&h))
        return passed(HUSK_PIECE_SAME, 0, next);
    if (model.count == PIECES)
        return ended(25);
    model.place = next;
    return hold(&h, p + HEAD);
}

static HuskPiece expected_answer(size_t n, size_t room)
{
    if (room < ROOM)
        return told(HUSK_PIECE_REFUSED, 16, ROOM);
    if (!in_range())
        return told(HUSK_PIECE_REFUSED, 12, 0);
    if (n != model.size)
        return told(HUSK_PIECE_REFUSED, 15, 0);
    if (model.place == model.size)
        return told(HUSK_PIECE_END, 0, 0);
    return take_piece(content.bytes + model.place, n - (size_t)model.place);
}

/* ---- calls */

static void check_all(void)
{
    HuskAssembly w = {{model.expected, model.count, model.type, model.total, model.size, model.place}};
    memcpy(w.word + W_OFFSETS, model.offset, sizeof model.offset);
    memcpy(w.word + W_LENGTHS, model.length, sizeof model.length);
    require(memcmp(&w, s, sizeof w) == 0, "other words than the model's");
    require(memcmp(model.bytes, buffer.bytes, buffer.n) == 0, "other bytes than the model's");
    check_beside(&state);
    check_beside(&content);
    check_beside(&buffer);
    check_beside(&short_buffer);
}

static void call_init(void)
{
    calling(ASSEMBLY_INIT);
    husk_assembly_init(s);
    answered(ASSEMBLY_INIT, 0, 0);
    model.expected = model.count = model.type = model.total = model.size = model.place = 0;
    memset(model.offset, 0, sizeof model.offset);
    memset(model.length, 0, sizeof model.length);
    memset(model.covered, 0, ROOM);
    check_all();
}

static void call_begin(size_t n)
{
    handshakes++;
    calling(ASSEMBLY_BEGIN);
    uint8_t answer = husk_assembly_begin(s, n);
    answered(ASSEMBLY_BEGIN, 0, answer);
    require(answer == (in_range() ? 0 : 12), "words in range are refused, or others are taken");
    if (answer == 0) {
        model.size = n;
        model.place = 0;
    }
    check_all();
}

/* An empty content may be lent without a place; the content is lent through the view that cannot be written. */
static HuskPiece call_take(size_t n, uint8_t *room, size_t room_length)
{
    calling(ASSEMBLY_TAKE);
    HuskPiece a = husk_assembly_take(s, n == 0 && one_in(2) ? NULL : content.fixed, n, room, room_length);
    answered(ASSEMBLY_TAKE, a.kind, a.refusal);
    HuskPiece b = expected_answer(n, room_length);
    require(a.kind == b.kind && a.refusal == b.refusal, "another kind or refusal than the model's");
    require(a.msg_type == b.msg_type && a.number == b.number && a.length == b.length, "another type, number or length than the model's");
    check_all();
    return a;
}

/* A buffer too short stays as it is. */
static void take_short(void)
{
    static uint8_t before[ROOM];
    size_t n = one_in(3) ? 0 : one_in(2) ? ROOM - 1 : below(ROOM);
    short_buffer = lend(&shorts, n, one_in(2));
    memset(short_buffer.bytes, (int)below(256), n);
    memcpy(before, short_buffer.bytes, n);
    call_take(one_in(8) ? below(content.n + 1) : content.n, n == 0 && one_in(2) ? NULL : short_buffer.bytes, n);
    require(memcmp(before, short_buffer.bytes, n) == 0, "a buffer too short is written");
}

/* The record begun, to its end or not. */
static void take_record(void)
{
    for (int more = 1; more && !one_in(40);) {
        if (one_in(32))
            take_short();
        if (one_in(32) && content.n > 0)
            call_take(below(content.n), buffer.bytes, buffer.n);
        more = call_take(content.n, buffer.bytes, buffer.n).kind > HUSK_PIECE_END;
    }
    if (one_in(8))
        call_take(content.n, buffer.bytes, buffer.n);
}

/* ---- records */

/* The message that a sender cuts into pieces, by what its bytes are told from those of others, and how far it is. */
static struct {
    uint64_t type, total, number, salt, pieces, next, reversed;
} plan;

/* Most messages of a history have at most so many bytes. */
static uint64_t scale;
/* In long records other pieces than the planned ones come so much more rarely, since each may end the record. */
static uint64_t rarely;

static uint64_t some_total(void)
{
    static const uint64_t totals[] = {0, 1, 2, ROOM - 1, ROOM, ROOM + 1};
    return one_in(24) ? totals[below(6)] : one_in(64) ? below(1 << 24) : below(scale + 1);
}

static void new_plan(uint64_t number)
{
    static const uint64_t cuts[] = {12, 49, 50, 51};
    int begun = number == model.expected && model.count > 0 && model.total <= ROOM;
    plan.type = begun && !one_in(16) ? model.type : below(256);
    plan.total = begun && !one_in(16) ? model.total : some_total();
    plan.number = number;
    plan.salt = any();
    plan.pieces = one_in(5) ? cuts[below(4)] : 1 + below(5);
    plan.next = 0;
    plan.reversed = one_in(3);
}

static Piece planned(void)
{
    uint64_t k = plan.reversed ? plan.pieces - 1 - plan.next : plan.next, start = plan.total * k / plan.pieces;
    Piece p = {plan.type, plan.total, plan.number, start, plan.total * (k + 1) / plan.pieces - start};
    plan.next += !one_in(16); /* else it comes twice */
    if (plan.next == plan.pieces)
        new_plan(plan.number + 1);
    return p;
}

/* The planned piece, or one that overlaps others, has a field at an edge, is of another message, or is held. */
static Piece some_piece(void)
{
    Piece p = planned();
    uint64_t k = below(model.count > 0 && model.count <= PIECES ? model.count : PIECES);
    switch (below(32 * rarely)) {
    case 0: case 1:
        p.offset = below(p.total + 1);
        p.length = below(p.total - p.offset + 1);
        break;
    case 2: case 3:
        p.offset = model.offset[k];
        p.length = model.length[k];
        break;
    case 4: p.number += one_in(2) ? 1 : any(); break;
    case 5: p.total = some_total(); break;
    case 6: p.length += one_in(2) ? 1 : below(40); break;
    case 7: p.offset = one_in(2) ? p.offset + 1 : edge_word(p.offset); break;
    case 8: p.length = 0; break;
    case 9: p.total = p.offset + p.length + (one_in(2) ? 0 : below(40)); break;
    case 10: p.type ^= one_in(2) ? 1u << below(8) : below(256); break;
    }
    return p;
}

/* A byte of the message: that which is there, where a piece held has brought it. */
static uint8_t body_byte(const Piece *h, uint64_t at)
{
    if (h->number % 65536 == model.expected && at < ROOM && model.covered[at])
        return model.bytes[at];
    return (uint8_t)(plan.salt + 7 * at + at / 256);
}

/* A byte becomes another: the first, the last, or any; mostly one that is shared, if there is one from there on. */
static void alter(uint8_t *body, size_t n, uint64_t offset)
{
    size_t i = one_in(4) ? 0 : one_in(4) ? n - 1 : (size_t)below(n);
    if (!one_in(4))
        while (i + 1 < n && (offset + i >= ROOM || !model.covered[offset + i]))
            i++;
    body[i] ^= (uint8_t)(1u << below(8));
}

static void put(uint8_t *p, uint64_t x, int n)
{
    for (; n > 0; n--, x >>= 8)
        p[n - 1] = (uint8_t)x;
}

/* A piece at the end of the record, where it fits; else its header, and a body that is cut. */
static size_t put_piece(uint8_t *p, size_t room, const Piece *h)
{
    size_t n = h->length < room - HEAD ? (size_t)h->length : room - HEAD;
    p[0] = (uint8_t)h->type;
    put(p + 1, h->total, 3);
    put(p + 4, h->number, 2);
    put(p + 6, h->offset, 3);
    put(p + 9, h->length, 3);
    for (size_t i = 0; i < n; i++)
        p[HEAD + i] = body_byte(h, h->offset + i);
    if (n > 0 && one_in(16 * rarely))
        alter(p + HEAD, n, h->offset);
    return HEAD + n;
}

/* Pieces of the message expected and of those behind it, then perhaps cut or changed; or random bytes. */
static void lend_record(void)
{
    static uint8_t built[CONTENT];
    size_t n = 0;
    if (plan.number % 65536 != model.expected % 65536 || one_in(16))
        new_plan(model.expected);
    uint64_t pieces = one_in(12) ? 60 : 1 + below(4);
    rarely = pieces == 60 && !one_in(3) ? 16 : 1;
    for (uint64_t k = pieces; k > 0 && n + HEAD <= CONTENT; k--) {
        Piece p = some_piece();
        n += put_piece(built + n, CONTENT - n, &p);
    }
    if (one_in(16))
        n = one_in(2) ? below(n + 1) : n - 1 - below(n < 20 ? n : 20);
    if (one_in(16))
        mutate(built, n);
    if (one_in(32))
        scatter(built, n = one_in(8) ? below(4000) : below(40));
    content = lend(&contents, n, one_in(2));
    memcpy(content.bytes, built, n);
}

/* ---- histories */

/* Words at and beyond the edges of their ranges; spans of bytes, or of anything. */
static void forge(void)
{
    static const uint64_t numbers[] = {0, 1, 65534, 65535, 65536, UINT64_MAX}, counts[] = {0, 1, 49, 50, 51, UINT64_MAX},
                          totals[] = {0, 1, ROOM - 1, ROOM, ROOM + 1, UINT64_MAX};
    uint64_t *w = s->word;
    w[W_EXPECTED] = one_in(2) ? below(3) : numbers[below(6)];
    w[W_COUNT] = one_in(2) ? below(8) : counts[below(6)];
    w[W_TYPE] = one_in(8) ? any() : below(256);
    w[W_TOTAL] = one_in(2) ? below(scale + 1) : totals[below(6)];
    for (int k = 0; k < PIECES; k++) {
        w[W_OFFSETS + k] = one_in(16) ? edge_word(0) : below(scale + 1);
        w[W_LENGTHS + k] = one_in(16) ? edge_word(0) : below(scale / 8 + 2);
    }
    load();
}

/* A record that no call began, at any place of it. */
static void forge_place(void)
{
    uint64_t *w = s->word;
    w[W_SIZE] = one_in(8) ? edge_word(content.n) : content.n;
    w[W_PLACE] = one_in(2) ? 0 : one_in(2) ? w[W_SIZE] - 1 + below(3) : one_in(2) ? below(content.n + 1) : edge_word(w[W_SIZE]);
    load();
    handshakes++;
}

static void change(void)
{
    uint64_t *w = &s->word[one_in(2) ? below(W_OFFSETS) : below(WORDS)];
    *w = edge_word(*w);
    load();
}

/* A host may use the buffer for itself while nothing is held. One that does so with a piece held is answered by the bytes that are there. */
static void change_buffer(void)
{
    mutate(buffer.bytes, buffer.n);
    memcpy(model.bytes, buffer.bytes, buffer.n);
}

/* A record begun and taken, with its length or another. */
static void step(void)
{
    lend_record();
    if (one_in(model.count == 0 ? 4 : 16))
        change_buffer();
    call_begin(one_in(32) ? (size_t)edge_word(content.n) : content.n);
    take_record();
}

static void forged_step(uint64_t kind)
{
    HuskAssembly good = *s;
    if (kind == 0) {
        scatter(state.bytes, state.n);
        load();
        step();
    } else if (kind == 1) {
        forge();
        lend_record();
        forge_place();
        take_record();
    } else {
        change();
        step();
    }
    if (kind == 1)
        return;
    *s = good;
    load();
}

/* What is lent, with any bytes in it; a buffer mostly of the length it needs. */
static void lend_all(void)
{
    size_t n = one_in(2) ? ROOM : one_in(2) ? ROOM + 1 : ROOM + below(100);
    state = lend(&states, sizeof(HuskAssembly), one_in(2));
    buffer = lend(&buffers, n, one_in(2));
    s = (HuskAssembly *)(void *)state.bytes;
    scatter(state.bytes, state.n);
    memset(buffer.bytes, (int)below(256), n);
    memcpy(model.bytes, buffer.bytes, n);
}

void assembly_history(void)
{
    uint64_t kind = below(12), steps = 4 + below(one_in(8) ? 60 : 16);
    scale = one_in(8) ? ROOM : one_in(2) ? 300 : 40;
    lend_all();
    call_init();
    if (one_in(8))
        s->word[W_EXPECTED] = model.expected = LAST_NUMBER - below(6); /* as many messages were handed over */
    new_plan(model.expected);
    for (; steps > 0; steps--) {
        if (kind < 3 && one_in(2))
            forged_step(kind);
        else
            step();
    }
}

void assembly_start(void)
{
    states = area(sizeof(HuskAssembly));
    contents = area(CONTENT);
    buffers = area(BUFFER);
    shorts = area(ROOM);
    content = lend(&contents, 0, 1);
    short_buffer = lend(&shorts, 0, 1);
}

unsigned assembly_tell(void)
{
    unsigned never = 0;
    printf("pieces:");
    for (int i = 0; i < REACHES; i++) {
        printf("%s %s %" PRIu64, i > 0 ? "," : "", reach_names[i], reached[i]);
        never += reached[i] == 0;
    }
    printf("\n");
    return never;
}
