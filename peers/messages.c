/* Handshake messages, put together by the layer from the handshake records that were read. Each answer is judged by the pieces given, which
 * are kept here with their bytes, and each message also by what the sender sent. At the end the records of every flight are given again in
 * other orders, and the messages cut anew, each time to a new assembly. */
#include <stdio.h>
#include <stdlib.h>
#include <string.h>

#include "host.h"

/* Limits of RFC 9147, 5.2, and of the layer; the others are room for a session. */
enum { HEADER = 12, MOST_PIECES = 50, LAST_NUMBER = 65535, MOST_RECORDS = 4096, MOST_SENT = 1024, PARTS = 9 };

typedef struct {
    unsigned type, number;
    size_t total, offset, length;
    const uint8_t *body;
} Piece;

/* The layer's assembly with its buffer, and what must be in it: the pieces held, and the number expected. */
typedef struct {
    HuskAssembly layer;
    uint8_t buffer[HUSK_MESSAGE_ROOM], before[HUSK_MESSAGE_ROOM];
    Piece held[MOST_PIECES];
    size_t count, number;
} Assembly;

/* Records of one side belong to one flight if none of the other side was read between them. */
typedef struct {
    unsigned flight;
    uint8_t *content;
    size_t length;
} Record;

typedef struct {
    unsigned type;
    uint8_t *body;
    size_t length;
} Message;

/* What a side sent, the records of it that were read, and the assembly that takes them as they come. */
typedef struct {
    Message sent[MOST_SENT];
    Record records[MOST_RECORDS];
    size_t messages, count;
    Assembly assembly;
} Side;

typedef enum { AS_READ, DOUBLED, REVERSED, LATE, JOINED, CUT_ANEW, ORDERS } Order;

static const char *const order_names[ORDERS] = {"as read", "doubled", "reversed", "every third late", "joined", "cut anew"};
/* How often each kind of answer was given, by the order of the records; of refused ones those are counted that end the record. */
static size_t answers[ORDERS][HUSK_PIECE_MESSAGE + 1];
static Side sides[2];
static unsigned flight, last_side;
static char spoiled[16];

/* Memory that is kept to the end: the pieces held lead to it. */
static uint8_t *room_of(size_t n)
{
    uint8_t *room = malloc(n + 1);
    if (room == NULL)
        stop(2, "no memory");
    return room;
}

static uint8_t *copy_of(const uint8_t *bytes, size_t n)
{
    return memcpy(room_of(n), bytes, n);
}

/* ---- the judge */

/* The piece that the rest of a record begins with; whether it is wholly there. */
static int read_piece(const uint8_t *rest, size_t n, Piece *p)
{
    if (n < HEADER)
        return 0;
    p->type = rest[0];
    p->total = number_at(rest + 1, 3);
    p->number = (unsigned)number_at(rest + 4, 2);
    p->offset = number_at(rest + 6, 3);
    p->length = number_at(rest + 9, 3);
    p->body = rest + HEADER;
    return p->length <= n - HEADER;
}

/* The first piece held that has a byte of the message. */
static const Piece *first_with(const Assembly *a, size_t i)
{
    for (size_t k = 0; k < a->count; k++)
        if (a->held[k].offset <= i && i < a->held[k].offset + a->held[k].length)
            return &a->held[k];
    return NULL;
}

static int is_whole(const Assembly *a)
{
    for (size_t i = 0; i < a->held[0].total; i++)
        if (first_with(a, i) == NULL)
            return 0;
    return 1;
}

static int is_fit(const Assembly *a, const Piece *p)
{
    size_t end = p->offset + p->length;
    return a->number != LAST_NUMBER && p->total <= HUSK_MESSAGE_ROOM && end <= p->total && (a->count == 0 || end <= a->held[0].total);
}

static size_t lesser(size_t x, size_t y)
{
    return x < y ? x : y;
}

/* Whether two pieces have one type and total, and the same bytes in the places that both have. */
static int do_agree(const Piece *p, const Piece *q)
{
    size_t start = p->offset < q->offset ? q->offset : p->offset, end = lesser(p->offset + p->length, q->offset + q->length);
    if (p->type != q->type || p->total != q->total)
        return 0;
    return start >= end || memcmp(p->body + (start - p->offset), q->body + (start - q->offset), end - start) == 0;
}

static int agrees(const Assembly *a, const Piece *p)
{
    for (size_t k = 0; k < a->count; k++)
        if (!do_agree(&a->held[k], p))
            return 0;
    return 1;
}

static int is_same(const Assembly *a, const Piece *p)
{
    for (size_t k = 0; k < a->count; k++)
        if (a->held[k].offset == p->offset && a->held[k].length == p->length && do_agree(&a->held[k], p))
            return 1;
    return 0;
}

/* What must be answered for a piece; it is held if it has to be. */
static HuskPiece due(Assembly *a, const uint8_t *rest, size_t n)
{
    HuskPiece answer = {0};
    Piece p;
    if (n == 0) {
        answer.kind = HUSK_PIECE_END;
    } else if (!read_piece(rest, n, &p)) {
        answer.refusal = HUSK_BAD_PIECE;
    } else if (p.number != a->number) {
        answer.kind = HUSK_PIECE_OTHER;
        answer.number = (uint16_t)p.number;
    } else if (!is_fit(a, &p)) {
        answer.refusal = HUSK_BAD_PIECE;
    } else if (!agrees(a, &p)) {
        answer.refusal = HUSK_PIECES_DISAGREE;
    } else if (is_same(a, &p)) {
        answer.kind = HUSK_PIECE_SAME;
    } else if (a->count == MOST_PIECES) {
        answer.refusal = HUSK_TOO_MANY_PIECES;
    } else {
        a->held[a->count++] = p;
        answer.kind = HUSK_PIECE_HELD;
        if (is_whole(a))
            answer = (HuskPiece){HUSK_PIECE_MESSAGE, 0, (uint8_t)a->held[0].type, (uint16_t)a->number, a->held[0].total};
    }
    return answer;
}

/* Every byte of a message is that of the first piece with it, and so of each, and the message is what the side sent. */
static void judge_message(const Assembly *a, const Side *s, const HuskPiece *got, const char *who)
{
    for (size_t i = 0; i < got->length; i++) {
        const Piece *first = first_with(a, i);
        if (a->buffer[i] != first->body[i - first->offset])
            stop(1, "%s: byte %zu of message %u is not that of the first piece with it", who, i, got->number);
    }
    if (got->number >= s->messages)
        stop(1, "%s: message %u was not sent", who, got->number);
    const Message *sent = &s->sent[got->number];
    if (got->msg_type != sent->type || got->length != sent->length || memcmp(a->buffer, sent->body, sent->length) != 0)
        stop(1, "%s: message %u is not the one that was sent", who, got->number);
}

static void judge(Assembly *a, const Side *s, const HuskPiece *want, const HuskPiece *got)
{
    const char *who = side_names[s - sides];
    if (got->kind != want->kind || got->refusal != want->refusal)
        stop(1, "%s: a piece is answered by kind %u, refusal %u, not %u, %u", who, got->kind, got->refusal, want->kind, want->refusal);
    if (got->msg_type != want->msg_type || got->number != want->number || got->length != want->length)
        stop(1, "%s: message %u is answered as type %u, number %u, %zu bytes", who, want->number, got->msg_type, got->number, got->length);
    if (got->kind < HUSK_PIECE_HELD && memcmp(a->buffer, a->before, sizeof a->buffer) != 0)
        stop(1, "%s: a piece that is not held changes the buffer", who);
    if (got->kind == HUSK_PIECE_MESSAGE) {
        judge_message(a, s, got, who);
        a->count = 0;
        a->number++;
    }
}

/* ---- the layer */

static void begin(Assembly *a)
{
    memset(a, 0, sizeof *a);
    memset(&a->layer, 0xEE, sizeof a->layer);
    husk_assembly_init(&a->layer);
}

/* For a control: the answer to a piece is changed as a wrong layer would give it. */
static void spoil(Assembly *a, const Piece *p, HuskPiece *got)
{
    if (strcmp(spoiled, "later") == 0 && got->refusal == HUSK_PIECES_DISAGREE)
        memcpy(a->buffer + p->offset, p->body, p->length);
    if (strcmp(spoiled, "same") == 0 && got->refusal == HUSK_PIECES_DISAGREE)
        *got = (HuskPiece){.kind = HUSK_PIECE_SAME};
    if (strcmp(spoiled, "number") == 0 && got->kind == HUSK_PIECE_OTHER)
        got->number = (uint16_t)a->number;
    if (got->kind != HUSK_PIECE_MESSAGE)
        return;
    if (strcmp(spoiled, "byte") == 0 && got->length > 0)
        a->buffer[got->length - 1] ^= 1;
    else if (strcmp(spoiled, "type") == 0)
        got->msg_type ^= 1;
    else if (strcmp(spoiled, "whole") == 0)
        *got = (HuskPiece){.kind = HUSK_PIECE_HELD};
}

/* Every piece of a record is asked for and judged; the refusal that ended it, else 0. */
static uint8_t give(Assembly *a, const Side *s, const Record *r, Order order)
{
    HuskPiece got;
    size_t at = 0;
    uint8_t refusal = 0;
    take(husk_assembly_begin(&a->layer, r->length));
    do {
        Piece p = {0};
        int whole = read_piece(r->content + at, r->length - at, &p);
        memcpy(a->before, a->buffer, sizeof a->buffer);
        got = husk_assembly_take(&a->layer, r->content, r->length, a->buffer, sizeof a->buffer);
        spoil(a, &p, &got);
        HuskPiece want = due(a, r->content + at, r->length - at);
        judge(a, s, &want, &got);
        answers[order][got.kind]++;
        refusal = got.kind == HUSK_PIECE_REFUSED ? got.refusal : refusal;
        at = whole && got.kind != HUSK_PIECE_REFUSED ? at + HEADER + p.length : r->length;
    } while (got.kind != HUSK_PIECE_END);
    return refusal;
}

/* ---- the session */

void messages_begin(void)
{
    begin(&sides[0].assembly);
    begin(&sides[1].assembly);
}

void messages_spoil(const char *what)
{
    snprintf(spoiled, sizeof spoiled, "%s", what);
}

void messages_sent(unsigned side, unsigned type, const uint8_t *body, size_t length)
{
    Side *s = &sides[side];
    if (s->messages == MOST_SENT)
        stop(2, "more than %d messages", MOST_SENT);
    s->sent[s->messages++] = (Message){type, copy_of(body, length), length};
}

void messages_record(unsigned side, const uint8_t *content, size_t length)
{
    Side *s = &sides[side];
    if (s->count == MOST_RECORDS)
        stop(2, "more than %d handshake records", MOST_RECORDS);
    flight += side != last_side;
    last_side = side;
    s->records[s->count] = (Record){flight, copy_of(content, length), length};
    give(&s->assembly, s, &s->records[s->count], AS_READ);
    s->count++;
}

/* ---- other orders */

/* Places of n records in an order; how many. */
static size_t places_of(Order order, size_t n, size_t *places)
{
    size_t count = 0;
    for (size_t i = 0; i < n; i++) {
        if (order == REVERSED)
            places[count++] = n - 1 - i;
        else if (order == DOUBLED || i % 3 != 2)
            places[count++] = i;
        if (order == DOUBLED)
            places[count++] = i;
    }
    if (order == LATE)
        for (size_t i = 2; i < n; i += 3)
            places[count++] = i;
    return count;
}

/* The pieces of a flight, as read, in one record. */
static void give_joined(Assembly *a, const Side *s, size_t first, size_t n)
{
    Record all = {0};
    for (size_t i = 0; i < n; i++)
        all.length += s->records[first + i].length;
    all.content = room_of(all.length);
    all.length = 0;
    for (size_t i = 0; i < n; i++) {
        memcpy(all.content + all.length, s->records[first + i].content, s->records[first + i].length);
        all.length += s->records[first + i].length;
    }
    give(a, s, &all, JOINED);
}

/* A flight out of order is sent again once for each of its records: then what was passed over has come when it was expected. */
static void give_flight(Assembly *a, const Side *s, size_t first, size_t n, Order order)
{
    static size_t places[2 * MOST_RECORDS];
    size_t count = places_of(order, n, places), passes = order == DOUBLED ? 1 : n + 1;
    for (size_t pass = 0; pass < passes; pass++)
        for (size_t i = 0; i < count; i++)
            give(a, s, &s->records[first + places[i]], order);
}

static void give_flights(Assembly *a, const Side *s, Order order)
{
    size_t first = 0;
    for (size_t i = 1; i <= s->count; i++)
        if (i == s->count || s->records[i].flight != s->records[first].flight) {
            if (order == JOINED)
                give_joined(a, s, first, i - first);
            else
                give_flight(a, s, first, i - first, order);
            first = i;
        }
}

static void put_number(uint8_t *d, size_t n, size_t value)
{
    for (; n > 0; value >>= 8)
        d[--n] = (uint8_t)value;
}

/* A piece of a message that was sent, from start to end, with a bit of the byte at a place changed if it lies there; the refusal, or 0. */
static uint8_t give_cut(Assembly *a, const Side *s, size_t number, size_t start, size_t end, size_t changed)
{
    const Message *m = &s->sent[number];
    Record r = {0, room_of(HEADER + end - start), HEADER + end - start};
    r.content[0] = (uint8_t)m->type;
    put_number(r.content + 1, 3, m->length);
    put_number(r.content + 4, 2, number);
    put_number(r.content + 6, 3, start);
    put_number(r.content + 9, 3, end - start);
    memcpy(r.content + HEADER, m->body + start, end - start);
    if (start <= changed && changed < end)
        r.content[HEADER + changed - start] ^= 1;
    return give(a, s, &r, CUT_ANEW);
}

/* A piece with a bit changed of a byte that a piece held has brought. */
static void give_changed(Assembly *a, const Side *s, size_t number, size_t start, size_t end, size_t changed)
{
    if (give_cut(a, s, number, start, end, changed) != HUSK_PIECES_DISAGREE)
        stop(1, "%s: a piece with byte %zu of message %zu changed is not refused by 28", side_names[s - sides], changed, number);
}

/* A message in parts: every second one first, then those between with half a part more at both sides. Of what overlaps there the first byte is
 * changed, then the last, before the piece comes as it was sent. */
static void cut_message(Assembly *a, const Side *s, size_t number)
{
    size_t total = s->sent[number].length, step = total / PARTS + 1, half = step / 2;
    for (size_t start = step; start < total; start += 2 * step)
        give_cut(a, s, number, start, lesser(start + step, total), total);
    for (size_t start = 0; start == 0 || start < total; start += 2 * step) {
        size_t low = start - lesser(start, half), end = lesser(start + step, total), high = lesser(end + half, total);
        if (low < start)
            give_changed(a, s, number, low, high, low);
        if (end < high)
            give_changed(a, s, number, low, high, high - 1);
        give_cut(a, s, number, low, high, total);
    }
}

static void reorder(const Side *s, Order order)
{
    static Assembly a;
    begin(&a);
    if (order != CUT_ANEW)
        give_flights(&a, s, order);
    else
        for (size_t number = 0; number < s->assembly.number; number++)
            cut_message(&a, s, number);
    if (a.number < s->assembly.number)
        stop(1, "%s: records %s bring %zu messages, as read %zu", side_names[s - sides], order_names[order], a.number, s->assembly.number);
}

void messages_reorder(void)
{
    for (int side = 0; side < 2; side++)
        for (Order order = DOUBLED; order < ORDERS; order++)
            reorder(&sides[side], order);
}

/* ---- the report */

static size_t pieces_of(Order order)
{
    size_t n = answers[order][HUSK_PIECE_REFUSED];
    for (int kind = HUSK_PIECE_OTHER; kind <= HUSK_PIECE_MESSAGE; kind++)
        n += answers[order][kind];
    return n;
}

/* How many messages of a side came out, of how many that were sent, and their types. */
static void report_side(unsigned side)
{
    const Side *s = &sides[side];
    printf("%s %zu of %zu (type", side_names[side], s->assembly.number, s->messages);
    for (size_t i = 0; i < s->assembly.number; i++)
        printf(" %u", s->sent[i].type);
    printf(")");
    if (s->assembly.number < s->messages)
        printf(", message %zu expected", s->assembly.number);
}

static void report_order(Order order)
{
    const size_t *n = answers[order];
    printf("; %s %zu from %zu pieces", order_names[order], n[HUSK_PIECE_MESSAGE], pieces_of(order));
    printf(" (%zu passed over, %zu the same, %zu refused)", n[HUSK_PIECE_OTHER], n[HUSK_PIECE_SAME], n[HUSK_PIECE_REFUSED]);
}

void messages_report(const char *name)
{
    printf("%s: messages: ", name);
    report_side(0);
    printf(", ");
    report_side(1);
    for (Order order = AS_READ; order < ORDERS; order++)
        report_order(order);
    printf("\n");
}
