/* The writer of the host: every captured record that the layer's sending calls can make is written again by them, in the order in which
 * its endpoint sent it, and compared byte for byte. */
#include <inttypes.h>
#include <stdio.h>
#include <string.h>

#include "host.h"

/* GAP is how many records at most are written and thrown away to come to a captured number. */
enum { MTU = 1500, LIMIT = 16, PENDING = 16, GAP = 100000 };

/* Why a record cannot be made: the first reason that applies, in this order. */
enum { MADE, VERSION, EARLY, CONNECTION_ID, ONE_BYTE, NO_LENGTH, SHORT_TAG, PADDED, EPOCH_LEFT, OVER_MTU, NOT_NEXT, REASONS };

static const char *const reason_text[REASONS] = {
    [VERSION] = "of version FE FF",
    [EARLY] = "of early data",
    [CONNECTION_ID] = "with a connection ID",
    [ONE_BYTE] = "with a one-byte number",
    [NO_LENGTH] = "without a length",
    [SHORT_TAG] = "with a tag of 8 bytes",
    [PADDED] = "padded",
    [EPOCH_LEFT] = "of an epoch left",
    [OVER_MTU] = "over the MTU",
    [NOT_NEXT] = "whose number is not next",
};

/* A record that is written but not taken yet: its captured bytes begin at start. */
typedef struct {
    unsigned epoch;
    uint64_t number;
    size_t start, length;
} Pending;

typedef struct {
    HuskSending layer;
    HuskFlight flight;
    Keys keys[EPOCHS];
    unsigned application;
    uint64_t next[3];
    uint8_t queue[LIMIT * MTU], captured[LIMIT * MTU];
    Pending pending[PENDING];
    size_t count;
} Sender;

static Sender senders[2];
static size_t records[REASONS], sent_records, thrown_away, masked;

static uint64_t *next_of(Sender *s, unsigned epoch)
{
    return &s->next[epoch == 0 ? 0 : epoch == 2 ? 1 : 2];
}

/* ---- sealing, taking, comparing */

/* The mask that a reply brings. Where the layer has a mask key it makes its own, and what is brought, which is not to be read, is wrong. */
static void bring_mask(const Keys *keys, const uint8_t *part, uint8_t mask[2])
{
    static const uint8_t wrong[2] = {0x5A, 0xA5};
    if (keys->masked)
        memcpy(mask, wrong, sizeof wrong);
    else
        mask_of(keys, part, mask);
    masked += keys->masked != 0;
}

static void seal_all(Sender *s)
{
    HuskSealing q;
    while ((q = husk_sending_sealing(&s->layer)).kind == HUSK_SEALING_SEAL) {
        const Keys *keys = &s->keys[q.epoch % EPOCHS];
        uint8_t *part = s->queue + q.start, mask[2];
        if (q.length <= HUSK_TAG || q.start > sizeof s->queue || q.length > sizeof s->queue - q.start)
            stop(1, "a part to seal that is not in the queue");
        seal_part(keys, q.nonce, q.header, sizeof q.header, part, q.length);
        bring_mask(keys, part, mask);
        take(husk_sending_sealed(&s->layer, &s->flight, q.length, mask[0], mask[1], s->queue, sizeof s->queue));
    }
    if (q.kind != HUSK_SEALING_NONE)
        stop(1, "a sealing is refused by %u", q.refusal);
}

/* Every queued datagram, one after the other; how many bytes. */
static size_t take_all(Sender *s, uint8_t *out, size_t room)
{
    HuskTake t;
    size_t n = 0;
    while ((t = husk_sending_take(&s->layer, out + n, room - n, s->queue, sizeof s->queue)).kind == HUSK_TAKE_TAKEN)
        n += t.length;
    if (t.kind != HUSK_TAKE_EMPTY)
        stop(1, "a datagram is refused by %u", t.refusal);
    return n;
}

static void compare(const Sender *s, const Pending *p, const uint8_t *written, size_t n)
{
    const uint8_t *captured = s->captured + p->start;
    size_t common = n < p->length ? n : p->length, at = 0;
    while (at < common && written[at] == captured[at])
        at++;
    if (at < common)
        stop(1, "the %s's record of epoch %u, number %" PRIu64 " is written differently at offset %zu of %zu: %02x, captured %02x",
            s == senders ? "client" : "server", p->epoch, p->number, at, p->length, written[at], captured[at]);
    if (n < p->length)
        stop(1, "the %s's record of epoch %u, number %" PRIu64 " is written with %zu bytes in place of %zu",
            s == senders ? "client" : "server", p->epoch, p->number, n, p->length);
    records[MADE]++;
}

static void flush(Sender *s)
{
    static uint8_t written[LIMIT * MTU];
    size_t n, at = 0;
    seal_all(s);
    n = take_all(s, written, sizeof written);
    for (size_t i = 0; i < s->count; i++) {
        compare(s, &s->pending[i], written + at, n - at);
        at += s->pending[i].length;
    }
    if (at != n)
        stop(1, "%zu bytes more are written than were captured", n - at);
    s->count = 0;
}

/* ---- what can be made */

/* Why a record of this form cannot be made, by its flags or version and its length; the rest is compared. */
static int form_of(const Sender *s, const Captured *r)
{
    const uint8_t *b = r->bytes;
    if (r->epoch == 0)
        return r->length > 2 && b[1] == 0xFE && b[2] == 0xFF ? VERSION : MADE;
    if (r->epoch == 1)
        return EARLY;
    if (b[0] & 0x10)
        return CONNECTION_ID;
    if (!(b[0] & 0x08))
        return ONE_BYTE;
    if (!(b[0] & 0x04))
        return NO_LENGTH;
    if (s->keys[r->epoch % EPOCHS].tag != HUSK_TAG)
        return SHORT_TAG;
    return r->length > 5 + r->content_len + 1 + HUSK_TAG ? PADDED : MADE;
}

static uint8_t send_record(Sender *s, const Captured *r, size_t content_len)
{
    return husk_sending_send(&s->layer, (uint16_t)r->epoch, (uint8_t)r->content_type, r->content, content_len, s->queue, sizeof s->queue);
}

/* The layer must refuse what cannot be made for its epoch or its length. */
static int must_refuse(Sender *s, const Captured *r, uint8_t refusal, int why)
{
    if (send_record(s, r, r->content_len) != refusal)
        stop(1, "a record %s is not refused by %u", reason_text[why], refusal);
    return why;
}

/* Why a record of a good form cannot be made now. */
static int refused(Sender *s, const Captured *r)
{
    if (r->epoch > 2 && r->epoch != s->application)
        return must_refuse(s, r, HUSK_BAD_EPOCH, EPOCH_LEFT);
    return r->length > MTU ? must_refuse(s, r, HUSK_BAD_RECORD, OVER_MTU) : MADE;
}

/* Comes to a record's number, by empty records that are thrown away. */
static int come_to(Sender *s, const Captured *r)
{
    static uint8_t thrown[MTU];
    uint64_t *next = next_of(s, r->epoch);
    if (r->number < *next || r->number - *next > GAP)
        return NOT_NEXT;
    if (*next < r->number)
        flush(s);
    for (; *next < r->number; ++*next) {
        take(send_record(s, r, 0));
        seal_all(s);
        take_all(s, thrown, sizeof thrown);
        thrown_away++;
    }
    return MADE;
}

/* ---- the calls */

void writer_begin(void)
{
    for (int side = 0; side < 2; side++) {
        take(husk_sending_init(&senders[side].layer, MTU, LIMIT));
        husk_flight_init(&senders[side].flight);
    }
}

void writer_key(unsigned side, unsigned epoch, const Keys *keys)
{
    Sender *s = &senders[side];
    flush(s);
    if (keys->masked)
        take(husk_sending_key_masked(&s->layer, (uint16_t)epoch, keys->iv, keys->sn_key, sizeof keys->sn_key));
    else
        take(husk_sending_key(&s->layer, (uint16_t)epoch, keys->iv));
    s->keys[epoch % EPOCHS] = *keys;
    *next_of(s, epoch) = 0;
    if (epoch > 2)
        s->application = epoch;
}

void writer_record(unsigned side, const Captured *r)
{
    Sender *s = &senders[side];
    size_t start = 0;
    int why = form_of(s, r);
    sent_records++;
    if (why == EARLY)
        must_refuse(s, r, HUSK_BAD_EPOCH, EARLY);
    if (why == MADE)
        why = refused(s, r);
    if (why == MADE)
        why = come_to(s, r);
    if (why != MADE) {
        records[why]++;
        return;
    }
    if (s->count == PENDING)
        flush(s);
    if (s->count > 0)
        start = s->pending[s->count - 1].start + s->pending[s->count - 1].length;
    if (r->length > sizeof s->captured - start)
        stop(2, "a datagram that is too long");
    take(send_record(s, r, r->content_len));
    ++*next_of(s, r->epoch);
    memcpy(s->captured + start, r->bytes, r->length);
    s->pending[s->count++] = (Pending){r->epoch, r->number, start, r->length};
}

void writer_take(unsigned side)
{
    flush(&senders[side]);
}

int writer_done(void)
{
    return senders[0].count == 0 && senders[1].count == 0;
}

void writer_report(void)
{
    const char *between = "; not made: ";
    if (sent_records == 0)
        return;
    printf("; %zu of %zu sent records written again to the same bytes", records[MADE], sent_records);
    for (int why = MADE + 1; why < REASONS; why++) {
        if (records[why] > 0) {
            printf("%s%zu %s", between, records[why], reason_text[why]);
            between = ", ";
        }
    }
    if (thrown_away > 0)
        printf("; thrown away to come to a number: %zu", thrown_away);
}

size_t writer_masked(void)
{
    return masked;
}
