/* What is done with each reading: the layer deals with it, and the answer is judged by what the session says of the record, by whether peer
 * encryption is on, by the first close of its side and by a list of the records saved in the flight, which was never sent. */
#include <inttypes.h>
#include <stdio.h>
#include <string.h>

#include "host.h"

/* Twelve records are saved, the most that a flight holds: the first of epoch 2, the others of epoch 3. Four of epoch 2 are few enough that
 * ACKs of the sessions name them all, six are too many. A pair of an ACK has 16 bytes. */
enum { MTU = 1500, LIMIT = 16, SAVED = 12, MANY = 6, FEW = 4, PAIR = 16, KINDS = HUSK_CLASS_UNOPENED + 1 };
/* A content type, and two descriptions of alerts. */
enum { CHANGE_CIPHER_SPEC = 20, CLOSE_NOTIFY = 0, USER_CANCELED = 90 };

typedef struct {
    unsigned epoch;
    uint64_t number;
    int marked;
} Saved;

/* What one receiver is lent to deal with its readings, and what must be known of it: whether peer encryption is on, the place of the first
 * close, and the saved records. */
typedef struct {
    HuskSending sending;
    HuskFlight flight;
    uint8_t queue[LIMIT * MTU], kept[SAVED * MTU];
    Saved saved[SAVED];
    size_t count;
    int encrypted, closed;
    unsigned close_epoch;
    uint64_t close_number;
} Dealer;

/* Readings by kind. Ignored ACKs are those in plaintext; late ones were told though they came behind the close. */
typedef struct {
    size_t kinds[KINDS], ignored_acks, marked, emptied, late, unprotected_handshake;
} Counts;

static const char *const kind_names[KINDS] = {
    "refused", "nothing", "beyond the close", "unprotected", "ignored", "an ACK acted on", "the close", "an alert", "handshake",
    "application data", "another type", "unopened",
};
static Dealer dealers[2];
/* As the session has them, and with each close first. */
static Counts counts[2];
static int close_first;
static char spoiled[16];

/* ---- the flight */

/* Saves the records that ACKs may name; numbers begin at 0, since the sending side is new. */
static void begin_flight(Dealer *s)
{
    static const uint8_t iv[12];
    size_t of_two = close_first ? FEW : MANY;
    take(husk_sending_init(&s->sending, MTU, LIMIT));
    take(husk_sending_key(&s->sending, 2, iv));
    take(husk_sending_key(&s->sending, 3, iv));
    take(husk_flight_begin(&s->flight, &s->sending));
    for (s->count = 0; s->count < SAVED; s->count++) {
        unsigned epoch = s->count < of_two ? 2 : 3;
        uint8_t type = epoch == 2 ? HUSK_HANDSHAKE : HUSK_APPLICATION_DATA;
        take(husk_flight_send(&s->flight, &s->sending, (uint16_t)epoch, type, &type, 1, s->queue, sizeof s->queue, s->kept, sizeof s->kept));
        s->saved[s->count] = (Saved){epoch, epoch == 2 ? s->count : s->count - of_two, 0};
    }
}

/* Whether the content of an ACK is a length and as many bytes of pairs. */
static int is_ack(const Expected *r)
{
    return r->length >= 2 && number_at(r->content, 2) == r->length - 2 && (r->length - 2) % PAIR == 0;
}

static int names(const Expected *r, const Saved *saved)
{
    for (size_t at = 2; at < r->length; at += PAIR)
        if (number_at(r->content + at, 8) == saved->epoch && number_at(r->content + at + 8, 8) == saved->number)
            return 1;
    return 0;
}

static size_t unmarked(const Dealer *s, unsigned epoch)
{
    size_t n = 0;
    for (size_t i = 0; i < s->count; i++)
        n += !s->saved[i].marked && (epoch == 0 || s->saved[i].epoch == epoch);
    return n;
}

/* Marks what an ACK names. With the last one of epoch 2 the flight is empty. */
static void acknowledge(Dealer *s, const Expected *r, HuskClass *due)
{
    size_t before = unmarked(s, 0);
    for (size_t i = 0; i < s->count && is_ack(r); i++)
        s->saved[i].marked |= names(r, &s->saved[i]);
    due->marked = (uint8_t)(before - unmarked(s, 0));
    if (unmarked(s, 2) == 0)
        s->count = 0;
    due->unacknowledged = (uint8_t)unmarked(s, 0);
    due->saved = (uint8_t)s->count;
}

/* ---- the judge */

static int is_beyond(const Dealer *s, const Expected *r)
{
    if (!s->closed || r->epoch < s->close_epoch)
        return 0;
    return r->epoch > s->close_epoch || r->number > s->close_number;
}

static uint8_t kind_of_alert(const Dealer *s, const Expected *r)
{
    if (r->length < 2 || r->content[1] == USER_CANCELED)
        return HUSK_CLASS_IGNORED;
    if (r->content[1] != CLOSE_NOTIFY)
        return HUSK_CLASS_ALERT;
    return s->closed ? HUSK_CLASS_IGNORED : HUSK_CLASS_CLOSE;
}

static uint8_t kind_of(const Dealer *s, const Expected *r)
{
    unsigned type = r->content_type;
    if (is_beyond(s, r))
        return HUSK_CLASS_BEYOND;
    if (!r->sealed && s->encrypted && (type == HUSK_ALERT || type == HUSK_HANDSHAKE || type == HUSK_ACK))
        return HUSK_CLASS_UNPROTECTED;
    switch (type) {
    case CHANGE_CIPHER_SPEC:
        return HUSK_CLASS_IGNORED;
    case HUSK_ALERT:
        return kind_of_alert(s, r);
    case HUSK_HANDSHAKE:
        return HUSK_CLASS_HANDSHAKE;
    case HUSK_APPLICATION_DATA:
        return HUSK_CLASS_APPLICATION_DATA;
    case HUSK_ACK:
        return r->sealed ? HUSK_CLASS_ACK : HUSK_CLASS_IGNORED;
    default:
        return HUSK_CLASS_OTHER;
    }
}

/* What must be answered for a record; the close is remembered, and an ACK marks. */
static HuskClass due(Dealer *s, const Expected *r)
{
    HuskClass answer = {.kind = kind_of(s, r), .start = r->start, .length = r->length};
    if (answer.kind == HUSK_CLASS_ACK) {
        acknowledge(s, r, &answer);
    } else if (answer.kind == HUSK_CLASS_ALERT) {
        answer.description = r->content[1];
    } else if (answer.kind == HUSK_CLASS_CLOSE) {
        s->closed = 1;
        s->close_epoch = r->epoch;
        s->close_number = r->number;
    }
    return answer;
}

static void judge(const Dealer *s, const Expected *r, const HuskClass *want, const HuskClass *got)
{
    const char *who = side_names[s - dealers];
    if (got->kind >= KINDS)
        stop(1, "%s: a record is told as kind %u", who, got->kind);
    if (got->kind != want->kind || got->refusal != 0)
        stop(1, "%s: the record of type %u, epoch %u, number %" PRIu64 " is told as %s, refusal %u, not as %s", who, r->content_type,
            r->epoch, r->number, kind_names[got->kind], got->refusal, kind_names[want->kind]);
    if (got->description != want->description)
        stop(1, "%s: an alert is told by description %u, not %u", who, got->description, want->description);
    if (got->start != want->start || got->length != want->length)
        stop(1, "%s: another content is told", who);
    if (got->marked != want->marked || got->unacknowledged != want->unacknowledged || got->saved != want->saved)
        stop(1, "%s: the ACK of epoch %u, number %" PRIu64 " is told to mark %u records and leave %u of %u, not %u and %u of %u", who,
            r->epoch, r->number, got->marked, got->unacknowledged, got->saved, want->marked, want->unacknowledged, want->saved);
}

/* The flight is as the judge has it. */
static void judge_flight(const Dealer *s)
{
    HuskSaved got = husk_flight_status(&s->flight);
    if (got.refusal != 0 || got.saved != s->count || got.unacknowledged != unmarked(s, 0))
        stop(1, "%s: the flight has %u of %u records unacknowledged, refusal %u, not %zu of %zu", side_names[s - dealers], got.unacknowledged,
            got.saved, got.refusal, unmarked(s, 0), s->count);
}

/* ---- the layer */

/* A call that must answer this kind and refusal, tell nothing and change nothing. */
static void must_do_nothing(Dealer *s, HuskReceiving *layer, const uint8_t *d, size_t n, uint8_t kind, uint8_t refusal)
{
    HuskReceiving before = *layer;
    HuskFlight flight = s->flight;
    HuskClass got = husk_receiving_classify(layer, &s->flight, &s->sending, d, n);
    const char *who = side_names[s - dealers];
    if (got.kind != kind || got.refusal != refusal)
        stop(1, "%s: where nothing is to be dealt with kind %u, refusal %u is answered, not %u, %u", who, got.kind, got.refusal, kind,
            refusal);
    if (got.description || got.marked || got.unacknowledged || got.saved || got.start || got.length)
        stop(1, "%s: where nothing is dealt with something is told", who);
    if (memcmp(&before, layer, sizeof before) != 0 || memcmp(&flight, &s->flight, sizeof flight) != 0)
        stop(1, "%s: where nothing is dealt with something changes", who);
}

/* For a control: the answer is changed as a wrong layer would give it. */
static void spoil(const Dealer *s, const Expected *r, HuskClass *got)
{
    int plaintext_ack = !r->sealed && r->content_type == HUSK_ACK;
    if (strcmp(spoiled, "closed") == 0 && got->kind == HUSK_CLASS_CLOSE)
        got->kind = HUSK_CLASS_IGNORED;
    else if (strcmp(spoiled, "plaintext") == 0 && plaintext_ack)
        got->kind = HUSK_CLASS_ACK;
    else if (strcmp(spoiled, "at-close") == 0 && got->kind == HUSK_CLASS_CLOSE)
        got->kind = HUSK_CLASS_BEYOND;
    else if (strcmp(spoiled, "late") == 0 && s->closed)
        got->kind = HUSK_CLASS_BEYOND;
    else if (strcmp(spoiled, "beyond") == 0 && got->kind == HUSK_CLASS_BEYOND)
        got->kind = HUSK_CLASS_APPLICATION_DATA;
    else if (strcmp(spoiled, "marked") == 0 && got->kind == HUSK_CLASS_ACK)
        got->marked++;
}

static void count(const Expected *r, const HuskClass *got, int late, int emptied)
{
    Counts *c = &counts[close_first];
    c->kinds[got->kind]++;
    c->marked += got->marked;
    c->emptied += emptied != 0;
    c->late += late && got->kind > HUSK_CLASS_UNPROTECTED;
    c->ignored_acks += got->kind == HUSK_CLASS_IGNORED && r->content_type == HUSK_ACK;
    c->unprotected_handshake += got->kind == HUSK_CLASS_UNPROTECTED && r->content_type == HUSK_HANDSHAKE;
}

void classes_deal(unsigned side, HuskReceiving *layer, const Expected *r, const uint8_t *d, size_t n)
{
    Dealer *s = &dealers[side];
    HuskFlight flight = s->flight;
    HuskClass got, want;
    int late = s->closed;
    must_do_nothing(s, layer, d, n - 1, HUSK_CLASS_REFUSED, HUSK_NO_QUESTION);
    got = husk_receiving_classify(layer, &s->flight, &s->sending, d, n);
    spoil(s, r, &got);
    want = due(s, r);
    judge(s, r, &want, &got);
    judge_flight(s);
    if (got.kind != HUSK_CLASS_ACK && memcmp(&flight, &s->flight, sizeof flight) != 0)
        stop(1, "%s: what is no ACK acted on changes the flight", side_names[side]);
    must_do_nothing(s, layer, d, n, HUSK_CLASS_NOTHING, 0);
    count(r, &got, late, s->count == 0);
    if (s->count == 0)
        begin_flight(s);
}

void classes_none(unsigned side, HuskReceiving *layer, const uint8_t *d, size_t n)
{
    must_do_nothing(&dealers[side], layer, d, n, HUSK_CLASS_NOTHING, 0);
}

/* ---- the session */

void classes_begin(void)
{
    for (int side = 0; side < 2; side++) {
        memset(&dealers[side], 0, sizeof dealers[side]);
        husk_flight_init(&dealers[side].flight);
        begin_flight(&dealers[side]);
    }
}

void classes_close_first(void)
{
    close_first = 1;
    classes_begin();
}

void classes_encrypted(unsigned side)
{
    dealers[side].encrypted = 1;
}

void classes_spoil(const char *what)
{
    snprintf(spoiled, sizeof spoiled, "%s", what);
}

/* ---- the report */

static void report_count(size_t n, const char *what, const char *rest)
{
    if (n > 0)
        printf(", %zu %s%s%s", n, what, n == 1 ? "" : "s", rest);
}

static void report_acks(const Counts *c)
{
    report_count(c->kinds[HUSK_CLASS_ACK], "ACK", "");
    if (c->kinds[HUSK_CLASS_ACK] > 0)
        printf(" (%zu marked", c->marked);
    if (c->emptied > 0)
        printf(", %zu flight%s emptied", c->emptied, c->emptied == 1 ? "" : "s");
    if (c->kinds[HUSK_CLASS_ACK] > 0)
        printf(")");
}

void classes_report(const char *name)
{
    const Counts *c = &counts[0], *again = &counts[1];
    const size_t *kinds = c->kinds;
    printf("%s: dealt with: %zu handshake, %zu application data", name, kinds[HUSK_CLASS_HANDSHAKE], kinds[HUSK_CLASS_APPLICATION_DATA]);
    report_acks(c);
    report_count(kinds[HUSK_CLASS_CLOSE], "close", "");
    report_count(kinds[HUSK_CLASS_ALERT], "alert", "");
    report_count(kinds[HUSK_CLASS_OTHER], "record", " of another type");
    report_count(c->ignored_acks, "plaintext ACK", " ignored");
    report_count(kinds[HUSK_CLASS_IGNORED] - c->ignored_acks, "other", " ignored");
    report_count(c->unprotected_handshake, "handshake record", " in plaintext after encryption dropped");
    report_count(kinds[HUSK_CLASS_UNPROTECTED] - c->unprotected_handshake, "other", " in plaintext after encryption dropped");
    report_count(kinds[HUSK_CLASS_BEYOND], "record", " beyond the close dropped");
    if (close_first) {
        printf("; close first: %zu late told, %zu beyond dropped", again->late, again->kinds[HUSK_CLASS_BEYOND]);
        report_acks(again);
    }
    printf("\n");
}
