/* The call that deals with a reading, within the histories of the receive side, beside a model of 02's request 3. */
#include <string.h>

#include "classes.h"
#include "marks.h"
#include "masks.h"

enum { PLAINTEXT = 3, UNOPENED = 4, OPENED = 5, CHANGE_CIPHER_SPEC = 20, USER_CANCELED = 90 };

static Area flights, tables;
static Lent flight, table;
static Records *saved, saved_before;
static Numbers *earlier, earlier_before;

/* ---- the model */

Pending cleared(const Pending *before)
{
    Pending p = *before;
    p.word[P_KIND] = 0;
    return p;
}

Pending noted(const Pending *before, const HuskReading *r)
{
    Pending p = cleared(before);
    if (r->kind == HUSK_READING_REFUSED)
        return *before;
    if (r->kind < PLAINTEXT || r->kind > OPENED)
        return p;
    const uint64_t told[] = {r->kind, r->content_type, r->epoch, r->number, r->start, r->length};
    memcpy(p.word, told, sizeof told);
    return p;
}

/* "drops records beyond it": a higher number in its epoch, or a higher epoch. */
static int is_beyond(const uint64_t *p)
{
    if (!p[P_CLOSED])
        return 0;
    return p[P_EPOCH] > p[P_CLOSE_EPOCH] || (p[P_EPOCH] == p[P_CLOSE_EPOCH] && p[P_NUMBER] > p[P_CLOSE_NUMBER]);
}

/* "the first alert 0 remembers its place", "alert 90 and alerts under two bytes are ignored, another description is told". */
static unsigned alert_class(const uint64_t *p, const uint8_t *c, size_t n)
{
    if (n < 2 || c[1] == USER_CANCELED)
        return HUSK_CLASS_IGNORED;
    if (c[1] == 0)
        return p[P_CLOSED] ? HUSK_CLASS_IGNORED : HUSK_CLASS_CLOSE;
    return HUSK_CLASS_ALERT;
}

/* The reading that waits, with its content. */
static unsigned class_of(const uint64_t *p, int encrypted, const uint8_t *c, size_t n)
{
    int plain = p[P_KIND] == PLAINTEXT;
    uint64_t type = p[P_TYPE];
    if (is_beyond(p))
        return HUSK_CLASS_BEYOND;
    /* "plaintext ACK, alert and handshake records are dropped once peer encryption is on" */
    if (plain && encrypted && (type == HUSK_ACK || type == HUSK_ALERT || type == HUSK_HANDSHAKE))
        return HUSK_CLASS_UNPROTECTED;
    if (p[P_KIND] == UNOPENED)
        return HUSK_CLASS_UNOPENED;
    switch (type) {
    case HUSK_ACK: return plain ? HUSK_CLASS_IGNORED : HUSK_CLASS_ACK; /* "A plaintext ACK never marks anything" */
    case HUSK_ALERT: return alert_class(p, c, n);
    case HUSK_HANDSHAKE: return HUSK_CLASS_HANDSHAKE;
    case HUSK_APPLICATION_DATA: return HUSK_CLASS_APPLICATION_DATA;
    case CHANGE_CIPHER_SPEC: return HUSK_CLASS_IGNORED;
    default: return HUSK_CLASS_OTHER;
    }
}

static int is_flight(const Records *x)
{
    int good = x->word[SAVED] <= ENTRIES;
    for (int i = 0; i < ENTRIES; i++)
        good = good && x->word[E_WORDS * i + E_MARKED] <= 1;
    return good;
}

/* Whether the words are a state: so says a beginning, of a copy. */
static int is_state(const Words *w)
{
    Words copy = *w;
    Pending p = {{0}};
    return husk_receiving_begin_words(copy.word, p.word, 0) != HUSK_OUT_OF_RANGE;
}

static int is_inside(uint64_t start, uint64_t length, uint64_t n)
{
    return start <= n && length <= n - start;
}

/* What waits is of a kind that there is and lies in the datagram of n bytes, or none does. */
static int is_pending(const uint64_t *p, uint64_t n)
{
    int fits = p[P_KIND] >= PLAINTEXT && p[P_KIND] <= OPENED && is_inside(p[P_START], p[P_LENGTH], n);
    return (p[P_KIND] == 0 || fits) && p[P_CLOSED] <= 1;
}

/* Where its content is. */
static const uint8_t *content_of(const uint64_t *p, const uint8_t *d)
{
    return p[P_START] == 0 ? d : d + p[P_START];
}

/* The class, or the refusal in *refusal. */
static unsigned expected(const Words *w, const Pending *before, const uint8_t *d, size_t n, unsigned *refusal)
{
    const uint64_t *p = before->word;
    *refusal = 0;
    if (!is_state(w) || !is_pending(p, w->word[W_SIZE]))
        *refusal = HUSK_OUT_OF_RANGE;
    else if (n != w->word[W_SIZE])
        *refusal = HUSK_NO_QUESTION;
    else if (p[P_KIND] == 0)
        return HUSK_CLASS_NOTHING;
    if (*refusal != 0)
        return HUSK_CLASS_REFUSED;
    unsigned kind = class_of(p, w->word[W_ENCRYPTION] == 1, content_of(p, d), (size_t)p[P_LENGTH]);
    if (kind == HUSK_CLASS_ACK && !is_flight(saved)) {
        *refusal = HUSK_OUT_OF_RANGE;
        return HUSK_CLASS_REFUSED;
    }
    return kind;
}

/* ---- checks */

/* Where the content is, in the datagram whatever stood in the words; fields that a kind does not use are zeros. */
static void check_told(const HuskClass *k, const uint64_t *p, const uint8_t *d, size_t n)
{
    int placed = k->kind >= HUSK_CLASS_BEYOND;
    require(is_inside(k->start, k->length, n), "a place outside the datagram");
    require(k->start == (placed ? p[P_START] : 0) && k->length == (placed ? p[P_LENGTH] : 0), "another place than the reading has");
    require(k->description == (k->kind == HUSK_CLASS_ALERT ? content_of(p, d)[1] : 0), "another description than the alert has");
    if (k->kind != HUSK_CLASS_ACK)
        require(k->marked == 0 && k->unacknowledged == 0 && k->saved == 0, "a field not used is not zero");
}

/* No reading waits any more, each is dealt with once; the first close is remembered. */
static void check_pending(const HuskClass *k, const Pending *before, const Pending *now)
{
    Pending e = k->kind >= HUSK_CLASS_BEYOND ? cleared(before) : *before;
    if (k->kind == HUSK_CLASS_CLOSE) {
        e.word[P_CLOSED] = 1;
        e.word[P_CLOSE_EPOCH] = before->word[P_EPOCH];
        e.word[P_CLOSE_NUMBER] = before->word[P_NUMBER];
    }
    require(memcmp(&e, now, sizeof e) == 0, "another reading waits, or another close is remembered");
}

/* An alert ends the datagram, unless a question waits; the next read tells its end. */
static void check_ended(const HuskClass *k, const Words *before, const Words *now, int made, uint8_t *d, size_t n)
{
    Words e = *before, copy = *now;
    Pending p = {{0}};
    int ends = k->kind == HUSK_CLASS_ALERT && e.word[W_ASKED] == 0;
    if (ends)
        e.word[W_CURSOR] = e.word[W_SIZE];
    check_words(&e, now, made);
    if (!ends)
        return;
    HuskReading r = husk_receiving_read_words(copy.word, p.word, no_keys, d, n);
    require(r.kind == HUSK_READING_END && r.refusal == 0, "a datagram that an alert does not end");
}

/* An ACK marks what it names; nothing else does. */
static void check_flight(const HuskClass *k, const uint64_t *p, const uint8_t *d)
{
    const HuskAcked told = {0, k->marked, k->unacknowledged, k->saved};
    if (k->kind == HUSK_CLASS_ACK)
        check_marks(&saved_before, &earlier_before, saved, content_of(p, d), (size_t)p[P_LENGTH], &told);
    else
        require(memcmp(&saved_before, saved, sizeof saved_before) == 0, "a reading that is no ACK has changed the flight");
    require(memcmp(&earlier_before, earlier, sizeof earlier_before) == 0, "the remembered numbers have changed");
}

unsigned call_classify(Words *w, Pending *p, int made, const uint8_t *d, size_t n)
{
    Words words = *w;
    Pending before = *p;
    unsigned refusal, kind = expected(w, p, d, n, &refusal);
    saved_before = *saved;
    earlier_before = *earlier;
    calling(RECEIVING_CLASSIFY);
    HuskClass k = husk_receiving_classify_words(w->word, p->word, saved->word, earlier->word, d, n);
    answered(RECEIVING_CLASSIFY, k.kind, k.refusal);
    check_beside(&flight);
    check_beside(&table);
    require(k.kind == kind && k.refusal == refusal, "another class than 02 says");
    check_told(&k, before.word, d, n);
    check_pending(&k, &before, p);
    check_ended(&k, &words, w, made, (uint8_t *)(uintptr_t)d, n);
    check_flight(&k, before.word, d);
    return k.kind;
}

/* ---- contents */

uint8_t classes_type(void)
{
    static const uint8_t types[] = {CHANGE_CIPHER_SPEC, HUSK_ALERT, HUSK_ALERT, HUSK_HANDSHAKE, HUSK_APPLICATION_DATA, HUSK_ACK, HUSK_ACK,
        HUSK_ACK};
    return one_in(12) ? (uint8_t)(1 + below(255)) : types[below(sizeof types)];
}

/* An ACK that names saved records, or perhaps nothing, or is none. */
static size_t put_ack(uint8_t *p, size_t room)
{
    uint64_t most = room < 2 ? 0 : (room - 2) / PAIR, pairs = below(most + 1);
    size_t n = 2 + PAIR * (size_t)pairs;
    if (room < 2)
        return 0;
    p[0] = 0;
    p[1] = (uint8_t)(n - 2);
    for (uint64_t k = 0; k < pairs; k++)
        put_pair(p + 2 + PAIR * k, &saved->word[E_WORDS * below(4)], &earlier->word[REMEMBERED * below(4)]);
    if (one_in(8))
        mutate(p, n);
    return one_in(8) ? below(n + 1) : n;
}

size_t classes_content(uint8_t type, uint8_t *p, size_t room)
{
    static const uint8_t descriptions[] = {0, 0, 0, 90, 90, 1, 40, 89, 91, 255};
    if (type == HUSK_ACK)
        return put_ack(p, room);
    if (type != HUSK_ALERT) {
        scatter(p, room);
        return below(room + 1);
    }
    size_t n = one_in(3) ? below(4) : 2;
    const uint8_t alert[3] = {(uint8_t)below(3), descriptions[below(sizeof descriptions)], (uint8_t)any()};
    n = n < room ? n : room;
    memcpy(p, alert, n);
    return n;
}

/* ---- the flight */

/* Words that calls could have made: every record has a number, a mark and a few earlier numbers. */
void classes_flight(void)
{
    flight = lend(&flights, sizeof(Records), one_in(2));
    table = lend(&tables, sizeof(Numbers), one_in(2));
    saved = (Records *)(void *)flight.bytes;
    earlier = (Numbers *)(void *)table.bytes;
    husk_flight_init_words(saved->word, earlier->word);
    for (int i = 0; i < ENTRIES; i++) {
        uint64_t *w = &saved->word[E_WORDS * i];
        w[E_TYPE] = HUSK_HANDSHAKE;
        w[E_EPOCH] = one_in(3) ? below(5) : 2;
        w[E_NUMBER] = below(8);
        w[E_LENGTH] = below(100);
        w[E_MARKED] = one_in(6);
        w[E_REMEMBERED] = below(4);
        scatter((uint8_t *)&earlier->word[REMEMBERED * i], sizeof(uint64_t) * REMEMBERED);
        for (int k = 0; k < 4; k++)
            earlier->word[REMEMBERED * i + k] = below(16);
    }
    saved->word[SAVED] = one_in(4) ? below(ENTRIES + 1) : below(5);
}

void classes_change_flight(void)
{
    uint64_t i = one_in(2) ? SAVED : below(RECORD_WORDS);
    saved->word[i] = edge_word(saved->word[i]);
}

void forge_pending(Pending *p, uint64_t n)
{
    scatter((uint8_t *)p->word, sizeof p->word);
    p->word[P_KIND] = one_in(16) ? edge_word(4) : PLAINTEXT + below(3);
    p->word[P_TYPE] = classes_type();
    p->word[P_EPOCH] = below(4);
    p->word[P_NUMBER] = below(6);
    p->word[P_START] = one_in(16) ? edge_word(n) : below(n + 1);
    uint64_t left = p->word[P_START] <= n ? n - p->word[P_START] : 0;
    p->word[P_LENGTH] = one_in(8) ? edge_word(left) : below(left + 1);
    p->word[P_CLOSED] = one_in(16) ? edge_word(1) : below(2);
    p->word[P_CLOSE_EPOCH] = below(4);
    p->word[P_CLOSE_NUMBER] = below(6);
    if (one_in(4)) /* at the close */
        memcpy(&p->word[P_EPOCH], &p->word[P_CLOSE_EPOCH], 2 * sizeof(uint64_t));
}

void classes_start(void)
{
    flights = area(sizeof(Records));
    tables = area(sizeof(Numbers));
    classes_flight();
}
