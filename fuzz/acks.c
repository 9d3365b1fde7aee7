/* The calls that resend the flight, act on ACKs, note records and send the ACK, within the histories of the sending side. */
#include <string.h>

#include "flight.h"

enum { NOTES = 32, MOST_PAIRS = 1060 };

/* The parts of a HuskNotes, lent apart as those of a flight. */
typedef struct {
    uint64_t word[NOTES];
} Table;

static Area counts, epoch_tables, number_tables;
static Lent count_lent, epochs_lent, numbers_lent;
static uint64_t *noted, noted_before;
static Table *note_epochs, *note_numbers, note_epochs_before, note_numbers_before;
/* Whether calls alone have made the notes, from nothing noted. */
static int notes_made;

/* ---- resends */

/* A saved record lies in a new datagram, at this place or, where that one ends, at the start of the next; the place behind it. */
static size_t check_again(const uint64_t *w, uint64_t i, uint64_t *datagram, size_t at)
{
    size_t mtu = (size_t)s->word[W_MTU], n = (size_t)w[E_LENGTH], head = w[E_EPOCH] == 0 ? 13 : 5, whole = n + (head == 13 ? 13 : 22);
    if (at > 0 && at == datagram_length(s, *datagram)) {
        ++*datagram;
        at = 0;
    }
    require(*datagram < s->word[W_COUNT] && at + whole <= datagram_length(s, *datagram), "a saved record that is not sent again");
    const uint8_t *p = queue.bytes + (s->word[W_FIRST] + *datagram) % s->word[W_LIMIT] * mtu + at;
    require(memcmp(p + head, kept.bytes + i * mtu, n) == 0, "another content than the saved one");
    require(p[head == 13 ? 0 : head + n] == w[E_TYPE], "another type than the saved one");
    return at + whole;
}

/* A new number; that of a handshake record of epoch 2 or above is remembered. */
static void renew(uint64_t *w, uint64_t *remembered, uint64_t *next)
{
    if (w[E_TYPE] == HUSK_HANDSHAKE && w[E_EPOCH] >= 2) {
        require(w[E_REMEMBERED] < REMEMBERED, "more numbers than can be remembered");
        remembered[w[E_REMEMBERED]++] = w[E_NUMBER];
    }
    w[E_NUMBER] = next[w[E_EPOCH] == 0 ? 0 : w[E_EPOCH] == 2 ? 1 : 2]++;
}

static void check_resent(void)
{
    Records e = flight_plain(&flight_before), g = flight_plain(f);
    Numbers n = numbers_before;
    const uint64_t *w = before.word, old = w[W_COUNT];
    uint64_t next[3] = {w[W_PLAINTEXT_NEXT], w[W_HANDSHAKE_NEXT], w[W_APPLICATION_NEXT]}, datagram = old;
    size_t at = 0;
    require(e.word[SAVED] <= ENTRIES && ENTRIES * w[W_MTU] <= kept.n, "a flight out of range");
    check_grown();
    require(old == 0 || datagram_length(&before, old - 1) == datagram_length(s, old - 1), "a resend in a datagram that was there");
    for (uint64_t i = 0; i < e.word[SAVED]; i++) {
        if (e.word[E_WORDS * i + E_MARKED])
            continue;
        at = check_again(&e.word[E_WORDS * i], i, &datagram, at);
        renew(&e.word[E_WORDS * i], &n.word[REMEMBERED * i], next);
    }
    require(s->word[W_COUNT] == datagram + (at > 0) && (at == 0 || at == datagram_length(s, datagram)), "more than the saved records");
    require(memcmp(&e, &g, sizeof e) == 0, "another flight than its resend leaves");
    require(memcmp(&n, numbers, sizeof n) == 0, "other remembered numbers than a resend leaves");
    require(s->word[W_PLAINTEXT_NEXT] == next[0] && s->word[W_HANDSHAKE_NEXT] == next[1] && s->word[W_APPLICATION_NEXT] == next[2],
        "other next numbers than a resend leaves");
}

/* The contents are lent through the view that cannot be written. */
static void call_resend(void)
{
    flight_keep();
    keep_queue();
    calling(FLIGHT_RESEND);
    HuskTold t = husk_flight_resend_words(sending_whole(), f->word, numbers->word, kept.fixed, kept.n, queue.bytes, queue.n);
    flight_done(FLIGHT_RESEND, t.told != 0, t.refusal);
    require(t.told == (t.refusal == 0 ? unmarked(&flight_before) : 0), "another count of records sent again");
    if (t.refusal == 0)
        check_resent();
    else
        check_queue(0, 0);
}

/* ---- acting on an ACK */

void put(uint8_t *p, uint64_t x, int n)
{
    for (; n > 0; n--, x >>= 8)
        p[n - 1] = (uint8_t)x;
}

static uint64_t get(const uint8_t *p, int n)
{
    uint64_t x = 0;
    for (int i = 0; i < n; i++)
        x = x << 8 | p[i];
    return x;
}

void put_pair(uint8_t *p, const uint64_t *w, const uint64_t *remembered)
{
    uint64_t k = w[E_REMEMBERED] < REMEMBERED ? w[E_REMEMBERED] + 1 : REMEMBERED;
    put(p, one_in(16) ? below(5) : w[E_EPOCH] % 65536, 8);
    put(p + 8, one_in(8) ? below(40) : one_in(2) ? w[E_NUMBER] : remembered[below(k) % REMEMBERED], 8);
}

/* An ACK, then perhaps cut or changed; or random bytes. */
static void lend_ack(void)
{
    static uint8_t built[2 + PAIR * MOST_PAIRS];
    uint64_t each = one_in(2), saved = f->word[SAVED] <= ENTRIES ? f->word[SAVED] : ENTRIES;
    uint64_t pairs = one_in(256) ? below(MOST_PAIRS + 1) : each ? saved : below(8);
    size_t n = 2 + PAIR * (size_t)pairs;
    if (one_in(12)) {
        lend_content(content_length());
        return;
    }
    put(built, n - 2, 2);
    for (uint64_t k = 0; k < pairs; k++) {
        uint64_t i = each ? k % ENTRIES : below(saved > 0 && !one_in(8) ? saved : ENTRIES);
        put_pair(built + 2 + PAIR * k, &f->word[E_WORDS * i], &numbers->word[REMEMBERED * i]);
    }
    if (one_in(6))
        n = below(n + 1);
    if (one_in(6))
        mutate(built, n);
    lend_content(n);
    memcpy(content.bytes, built, n);
}

static int is_named(const uint8_t *p, uint64_t pairs, uint64_t epoch, uint64_t number)
{
    for (; pairs > 0; pairs--, p += PAIR)
        if (get(p, 8) == epoch && get(p + 8, 8) == number)
            return 1;
    return 0;
}

static uint64_t is_acked(const uint64_t *w, const uint64_t *remembered, const uint8_t *p, uint64_t pairs)
{
    uint64_t acked = w[E_MARKED] || is_named(p, pairs, w[E_EPOCH], w[E_NUMBER]);
    for (uint64_t k = 0; !acked && k < w[E_REMEMBERED] && k < REMEMBERED; k++)
        acked = (uint64_t)is_named(p, pairs, w[E_EPOCH], remembered[k]);
    return acked;
}

/* Marks what the pairs name; whether there are records of epoch 2 and all of these are marked. */
static int act(Records *e, const Numbers *remembered, const uint8_t *p, uint64_t pairs)
{
    uint64_t any_of_2 = 0, waits = 0;
    for (uint64_t i = 0; i < e->word[SAVED]; i++) {
        uint64_t *w = &e->word[E_WORDS * i];
        w[E_MARKED] = is_acked(w, &remembered->word[REMEMBERED * i], p, pairs);
        any_of_2 |= w[E_EPOCH] == 2;
        waits |= w[E_EPOCH] == 2 && !w[E_MARKED];
    }
    return any_of_2 && !waits;
}

void check_marks(const Records *before, const Numbers *remembered, const Records *now, const uint8_t *c, size_t n, const HuskAcked *told)
{
    Records e = flight_plain(before), g = flight_plain(now);
    unsigned before_it = unmarked(&e), ends = 0;
    require(e.word[SAVED] <= ENTRIES, "a flight out of range");
    if (n >= 2 && get(c, 2) == n - 2 && (n - 2) % PAIR == 0)
        ends = (unsigned)act(&e, remembered, c + 2, (n - 2) / PAIR);
    require(told->marked == before_it - unmarked(&e), "another count of records marked");
    if (ends)
        e.word[SAVED] = 0;
    require(told->saved == e.word[SAVED] && told->unacknowledged == unmarked(&e), "another count of records left");
    require(memcmp(&e, &g, sizeof e) == 0, "another flight than the ACK leaves");
}

static void call_ack(void)
{
    lend_ack();
    flight_keep();
    calling(FLIGHT_ACK);
    HuskAcked t = husk_flight_ack_words(f->word, numbers->word, content_bytes(), content.n);
    flight_done(FLIGHT_ACK, t.marked != 0, t.refusal);
    require(t.refusal != 12 || !flight_made, "12 for a flight that calls made");
    require(memcmp(&numbers_before, numbers, sizeof numbers_before) == 0, "an ACK has changed the remembered numbers");
    if (t.refusal == 0)
        check_marks(&flight_before, &numbers_before, f, content.bytes, content.n, &t);
    else
        require(t.marked == 0 && t.unacknowledged == 0 && t.saved == 0, "a field not used is not zero");
}

/* ---- noting and sending the ACK */

static void keep_notes(void)
{
    noted_before = *noted;
    note_epochs_before = *note_epochs;
    note_numbers_before = *note_numbers;
}

static void check_notes(void)
{
    require(*noted == noted_before, "another count of notes");
    require(memcmp(&note_epochs_before, note_epochs, sizeof(Table)) == 0, "other epochs noted");
    require(memcmp(&note_numbers_before, note_numbers, sizeof(Table)) == 0, "other numbers noted");
}

static void notes_done(int call, HuskTold t, int kept_as_it_was)
{
    sending_done(call, t.told, t.refusal, kept_as_it_was, !notes_made);
    check_beside(&count_lent);
    check_beside(&epochs_lent);
    check_beside(&numbers_lent);
}

static void call_add(void)
{
    uint64_t epoch = one_in(8) ? any() : below(8), number = one_in(8) ? edge_word(LAST_NUMBER) : below(100);
    keep_notes();
    calling(NOTES_ADD);
    HuskTold t = husk_notes_add_words(noted, note_epochs->word, note_numbers->word, epoch, number);
    notes_done(NOTES_ADD, t, 1);
    require((t.refusal == 12) == (noted_before > NOTES), "notes in range are refused, or others are taken");
    require(t.told == (noted_before < NOTES), "a note told that is not taken, or the other way");
    if (noted_before < NOTES) {
        note_epochs_before.word[noted_before] = epoch;
        note_numbers_before.word[noted_before] = number;
        noted_before++;
    }
    check_notes();
}

/* The ACK of what is noted, as the content that must then lie in the queue. */
static void expect_ack(void)
{
    lend_content(2 + PAIR * (size_t)(*noted <= NOTES ? *noted : 0));
    put(content.bytes, content.n - 2, 2);
    for (uint64_t i = 0; i < (content.n - 2) / PAIR; i++) {
        put(content.bytes + 2 + PAIR * i, note_epochs->word[i], 8);
        put(content.bytes + 10 + PAIR * i, note_numbers->word[i], 8);
    }
}

static void call_send_notes(void)
{
    uint16_t application = (uint16_t)s->word[W_APPLICATION];
    expect_ack();
    keep_notes();
    keep_queue();
    calling(NOTES_SEND);
    HuskTold t = husk_notes_send_words(sending_whole(), noted, note_epochs->word, note_numbers->word, queue.bytes, queue.n);
    notes_done(NOTES_SEND, t, !t.told);
    require(t.told == (t.refusal == 0 && noted_before > 0), "an ACK told that is not sent, or the other way");
    if (!t.told) {
        check_queue(0, 0);
        check_notes();
        return;
    }
    const uint8_t *p = queue.bytes + check_laid(application == 0 ? 2 : application) + 5;
    require(*noted == 0, "notes of an ACK that is sent");
    require(memcmp(p, content.bytes, content.n) == 0 && p[content.n] == HUSK_ACK, "another ACK than was noted");
}

void acks_step(void)
{
    switch (below(9)) {
    case 0: case 1: case 2: call_resend(); break;
    case 3: case 4: call_ack(); break;
    case 5: case 6: call_send_notes(); break;
    default:
        for (uint64_t k = one_in(8) ? 34 : 1 + below(4); k > 0; k--)
            call_add();
    }
}

/* ---- notes */

void acks_fresh(void)
{
    count_lent = lend(&counts, sizeof(uint64_t), one_in(2));
    epochs_lent = lend(&epoch_tables, sizeof(Table), one_in(2));
    numbers_lent = lend(&number_tables, sizeof(Table), one_in(2));
    noted = (uint64_t *)(void *)count_lent.bytes;
    note_epochs = (Table *)(void *)epochs_lent.bytes;
    note_numbers = (Table *)(void *)numbers_lent.bytes;
    scatter(count_lent.bytes, count_lent.n);
    scatter(epochs_lent.bytes, epochs_lent.n);
    scatter(numbers_lent.bytes, numbers_lent.n);
    calling(NOTES_INIT);
    husk_notes_init_words(noted, note_epochs->word, note_numbers->word);
    answered(NOTES_INIT, 0, 0);
    check_beside(&count_lent);
    check_beside(&epochs_lent);
    check_beside(&numbers_lent);
    require(*noted == 0, "notes that do not start empty");
    notes_made = 1;
}

void notes_change(void)
{
    uint64_t *w = one_in(2) ? noted : one_in(2) ? &note_epochs->word[below(NOTES)] : &note_numbers->word[below(NOTES)];
    *w = edge_word(*w);
    notes_made = 0;
}

/* Tables of anything; a count mostly in range. */
void notes_forge(void)
{
    scatter(epochs_lent.bytes, epochs_lent.n);
    scatter(numbers_lent.bytes, numbers_lent.n);
    *noted = one_in(8) ? any() : below(34);
    notes_made = 0;
}

void acks_start(void)
{
    counts = area(sizeof(uint64_t));
    epoch_tables = area(sizeof(Table));
    number_tables = area(sizeof(Table));
}
