/* The calls that save records in the flight, within the histories of the sending side. */
#include <string.h>

#include "flight.h"

enum { KEPT = ENTRIES * LONGEST_MTU + 100, BODY = 17000 };

Lent kept;
Records *f, flight_before;
Numbers *numbers, numbers_before;
int flight_made;

static Area flights, tables, kept_area;
static Lent flight, table;
static uint8_t kept_before[KEPT];

/* ---- checks */

Records flight_plain(const Records *x)
{
    Records p = *x;
    for (int i = 0; i < ENTRIES; i++) {
        p.word[E_WORDS * i + E_TYPE] %= 256;
        p.word[E_WORDS * i + E_EPOCH] %= 65536;
    }
    return p;
}

void flight_keep(void)
{
    flight_before = *f;
    numbers_before = *numbers;
    memcpy(kept_before, kept.bytes, kept.n);
}

static void check_flight_kept(void)
{
    Records a, b;
    if (memcmp(&flight_before, f, sizeof flight_before) == 0)
        return;
    require(!flight_made, "a refused call has changed the flight");
    for (int i = 0; i < ENTRIES; i++)
        require(flight_before.word[E_WORDS * i + E_MARKED] <= 1, "a refused call has changed what is no flight");
    a = flight_plain(&flight_before);
    b = flight_plain(f);
    require(memcmp(&a, &b, sizeof a) == 0, "a refused call has changed what the flight means");
    words_rewritten++;
}

static void check_numbers_kept(void)
{
    require(memcmp(&numbers_before, numbers, sizeof numbers_before) == 0, "the remembered numbers have changed");
}

void flight_done(int call, unsigned kind, uint8_t answer)
{
    sending_done(call, kind, answer, answer != 0, !flight_made);
    check_beside(&flight);
    check_beside(&table);
    check_beside(&kept);
    if (answer != 0) {
        check_flight_kept();
        check_numbers_kept();
    }
}

static void done(int call, unsigned kind, uint8_t answer)
{
    flight_done(call, kind, answer);
    check_numbers_kept();
}

unsigned unmarked(const Records *x)
{
    unsigned n = 0;
    for (uint64_t i = 0; i < x->word[SAVED] && i < ENTRIES; i++)
        n += x->word[E_WORDS * i + E_MARKED] == 0;
    return n;
}

/* The contents of the records saved are written, each at its place; all else is as it was. */
static void check_saved(void)
{
    uint64_t from = flight_before.word[SAVED], to = f->word[SAVED], mtu = s->word[W_MTU];
    require(from <= to && to <= ENTRIES && ENTRIES * mtu <= kept.n, "a flight out of range");
    for (uint64_t i = from; i < to; i++) {
        uint64_t length = f->word[E_WORDS * i + E_LENGTH];
        require(length <= mtu, "a saved record over the MTU");
        memcpy(kept_before + i * mtu, kept.bytes + i * mtu, (size_t)length);
    }
    require(memcmp(kept_before, kept.bytes, kept.n) == 0, "bytes of the flight beside its records have changed");
}

uint64_t datagram_length(const Sending *x, uint64_t datagram)
{
    return x->word[W_LENGTHS + (x->word[W_FIRST] + datagram) % x->word[W_LIMIT]] % 65536;
}

void check_grown(void)
{
    uint64_t mtu = s->word[W_MTU], count = before.word[W_COUNT];
    require(s->word[W_FIRST] == before.word[W_FIRST], "a send has taken a datagram");
    require(count <= s->word[W_COUNT] && s->word[W_COUNT] <= s->word[W_LIMIT], "a queue out of range");
    for (uint64_t j = count == 0 ? 0 : count - 1; j < s->word[W_COUNT]; j++) {
        uint64_t slot = (s->word[W_FIRST] + j) % s->word[W_LIMIT];
        uint64_t from = j < count ? datagram_length(&before, j) : 0, to = datagram_length(s, j);
        if (from == to)
            continue;
        require(from < to && to <= mtu, "a datagram over the MTU");
        forgive_queue((size_t)(slot * mtu + from), (size_t)(to - from));
    }
    check_queue(0, 0);
}

/* ---- calls */

static void call_begin(void)
{
    flight_keep();
    calling(FLIGHT_BEGIN);
    uint8_t answer = husk_flight_begin_words(f->word);
    done(FLIGHT_BEGIN, 0, answer);
    require(answer != 0 || f->word[SAVED] == 0, "a flight begun is not empty");
    require(answer != 12 || !flight_made, "12 for a flight that calls made");
}

static void call_send(void)
{
    uint16_t epoch = some_epoch();
    uint8_t type = some_type();
    lend_content(content_length());
    flight_keep();
    keep_queue();
    calling(FLIGHT_SEND);
    uint8_t answer = husk_flight_send_words(sending_whole(), f->word, numbers->word, epoch, type, content_bytes(), content.n,
        queue.bytes, queue.n, kept.bytes, kept.n);
    done(FLIGHT_SEND, 0, answer);
    if (answer == 0) {
        check_laid(epoch);
        check_saved();
    } else {
        check_queue(0, 0);
        require(memcmp(kept_before, kept.bytes, kept.n) == 0, "a refused call has written to the flight");
    }
}

static void call_message(void)
{
    uint8_t type = one_in(3) ? (uint8_t)(1 + below(2)) : (uint8_t)any();
    lend_content(one_in(16) ? 16380 + below(8) : one_in(8) ? below(BODY) : content_length());
    flight_keep();
    keep_queue();
    calling(FLIGHT_MESSAGE);
    uint8_t answer = husk_flight_message_words(sending_whole(), f->word, numbers->word, type, content_bytes(), content.n, queue.bytes,
        queue.n, kept.bytes, kept.n);
    done(FLIGHT_MESSAGE, 0, answer);
    if (answer == 0) {
        check_grown();
        check_saved();
    } else {
        check_queue(0, 0);
        require(memcmp(kept_before, kept.bytes, kept.n) == 0, "a refused call has written to the flight");
    }
}

/* The flight is lent through the view that cannot be written. */
static void call_status(void)
{
    flight_keep();
    calling(FLIGHT_STATUS);
    HuskSaved t = husk_flight_status_words(((const Records *)(const void *)flight.fixed)->word);
    done(FLIGHT_STATUS, t.refusal == 0 && t.saved > 0, t.refusal);
    require(t.refusal != 12 || !flight_made, "12 for a flight that calls made");
    require(t.refusal == 0 || (t.saved == 0 && t.unacknowledged == 0), "a field not used is not zero");
    require(t.refusal != 0 || (t.saved == f->word[SAVED] && t.unacknowledged == unmarked(f)), "another count of saved records");
}

void flight_step(void)
{
    uint64_t call = below(9);
    if (call == 0)
        call_begin();
    else if (call == 8)
        call_status();
    else if (call < 4)
        call_message();
    else
        call_send();
}

/* ---- states */

/* A fresh flight for the state's MTU, with a buffer mostly of the length it needs. */
void flight_fresh(void)
{
    size_t mtu = s->word[W_MTU] <= LONGEST_MTU ? (size_t)s->word[W_MTU] : LONGEST_MTU, n = ENTRIES * mtu;
    if (one_in(16))
        n = one_in(2) ? below(n + 1) : n + below(100);
    flight = lend(&flights, sizeof(Records), one_in(2));
    table = lend(&tables, sizeof(Numbers), one_in(2));
    kept = lend(&kept_area, n, one_in(2));
    f = (Records *)(void *)flight.bytes;
    numbers = (Numbers *)(void *)table.bytes;
    scatter(flight.bytes, flight.n);
    scatter(table.bytes, table.n);
    memset(kept.bytes, (int)below(256), n);
    calling(FLIGHT_INIT);
    husk_flight_init_words(f->word, numbers->word);
    answered(FLIGHT_INIT, 0, 0);
    for (int i = 0; i < NUMBERS; i++)
        require(numbers->word[i] == 0, "a table that does not start as zeros");
    flight_made = n >= ENTRIES * mtu;
}

void flight_change(void)
{
    uint64_t i = one_in(3) ? SAVED : below(RECORD_WORDS);
    if (one_in(3))
        f->word[E_WORDS * below(3) + E_REMEMBERED] = REMEMBERED - 1 + below(3);
    else
        f->word[i] = edge_word(f->word[i]);
    flight_made = 0;
}

/* Words of which most are in range; of some flights every record can be sent again. */
void flight_forge(void)
{
    int sendable = one_in(2);
    scatter(flight.bytes, flight.n);
    for (int i = 0; i < ENTRIES && !one_in(16); i++) {
        uint64_t *w = &f->word[E_WORDS * i];
        w[E_LENGTH] = sendable ? below(100) : one_in(8) ? edge_word(s->word[W_MTU]) : below(LONGEST_MTU);
        w[E_MARKED] = below(2);
        w[E_REMEMBERED] = one_in(8) ? 32 + below(2) : below(32);
        if (!sendable && one_in(4))
            continue;
        w[E_TYPE] = one_in(16) ? some_type() : 22;
        w[E_EPOCH] = one_in(32) ? some_epoch() : one_in(2) ? 0 : s->word[W_APPLICATION] > 2 && one_in(2) ? s->word[W_APPLICATION] : 2;
        w[E_NUMBER] = below(100);
    }
    f->word[SAVED] = one_in(2) ? below(4) : below(one_in(8) ? 20 : 13);
    for (int i = 0; i < NUMBERS; i++)
        numbers->word[i] = one_in(16) ? any() : below(100);
    flight_made = 0;
}

void flight_start(void)
{
    flights = area(sizeof(Records));
    tables = area(sizeof(Numbers));
    kept_area = area(KEPT);
}
