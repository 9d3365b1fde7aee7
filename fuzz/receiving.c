/* Histories of the receive side. */
#include <string.h>

#include "classes.h"
#include "masks.h"

enum { LONGEST = 17000, WORDS = 39, EPOCHS = RECEIVE_KEYS / SLOT, NO_ENTRY = EPOCHS, LONGEST_KEY = 64 };
#define LAST_NUMBER 0xFFFFFFFFFFFFu

static Area states, pendings, slot_area, datagram_area, ivs, mask_keys;
static Lent state, waiting, slots, datagram, iv, mask_key;
/* The state, what waits to be dealt with, the mask keys, and all as they were before the call. */
static Words *s, before;
static Pending *pending, pending_before;
static uint8_t *keys, keys_before[RECEIVE_KEYS];
/* The datagram before a call, and as a call on copies leaves it. */
static uint8_t copy[LONGEST], copied[LONGEST];
static HuskReading last;
/* Whether a datagram is begun and its end not yet told. */
static int reading;
/* Whether calls alone have made the state, from fresh. */
static int made;
/* The epochs that these calls keyed and did not remove, in their order, and the mask key of each that has one. */
static struct {
    uint16_t epoch;
    int masked;
    uint8_t key[HUSK_MASK_KEY];
} keyed[EPOCHS];
static size_t keyed_count;
/* Whether the last call was to deal with a reading and was refused. */
static int undealt;

/* ---- checks */

static int is_flat(const uint64_t *w)
{
    return w[W_ENCRYPTION] <= 1 && w[W_RELEASED] <= 1 && w[W_ASKED] <= 2 && w[W_TWO] <= 1;
}

/* The words of the same meaning in which no bit is without one. */
static Words plain(const Words *x)
{
    Words p = *x;
    for (int i = 0; i < 5; i++)
        p.word[i] %= 65536;
    p.word[W_HIGHEST] %= 65536;
    p.word[W_EPOCH] %= 65536;
    for (int i = W_IVS; i < W_IVS + 5; i++) /* an IV's first four bytes; the row behind has the other eight of each */
        p.word[i] %= 4294967296u;
    if (p.word[W_ASKED] == 0)
        memset(&p.word[W_EPOCH], 0, (W_NUMBER - W_EPOCH) * sizeof(uint64_t));
    if (p.word[W_ASKED] != 2)
        p.word[W_NUMBER] = 0;
    return p;
}

/* Words that calls made stay as they are; forged ones may be written anew with the same meaning. */
void check_words(const Words *was, const Words *now, int by_calls)
{
    Words a, b;
    if (memcmp(was, now, sizeof *was) == 0)
        return;
    require(!by_calls && is_flat(was->word), "a call that may not has changed the state");
    a = plain(was);
    b = plain(now);
    require(memcmp(&a, &b, sizeof a) == 0, "a call that may not has changed what the state means");
    words_rewritten++;
}

static void check_pending(const Pending *expected)
{
    require(memcmp(expected, pending, sizeof *expected) == 0, "another reading waits than was told, or another close");
}

static void done(int call, unsigned kind, unsigned refusal, int refused, int may_be_12)
{
    answered(call, kind, refusal);
    check_beside(&state);
    check_beside(&waiting);
    check_beside(&slots);
    check_beside(&datagram);
    check_beside(&iv);
    check_beside(&mask_key);
    if (refused)
        check_words(&before, s, made);
    require(refusal != 12 || !made || may_be_12, "12 for a state that calls made");
}

static void number_answer(int call, uint8_t answer)
{
    done(call, 0, answer, answer != 0, 0);
}

/* The words, for functions that are given the whole and use no more of it. */
static HuskReceiving *whole(void)
{
    return (HuskReceiving *)(void *)s;
}

/* Fields that the kind does not use are zeros; places lie in the datagram. */
static void check_reading(const HuskReading *r, size_t n)
{
    static const uint8_t zeros[12];
    int named = r->kind == HUSK_READING_PLAINTEXT || r->kind >= HUSK_READING_OPENED, sealed = r->kind >= HUSK_READING_UNOPENED;
    size_t head = r->kind == HUSK_READING_OPENING ? r->header_len : 0;
    require(r->start <= n && head <= n - r->start && r->length <= n - r->start - head, "a place outside the datagram");
    require(r->kind == HUSK_READING_OPENING || (r->header_len == 0 && memcmp(r->nonce, zeros, 12) == 0), "a field not used is not zero");
    require(sealed || r->epoch == 0, "an epoch that is not used is not zero");
    require((named && r->kind <= HUSK_READING_OPENED) || r->content_type == 0, "a type that is not used is not zero");
    if (r->kind < HUSK_READING_PLAINTEXT)
        require(r->number == 0 && r->start == 0 && r->length == 0, "fields beside a refusal");
    else
        require(r->refusal == 0, "a refusal beside a record");
    require(r->number <= LAST_NUMBER, "a number of more than 48 bits");
    if (r->kind == HUSK_READING_PLAINTEXT)
        require(r->start >= 13 && (r->content_type == 21 || r->content_type == 22 || r->content_type == 26), "a plaintext type");
    if (r->kind == HUSK_READING_UNOPENED)
        require((r->epoch == 2 || r->epoch == 3) && r->number < 65536 && r->start >= 2, "an unopened record");
    if (r->kind == HUSK_READING_OPENED)
        require(r->content_type != 0 && r->start >= 2 && (!made || r->epoch >= 2), "an opened record");
    if (r->kind == HUSK_READING_MASK)
        require(r->length == 16 && r->number == 0 && r->start >= 2 && (!made || r->epoch >= 2), "a mask question");
    if (r->kind == HUSK_READING_OPENING)
        require(r->header_len >= 2 && r->length >= 16 && (!made || (r->header_len <= 5 && r->epoch >= 2)), "an opening question");
}

static void reading_answer(int call, HuskReading r, size_t n, int may_be_12)
{
    Pending expected = call == RECEIVING_MASK ? pending_before : noted(&pending_before, &r);
    done(call, r.kind, r.refusal, r.kind == HUSK_READING_REFUSED, may_be_12);
    check_reading(&r, n);
    check_pending(&expected);
    reading = reading && r.kind != HUSK_READING_END && (r.kind != HUSK_READING_REFUSED || !one_in(4));
    last = r;
}

/* ---- entries */

/* Which entry has an epoch. Forged words may have one twice: the last counts. */
static uint64_t entry_of(const uint64_t *w, uint64_t epoch)
{
    for (uint64_t i = w[W_COUNT] <= EPOCHS ? w[W_COUNT] : 0; i > 0; i--)
        if ((w[i - 1] ^ epoch) % 65536 == 0)
            return i - 1;
    return NO_ENTRY;
}

static uint64_t entry_asked(const uint64_t *w)
{
    return entry_of(w, w[W_EPOCH]);
}

/* The mask key of an epoch, NULL where it has none. */
static const uint8_t *mask_key_of(const uint64_t *w, uint64_t epoch)
{
    uint64_t i = entry_of(w, epoch);
    return i == NO_ENTRY ? NULL : key_in(keys, i);
}

/* A number at an edge of an entry's window: the highest or next to it, or the lowest of the window or one near that. */
static uint64_t edge_number(uint64_t i)
{
    static const uint64_t below_highest[] = {0, 1, 62, 63, 64, 65};
    return s->word[W_WINDOWS + i] - below_highest[below(6)];
}

/* ---- datagrams */

static size_t plaintext(uint8_t *p)
{
    static const uint8_t types[] = {21, 22, 26};
    size_t n = below(40);
    scatter(p, 13 + 40);
    p[0] = one_in(16) ? p[0] : types[below(3)];
    if (!one_in(4))
        n = classes_content(p[0], p + 13, 40);
    p[1] = 0xFE;
    p[2] = one_in(4) ? 0xFF : 0xFD;
    memset(p + 3, 0, one_in(16) ? 1 : 2);
    memset(p + 5, 0, below(7));
    p[11] = 0;
    p[12] = (uint8_t)n;
    return 13 + n;
}

/* The number of a record whose sample is at p + head, where its epoch has a mask key: mostly masked by it, and sometimes at an edge. */
static void mask_number(uint8_t *p, size_t head)
{
    const uint64_t *w = s->word;
    uint64_t i = w[W_COUNT] <= EPOCHS ? w[W_COUNT] : 0, two = p[0] & 8;
    uint8_t mask[2];
    while (i > 0 && w[i - 1] % 4 != p[0] % 4)
        i--;
    const uint8_t *key = i == 0 ? NULL : key_in(keys, i - 1);
    if (key == NULL || one_in(8))
        return;
    if (one_in(4)) {
        uint64_t number = edge_number(i - 1);
        p[1] = (uint8_t)(two ? number >> 8 : number);
        if (two)
            p[2] = (uint8_t)number;
    }
    chacha_mask(key, p + head, mask);
    p[1] ^= mask[0];
    if (two)
        p[2] ^= mask[1];
}

/* A sealed record; the last of its datagram if it has no length. */
static size_t sealed(uint8_t *p, int *ends)
{
    size_t n = one_in(8) ? below(20) : 16 + below(40), head = 1;
    int two = !one_in(4), length = !one_in(8);
    p[0] = (uint8_t)(0x20 | (two ? 8 : 0) | (length ? 4 : 0) | (one_in(8) ? below(4) : 2 + below(2)) | (one_in(64) ? 0x10 : 0));
    if (two)
        p[head++] = one_in(8) ? (uint8_t)any() : 0;
    p[head++] = one_in(2) ? (uint8_t)any() : (uint8_t)below(20);
    if (length) {
        p[head++] = 0;
        p[head++] = (uint8_t)n;
    }
    scatter(p + head, n);
    if (n >= SAMPLE)
        mask_number(p, head);
    *ends = !length;
    return head + n;
}

static size_t records(uint8_t *p, size_t room)
{
    size_t n = 0;
    int ends = 0;
    uint64_t most = one_in(4) ? 24 : 1 + below(4);
    for (uint64_t k = 0; k < most && !ends && n + 80 < room; k++)
        n += one_in(3) ? plaintext(p + n) : sealed(p + n, &ends);
    return n;
}

/* A datagram built of records, then perhaps cut or changed; or random bytes; rarely at the longest length. */
static size_t build(uint8_t *p)
{
    size_t n;
    if (one_in(12)) {
        n = below(120);
        scatter(p, n);
        if (n > 0 && one_in(2))
            p[0] = (uint8_t)(0x20 + below(32));
        return n;
    }
    if (one_in(256)) {
        n = records(p, 200);
        scatter(p + n, LONGEST - n);
        return one_in(2) ? 16380 + below(8) : below(LONGEST);
    }
    n = records(p, 2000);
    if (one_in(4))
        n = below(n + 1);
    if (one_in(3))
        mutate(p, n);
    return n;
}

/* ---- calls */

/* Mostly a new datagram, else the last one again. */
static void bring_datagram(void)
{
    static uint8_t built[LONGEST];
    if (one_in(6))
        return;
    size_t n = build(built);
    datagram = lend(&datagram_area, n, one_in(2));
    memcpy(datagram.bytes, built, n);
}

static void call_begin(void)
{
    bring_datagram();
    size_t n = datagram.n;
    if (one_in(32))
        n = one_in(2) ? n + 1 : (size_t)edge_word(n);
    calling(RECEIVING_BEGIN);
    datagrams++;
    uint8_t answer = husk_receiving_begin_words(s->word, pending->word, n);
    number_answer(RECEIVING_BEGIN, answer);
    Pending expected = answer == 0 ? cleared(&pending_before) : pending_before;
    check_pending(&expected);
    require((answer == 1) <= (n > 16384), "1 for a datagram that is not too long");
    if (answer == 0)
        reading = 1;
}

static size_t length_lent(void)
{
    return one_in(24) && datagram.n > 0 ? below(datagram.n) : datagram.n;
}

/* An empty part may be lent without a place. */
static uint8_t *bytes_lent(size_t n)
{
    return n == 0 && one_in(2) ? NULL : datagram.bytes + (datagram.beside < datagram.bytes ? datagram.n - n : 0);
}

static const uint8_t *fixed_lent(size_t n)
{
    return n == 0 && one_in(2) ? NULL : datagram.fixed + (datagram.beside < datagram.bytes ? datagram.n - n : 0);
}

/* Only the number bytes are written, by the mask, of the record that was asked about in the words w. */
static void check_masked(const HuskReading *r, const uint64_t *w, const uint8_t *d, size_t n, const uint8_t mask[2])
{
    if (r->kind != HUSK_READING_REFUSED) {
        size_t at = (size_t)w[W_CURSOR];
        require(at < n && n - at > 2, "a mask beyond the datagram");
        copy[at + 1] ^= mask[0];
        if (w[W_TWO])
            copy[at + 2] ^= mask[1];
    }
    require(n == 0 || memcmp(copy, d, n) == 0, "the datagram has other bytes than its mask gives");
}

/* The number that the opening is asked under ends in the record's bits, now unmasked, whatever number was expected. */
static void check_rebuilt(const HuskReading *r, const uint64_t *w, const uint8_t *d)
{
    if (r->kind != HUSK_READING_OPENING)
        return;
    const uint8_t *p = d + w[W_CURSOR];
    if (w[W_TWO])
        require(r->number % 65536 == p[1] * 256u + p[2], "a number that does not end in the record's 16 bits");
    else
        require(r->number % 256 == p[1], "a number that does not end in the record's 8 bits");
}

/* The number of 0 or more that ends in these bits and is nearest to the one expected; of two as near the one in its own block. Beyond 64
 * bits there is none. */
static uint64_t nearest(uint64_t bits, uint64_t block, uint64_t expected)
{
    uint64_t own = expected - expected % block + bits;
    if (own > expected && own - expected > block / 2 && own >= block)
        return own - block;
    if (own < expected && expected - own > block / 2 && own <= UINT64_MAX - block)
        return own + block;
    return own;
}

/* What a record of this number must be told as, by the words of its window: the highest number and the marks, bit k that of k below it. */
static unsigned verdict(uint64_t number, uint64_t highest, uint64_t marks)
{
    if (number > LAST_NUMBER)
        return HUSK_NUMBER_TOO_LARGE;
    if (number > highest)
        return 0;
    if (highest - number >= 64)
        return HUSK_TOO_OLD;
    return marks >> (highest - number) & 1 ? HUSK_SEEN : 0;
}

/* After the mask the record is asked about or dropped by exactly what its window says: 8, then 9 or 26. */
static void check_verdict(const HuskReading *r, const uint64_t *w, const uint8_t *d)
{
    if (r->kind == HUSK_READING_REFUSED)
        return;
    uint64_t i = entry_asked(w);
    require(i != NO_ENTRY, "a number judged in an epoch that is not keyed");
    uint64_t highest = w[W_WINDOWS + i], marks = w[W_MARKS + i], expected = marks & 1 ? highest + 1 : 0;
    const uint8_t *p = d + w[W_CURSOR];
    uint64_t number = w[W_TWO] ? nearest(p[1] * 256u + p[2], 65536, expected) : nearest(p[1], 256, expected);
    unsigned due = verdict(number, highest, marks);
    require(r->refusal == due && (due != 0 || r->number == number), "another verdict on a number than its window's, or another number");
}

/* A mask by which the number comes to an edge of its window. */
static void mask_to_edge(const uint8_t *d, size_t n, uint8_t *m0, uint8_t *m1)
{
    const uint64_t *w = s->word;
    uint64_t i = entry_asked(w), at = w[W_CURSOR];
    if (i == NO_ENTRY || at >= n || n - at < 3)
        return;
    uint64_t number = edge_number(i);
    *m0 = (uint8_t)(d[at + 1] ^ (w[W_TWO] ? number >> 8 : number));
    *m1 = (uint8_t)(d[at + 2] ^ number);
}

/* Behind a mask: what is written, the number, and whether the opening is asked for. */
static void check_number(const HuskReading *r, const uint64_t *w, const uint8_t *d, size_t n, const uint8_t mask[2])
{
    check_masked(r, w, d, n, mask);
    check_rebuilt(r, w, d);
    check_verdict(r, w, d);
}

static void call_mask(void)
{
    size_t n = length_lent();
    uint8_t *d = bytes_lent(n), mask[2] = {one_in(2) ? 0 : (uint8_t)any(), one_in(2) ? 0 : (uint8_t)below(8)};
    HuskReading r;
    if (one_in(6))
        mask_to_edge(d, n, &mask[0], &mask[1]);
    if (n > 0)
        memcpy(copy, d, n);
    calling(RECEIVING_MASK);
    replies++;
    r = husk_receiving_mask(whole(), mask[0], mask[1], d, n);
    reading_answer(RECEIVING_MASK, r, n, 0);
    check_number(&r, before.word, d, n, mask);
}

/* ---- reading, with the masks of mask keys */

/* A reading on copies, with no mask key: where it asks for a mask and the epoch has a key, the words in which it asked, and the reply with the
 * mask that the driver makes itself. */
typedef struct {
    HuskReading reading;
    Words words, asked;
    Pending pending;
    int masked;
    uint8_t mask[2];
} Model;

static int same_reading(const HuskReading *a, const HuskReading *b)
{
    return a->kind == b->kind && a->refusal == b->refusal && a->content_type == b->content_type && a->epoch == b->epoch
        && a->number == b->number && a->start == b->start && a->header_len == b->header_len && a->length == b->length
        && memcmp(a->nonce, b->nonce, sizeof a->nonce) == 0;
}

static void read_copies(Model *m, size_t n)
{
    calling(RECEIVING_READ);
    m->reading = husk_receiving_read_words(m->words.word, m->pending.word, no_keys, copied, n);
    const uint8_t *key = m->reading.kind == HUSK_READING_MASK ? mask_key_of(m->words.word, m->reading.epoch) : NULL;
    if (key == NULL)
        return;
    m->asked = m->words;
    m->masked = 1;
    chacha_mask(key, copied + m->reading.start, m->mask);
    calling(RECEIVING_MASK);
    m->reading = husk_receiving_mask((HuskReceiving *)(void *)&m->words, m->mask[0], m->mask[1], copied, n);
}

/* What a read must answer and leave, begun before or not. */
static Model model_of(int begins, const uint8_t *d, size_t n)
{
    Model m = {.words = *s, .pending = *pending};
    if (n > 0) {
        memcpy(copy, d, n);
        memcpy(copied, d, n);
    }
    if (begins) {
        calling(RECEIVING_BEGIN);
        m.reading.refusal = husk_receiving_begin_words(m.words.word, m.pending.word, n);
    }
    if (m.reading.refusal == 0)
        read_copies(&m, n);
    return m;
}

/* The datagram through the view that cannot be written, unless a mask is to be put on a number in it. */
static uint8_t *read_lent(const Model *m, size_t n)
{
    return m->masked ? bytes_lent(n) : (uint8_t *)(uintptr_t)fixed_lent(n);
}

static void check_model(const Model *m, const HuskReading *r, const uint8_t *d, size_t n)
{
    require(same_reading(r, &m->reading), "another answer than the calls one by one give, with the mask of the epoch's key");
    require(memcmp(&m->words, s, sizeof m->words) == 0, "another state than the calls one by one leave");
    require(memcmp(&m->pending, pending, sizeof m->pending) == 0, "another reading waits than behind the calls one by one");
    require(n == 0 || memcmp(copied, d, n) == 0, "another datagram than the calls one by one leave");
    if (m->masked)
        check_number(r, m->asked.word, d, n, m->mask);
}

/* The mask keys are lent through the view that cannot be written. */
static void call_read(void)
{
    size_t n = length_lent();
    Model m = model_of(0, fixed_lent(n), n);
    uint8_t *d = read_lent(&m, n);
    calling(RECEIVING_READ);
    HuskReading r = husk_receiving_read_words(s->word, pending->word, slots.fixed, d, n);
    check_model(&m, &r, d, n);
    reading_answer(RECEIVING_READ, r, n, 0);
}

static void call_begin_read(void)
{
    bring_datagram();
    size_t n = length_lent();
    Model m = model_of(1, fixed_lent(n), n);
    uint8_t *d = read_lent(&m, n);
    calling(RECEIVING_BEGIN_READ);
    datagrams++;
    HuskReading r = husk_receiving_begin_read_words(s->word, pending->word, slots.fixed, d, n);
    check_model(&m, &r, d, n);
    reading = r.kind != HUSK_READING_REFUSED && n == datagram.n;
    reading_answer(RECEIVING_BEGIN_READ, r, n, 0);
}

/* A content of some type that calls can act on. */
static void put_content(uint8_t *p, size_t n)
{
    uint8_t type = classes_type();
    size_t length = n == 0 ? 0 : classes_content(type, p, n - 1);
    memset(p + length, 0, n - length);
    if (n > 0)
        p[length] = type;
}

/* The host's plaintext: content, type, zeros; or nothing but zeros. */
static void put_plaintext(void)
{
    size_t n = last.length - HUSK_TAG, zeros = one_in(2) ? 0 : below(n + 1);
    uint8_t *p = datagram.bytes + last.start + last.header_len;
    if (last.start + last.header_len + last.length > datagram.n)
        return;
    if (!one_in(3)) {
        put_content(p, n);
        return;
    }
    if (zeros < n && p[n - zeros - 1] == 0)
        p[n - zeros - 1] = 23;
    memset(p + n - zeros, 0, zeros);
}

/* An opened record's content ends in front of its type, the last byte that is no zero; dropped by 11 exactly where there is none. */
static void check_opened(const HuskReading *r, size_t length, const uint8_t *d)
{
    int found = r->kind == HUSK_READING_OPENED;
    if (!found && r->refusal != HUSK_NO_CONTENT_TYPE)
        return;
    size_t start = (size_t)(before.word[W_CURSOR] + before.word[W_HEADER]);
    while (length > 0 && d[start + length - 1] == 0)
        length--;
    require(found == (length > 0), "a type is found in zeros, or none in other bytes");
    require(!found || (r->start == start && r->content_type == d[start + length - 1] && r->length == length - 1),
        "a content that does not end at its type");
}

static void call_opened(void)
{
    size_t n = length_lent(), length = (size_t)any();
    uint8_t yes = one_in(32) ? (uint8_t)any() : (uint8_t)!one_in(4);
    const uint8_t *d = fixed_lent(n);
    HuskReading r;
    if (last.kind == HUSK_READING_OPENING) {
        put_plaintext();
        length = one_in(16) ? (size_t)edge_word(last.length) : last.length - HUSK_TAG;
    }
    calling(RECEIVING_OPENED);
    replies++;
    r = husk_receiving_opened_words(s->word, pending->word, yes, length, d, n);
    reading_answer(RECEIVING_OPENED, r, n, yes > 1);
    check_opened(&r, length, d);
}

static uint16_t some_epoch(void)
{
    if (one_in(3) && s->word[W_COUNT] <= 5 && s->word[W_COUNT] > 0)
        return (uint16_t)s->word[below(s->word[W_COUNT])];
    return one_in(8) ? (uint16_t)any() : (uint16_t)below(12);
}

/* The mask keys are these; where calls alone have made the state, each epoch has its own and no byte of another is left. */
static void check_keys(const uint8_t *expected)
{
    uint8_t kept[RECEIVE_KEYS] = {0};
    require(memcmp(expected, keys, RECEIVE_KEYS) == 0, "other mask keys than keying and removing leave");
    if (!made)
        return;
    for (size_t i = 0; i < keyed_count; i++)
        put_key(kept, i, keyed[i].masked ? keyed[i].key : NULL);
    require(memcmp(kept, keys, RECEIVE_KEYS) == 0, "an epoch with the mask key of another, or a key of none");
}

/* A keying was answered so: where it is taken the new entry's slot has the mask key, or none. */
static void keying_answer(int call, uint8_t answer, uint16_t epoch, const uint8_t *key)
{
    number_answer(call, answer);
    if (answer == 0 && before.word[W_COUNT] < EPOCHS)
        put_key(keys_before, before.word[W_COUNT], key);
    if (answer == 0 && made) {
        require(keyed_count < EPOCHS, "more epochs keyed than can be");
        keyed[keyed_count].epoch = epoch;
        keyed[keyed_count].masked = key != NULL;
        if (key != NULL)
            memcpy(keyed[keyed_count].key, key, HUSK_MASK_KEY);
        keyed_count++;
    }
    check_keys(keys_before);
}

static void key_plain(uint16_t epoch)
{
    calling(RECEIVING_KEY);
    keying_answer(RECEIVING_KEY, husk_receiving_key_words(s->word, keys, epoch, iv.fixed), epoch, NULL);
}

/* As keying without a mask key, of copies; but one of another length changes nothing. */
static void key_masked(uint16_t epoch)
{
    uint8_t other[RECEIVE_KEYS];
    size_t n = mask_key_length();
    Words words = *s;
    memcpy(other, keys, sizeof other);
    mask_key = lend(&mask_keys, n, one_in(2));
    scatter(mask_key.bytes, n);
    calling(RECEIVING_KEY);
    uint8_t without = husk_receiving_key_words(words.word, other, epoch, iv.fixed);
    if (n != HUSK_MASK_KEY)
        words = *s;
    calling(RECEIVING_KEY_MASKED);
    uint8_t answer = husk_receiving_key_masked_words(s->word, keys, epoch, iv.fixed, n == 0 && one_in(2) ? NULL : mask_key.fixed, n);
    require(answer == masked_answer(without, n), "27 where it is not due, or not where it is");
    require(memcmp(&words, s, sizeof words) == 0, "another state than keying without a mask key leaves");
    keying_answer(RECEIVING_KEY_MASKED, answer, epoch, mask_key.bytes);
}

static void call_key(void)
{
    uint64_t least = s->word[W_HIGHEST] < 2 ? 2 : s->word[W_HIGHEST] + 1;
    uint16_t epoch = one_in(6) ? some_epoch() : (uint16_t)(least + (one_in(2) ? 0 : below(4)));
    iv = lend(&ivs, 12, one_in(2));
    scatter(iv.bytes, 12);
    if (one_in(2))
        key_masked(epoch);
    else
        key_plain(epoch);
}

/* The epoch is none of those that calls keyed any more. */
static void forget(uint16_t epoch)
{
    size_t i = 0;
    while (i < keyed_count && keyed[i].epoch != epoch)
        i++;
    require(i < keyed_count, "an epoch removed that is not keyed");
    keyed_count--;
    memmove(&keyed[i], &keyed[i + 1], (keyed_count - i) * sizeof keyed[0]);
}

static void call_remove(void)
{
    uint16_t epoch = last.kind >= HUSK_READING_MASK && one_in(2) ? last.epoch : some_epoch();
    uint64_t i = entry_of(s->word, epoch);
    calling(RECEIVING_REMOVE);
    HuskTold t = husk_receiving_remove_words(s->word, keys, epoch);
    done(RECEIVING_REMOVE, t.told, t.refusal, t.refusal != 0, 0);
    if (t.refusal == 0)
        require(t.told == (before.word[W_ASKED] != 0 && before.word[W_EPOCH] % 65536 == epoch), "a question told that did not wait");
    if (t.refusal == 0 && i != NO_ENTRY)
        drop_slot(keys_before, EPOCHS, i);
    if (t.refusal == 0 && made)
        forget(epoch);
    check_keys(keys_before);
}

static void call_fresh(void)
{
    size_t min = one_in(32) ? (size_t)edge_word(17) : below(18);
    calling(RECEIVING_INIT);
    uint8_t answer = husk_receiving_init_words(s->word, pending->word, keys, min);
    done(RECEIVING_INIT, 0, answer, 0, 1);
    const Pending nothing = {{0}};
    check_pending(&nothing);
    require((answer == 12) == (min > 17), "a setting in range is refused, or one beyond is taken");
    made = answer == 0;
    keyed_count = 0;
    check_keys(no_keys);
}

static void call_flag(int call)
{
    calling(call);
    number_answer(call,
        call == RECEIVING_ENABLE ? husk_receiving_enable_encryption(whole()) : husk_receiving_release_application_data(whole()));
}

/* ---- states */

static void keep_state(void)
{
    before = *s;
    pending_before = *pending;
    memcpy(keys_before, keys, RECEIVE_KEYS);
}

static void make_state(void)
{
    call_fresh();
    for (uint64_t k = below(6); k > 0; k--) {
        keep_state();
        call_key();
    }
    keep_state();
    if (!one_in(4))
        call_flag(RECEIVING_ENABLE);
    keep_state();
    if (one_in(3))
        call_flag(RECEIVING_RELEASE);
}

/* A few words changed, those that lead the calls more often than others. */
static void change_state(void)
{
    for (uint64_t k = 1 + below(3); k > 0; k--) {
        uint64_t i = one_in(4) ? below(WORDS) : below(W_IVS), j = below(P_WORDS);
        if (one_in(4))
            pending->word[j] = edge_word(pending->word[j]);
        else if (one_in(4))
            keys[SLOT * below(EPOCHS)] = (uint8_t)edge_word(1);
        else
            s->word[i] = edge_word(s->word[i]);
    }
    made = 0;
}

/* Words of which most are in range, for the datagram lent. */
static void forge_state(void)
{
    uint64_t *w = s->word;
    uint64_t n = datagram.n;
    scatter((uint8_t *)w, sizeof s->word);
    for (int i = 0; i < 5; i++) {
        w[i] = below(8) | (one_in(8) ? any() << 16 : 0);
        w[5 + i] = one_in(2) ? below(70) : LAST_NUMBER - below(4);
    }
    w[W_COUNT] = below(one_in(16) ? 8 : 6);
    w[W_HIGHEST] = below(8);
    w[W_ENCRYPTION] = !one_in(4);
    w[W_RELEASED] = below(2);
    w[W_MIN] = below(19);
    w[W_SIZE] = n;
    w[W_CURSOR] = n == 0 ? 0 : below(n);
    w[W_READINGS] = below(18);
    w[W_ASKED] = below(3);
    w[W_EPOCH] = w[below(5)];
    w[W_TWO] = below(2);
    w[W_HEADER] = one_in(8) ? below(n + 2) : 2 + below(4);
    w[W_LENGTH] = one_in(8) ? edge_word(n) : 16 + below(40);
    w[W_NUMBER] = one_in(2) ? below(100) : edge_word(LAST_NUMBER);
    forge_slots(keys, EPOCHS);
    forge_pending(pending, n);
    uint64_t *x = pending->word;
    if (x[P_START] <= n && x[P_LENGTH] <= n - x[P_START]) /* with a content of its type */
        x[P_LENGTH] = classes_content((uint8_t)x[P_TYPE], datagram.bytes + x[P_START], (size_t)x[P_LENGTH]);
    made = 0;
}

/* ---- histories */

/* Deals with the reading that waits, or with none. */
static void call_class(void)
{
    size_t n = length_lent();
    undealt = call_classify(s, pending, made, fixed_lent(n), n) == HUSK_CLASS_REFUSED;
    check_beside(&state);
    check_beside(&waiting);
    check_beside(&datagram);
}

static void step(void)
{
    keep_state();
    if (pending->word[P_KIND] != 0 && !undealt && !one_in(6)) {
        call_class();
        return;
    }
    undealt = 0;
    if (last.kind == HUSK_READING_MASK && !one_in(5)) {
        call_mask();
        return;
    }
    if (last.kind == HUSK_READING_OPENING && !one_in(5)) {
        call_opened();
        return;
    }
    switch (below(26)) {
    case 0: call_key(); break;
    case 1: call_remove(); break;
    case 2: call_mask(); break;
    case 3: call_opened(); break;
    case 4: call_flag(one_in(2) ? RECEIVING_ENABLE : RECEIVING_RELEASE); break;
    case 5: call_begin(); break;
    case 6: call_begin_read(); break;
    case 7: call_class(); break;
    default:
        if (reading)
            call_read();
        else if (one_in(2))
            call_begin_read();
        else
            call_begin();
    }
}

/* Memory for a state and what waits, with anything in it; no datagram. */
static void lend_state(void)
{
    state = lend(&states, sizeof(Words), one_in(2));
    s = (Words *)(void *)state.bytes;
    waiting = lend(&pendings, sizeof(Pending), one_in(2));
    pending = (Pending *)(void *)waiting.bytes;
    slots = lend(&slot_area, RECEIVE_KEYS, one_in(2));
    keys = slots.bytes;
    datagram = lend(&datagram_area, 0, one_in(2));
    scatter((uint8_t *)s->word, sizeof s->word);
    forge_pending(pending, 0);
    forge_slots(keys, EPOCHS);
    classes_flight();
    memset(&last, 0, sizeof last);
    reading = 0;
    made = 0;
    undealt = 0;
}

/* Now and then a few words of a state kept before are changed, or this state is kept. */
static void change_or_keep(Words *good, Pending *good_pending, uint8_t *good_keys)
{
    if (one_in(6)) {
        *s = *good;
        *pending = *good_pending;
        memcpy(keys, good_keys, RECEIVE_KEYS);
        change_state();
    } else if (one_in(6)) {
        *good = *s;
        *good_pending = *pending;
        memcpy(good_keys, keys, RECEIVE_KEYS);
    }
}

void receiving_history(void)
{
    uint64_t kind = below(8), steps = kind == 0 ? 4 : 8 + below(72);
    lend_state();
    if (kind != 0)
        make_state();
    if (kind == 1) {
        forge_state();
        reading = 1;
    }
    Words good = *s;
    Pending good_pending = *pending;
    uint8_t good_keys[RECEIVE_KEYS];
    memcpy(good_keys, keys, sizeof good_keys);
    for (; steps > 0; steps--) {
        if (kind == 1 && one_in(8))
            forge_state();
        if (kind == 2)
            change_or_keep(&good, &good_pending, good_keys);
        if (kind == 3 && one_in(16))
            classes_change_flight();
        if (one_in(16))
            classes_flight();
        step();
    }
}

void receiving_start(void)
{
    classes_start();
    states = area(sizeof(Words));
    pendings = area(sizeof(Pending));
    slot_area = area(RECEIVE_KEYS);
    datagram_area = area(LONGEST);
    ivs = area(12);
    mask_keys = area(LONGEST_KEY);
    datagram = lend(&datagram_area, 0, 1);
    iv = lend(&ivs, 12, 1);
    mask_key = lend(&mask_keys, HUSK_MASK_KEY, 1);
}
