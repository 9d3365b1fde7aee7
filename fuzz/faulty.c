/* Faults planted around the calls, one by the environment's FAULT, each of which the driver must find. Linked with --wrap,
 * and like the library built without sanitizers. Most keep clear of the known answers, so that a history has to find them. */
#include <stdlib.h>
#include <string.h>

#include "huskelapse.h"
#include "masks.h"

/* The library's function, and the one that the driver calls in its place. */
#define WRAPPED(answer, name, ...)     \
    answer __real_##name(__VA_ARGS__); \
    answer __wrap_##name(__VA_ARGS__)

WRAPPED(uint8_t, husk_receiving_init_words, uint64_t *w, uint64_t *x, uint8_t *k, size_t min);
WRAPPED(uint8_t, husk_receiving_key_words, uint64_t *w, uint8_t *k, uint16_t epoch, const uint8_t *iv);
WRAPPED(uint8_t, husk_receiving_key_masked_words, uint64_t *w, uint8_t *k, uint16_t epoch, const uint8_t *iv, const uint8_t *key, size_t kn);
WRAPPED(HuskReading, husk_receiving_read_words, uint64_t *w, uint64_t *x, const uint8_t *k, uint8_t *d, size_t n);
WRAPPED(HuskReading, husk_receiving_begin_read_words, uint64_t *w, uint64_t *x, const uint8_t *k, uint8_t *d, size_t n);
WRAPPED(HuskReading, husk_receiving_mask, HuskReceiving *s, uint8_t m0, uint8_t m1, uint8_t *d, size_t n);
WRAPPED(HuskReading, husk_receiving_opened_words, uint64_t *w, uint64_t *x, uint8_t opened, size_t length, const uint8_t *d, size_t n);
WRAPPED(uint8_t, husk_receiving_begin_words, uint64_t *w, uint64_t *x, size_t n);
WRAPPED(HuskClass, husk_receiving_classify_words, uint64_t *w, uint64_t *x, uint64_t *f, uint64_t *m, const uint8_t *d, size_t n);
WRAPPED(HuskTold, husk_receiving_remove_words, uint64_t *w, uint8_t *k, uint16_t epoch);
WRAPPED(uint8_t, husk_sending_init_words, uint64_t *w, uint8_t *k, size_t mtu, size_t limit);
WRAPPED(uint8_t, husk_sending_key_words, uint64_t *w, uint8_t *k, uint16_t epoch, const uint8_t *iv);
WRAPPED(uint8_t, husk_sending_key_masked_words, uint64_t *w, uint8_t *k, uint16_t epoch, const uint8_t *iv, const uint8_t *key, size_t kn);
WRAPPED(uint8_t, husk_sending_send, HuskSending *s, uint16_t epoch, uint8_t type, const uint8_t *c, size_t cn, uint8_t *q, size_t qn);
WRAPPED(uint8_t, husk_sending_sealed_words, uint64_t *w, const uint8_t *k, size_t length, uint8_t m0, uint8_t m1, uint8_t *q, size_t qn);
WRAPPED(HuskTake, husk_sending_take, HuskSending *s, uint8_t *b, size_t bn, const uint8_t *q, size_t qn);
WRAPPED(HuskPart, husk_sending_take_in_place, HuskSending *s, const uint8_t *q, size_t qn);
WRAPPED(HuskQueued, husk_sending_status, const HuskSending *s);
WRAPPED(uint8_t, husk_flight_send_words, HuskSending *s, uint64_t *f, uint64_t *m, uint16_t epoch, uint8_t type, const uint8_t *c,
    size_t cn, uint8_t *q, size_t qn, uint8_t *k, size_t kn);
WRAPPED(uint8_t, husk_flight_message_words, HuskSending *s, uint64_t *f, uint64_t *m, uint8_t type, const uint8_t *c, size_t cn,
    uint8_t *q, size_t qn, uint8_t *k, size_t kn);
WRAPPED(HuskTold, husk_flight_resend_words, HuskSending *s, uint64_t *f, uint64_t *m, const uint8_t *k, size_t kn, uint8_t *q, size_t qn);
WRAPPED(HuskAcked, husk_flight_ack_words, uint64_t *f, uint64_t *m, const uint8_t *c, size_t cn);
WRAPPED(HuskSaved, husk_flight_status_words, const uint64_t *f);
WRAPPED(void, husk_notes_init_words, uint64_t *count, uint64_t *epochs, uint64_t *numbers);
WRAPPED(HuskTold, husk_notes_add_words, uint64_t *count, uint64_t *epochs, uint64_t *numbers, uint64_t epoch, uint64_t number);
WRAPPED(HuskTold, husk_notes_send_words, HuskSending *s, uint64_t *count, uint64_t *epochs, uint64_t *numbers, uint8_t *q, size_t qn);
WRAPPED(void, husk_assembly_init, HuskAssembly *s);
WRAPPED(uint8_t, husk_assembly_begin, HuskAssembly *s, size_t n);
WRAPPED(HuskPiece, husk_assembly_take, HuskAssembly *s, const uint8_t *c, size_t cn, uint8_t *b, size_t bn);

static volatile uint8_t sink;

static int chosen_fault(void)
{
    static int chosen;
    if (chosen == 0)
        chosen = atoi(getenv("FAULT"));
    return chosen;
}

static int planted(int fault)
{
    return chosen_fault() == fault;
}

/* Whether one of these faults is planted, from the first to the last. */
static int planted_of(int first, int last)
{
    return chosen_fault() >= first && chosen_fault() <= last;
}

/* The datagrams whose classes or verdicts are known answers have these lengths, or one byte less where that is refused. */
static int is_known(size_t n)
{
    return n == 28 || n == 29 || n == 30 || n == 45 || n == 46 || n == 63;
}

/* ---- mask keys */

/* The last mask key of each side that was taken, and whether there is one. */
static struct {
    int any;
    uint8_t key[HUSK_MASK_KEY];
} received, sent;

/* The known answers have the mask key 00 01 02 .. */
static int is_known_key(const uint8_t *key)
{
    return key[0] == 0 && key[1] == 1 && key[2] == 2;
}

/* A slot for the epoch of a question, NULL where it is not keyed. */
static const uint8_t *slot_asked(const uint64_t *w, const uint8_t *k)
{
    for (uint64_t i = w[15] <= 5 ? w[15] : 0; i > 0; i--)
        if ((w[i - 1] ^ w[24]) % 65536 == 0)
            return k + SLOT * (i - 1);
    return NULL;
}

/* The mask by a key of a sample, of which left bytes lie before the end; or a wrong one, where one of the faults from the first on is planted:
 * the counter big-endian, the 16 bytes one on, the other side's key. */
static void mask_fault(int first, const uint8_t *key, const uint8_t *other, const uint8_t *sample, size_t left, uint8_t mask[2])
{
    uint8_t turned[SAMPLE];
    for (int i = 0; i < SAMPLE; i++)
        turned[i] = sample[planted(first) && i < 4 ? 3 - i : i];
    if (left > SAMPLE && planted(first + 1))
        memcpy(turned, sample + 1, SAMPLE);
    chacha_mask(planted(first + 2) ? other : key, turned, mask);
}

/* A read goes on with a mask that is made wrongly: r is what one without mask keys answers. */
static HuskReading goes_on(HuskReading r, uint64_t *w, const uint8_t *k, uint8_t *d, size_t n)
{
    const uint8_t *slot = r.kind == HUSK_READING_MASK ? slot_asked(w, k) : NULL;
    uint8_t mask[2];
    if (slot == NULL || slot[0] == 0 || (slot[0] != 1 && !planted(107)))
        return r;
    mask_fault(102, slot + 1, sent.any ? sent.key : slot + 1, d + r.start, n - r.start, mask);
    if (planted(106))
        chacha_mask(slot == k ? slot + SLOT + 1 : slot - SLOT + 1, d + r.start, mask); /* the key of the slot beside */
    if (w[25] == 0 && planted(105))
        mask[0] = mask[1]; /* the second byte for a number of one */
    return __real_husk_receiving_mask((HuskReceiving *)(void *)w, mask[0], mask[1], d, n);
}

/* Whether one of the first two slots has the mask key of the known answers. */
static int is_known_slots(const uint8_t *k)
{
    return is_known_key(k + 1) || is_known_key(k + SLOT + 1);
}

/* Faults in a read of an epoch with a mask key, whose words asked for it as they are in asked; r is what the library answers. */
static void read_fault(HuskReading *r, const uint64_t *asked, const uint8_t *k, uint8_t *d, const uint8_t numbers[2])
{
    const uint8_t *slot = asked[23] == 1 ? slot_asked(asked, k) : NULL;
    if (slot == NULL || slot[0] != 1)
        return;
    if (planted(108))
        memcpy(d + asked[21] + 1, numbers, 2); /* the number stays masked */
    if (r->refusal == HUSK_TOO_OLD && planted(109))
        r->refusal = HUSK_SEEN;
}

uint8_t __wrap_husk_receiving_init_words(uint64_t *w, uint64_t *x, uint8_t *k, size_t min)
{
    uint64_t closed = x[6];
    uint8_t flag = k[0], answer = __real_husk_receiving_init_words(w, x, k, min);
    if (closed == 1 && planted(66))
        x[6] = closed; /* an old close */
    if (flag == 1 && planted(110))
        k[0] = flag; /* an old mask key */
    return answer;
}

uint8_t __wrap_husk_receiving_key_words(uint64_t *w, uint8_t *k, uint16_t epoch, const uint8_t *iv)
{
    uint8_t old[RECEIVE_KEYS];
    memcpy(old, k, sizeof old);
    uint8_t answer = __real_husk_receiving_key_words(w, k, epoch, iv);
    if (planted(111))
        memcpy(k, old, sizeof old); /* what stood in the slot is the epoch's key */
    return answer;
}

uint8_t __wrap_husk_receiving_key_masked_words(uint64_t *w, uint8_t *k, uint16_t epoch, const uint8_t *iv, const uint8_t *key, size_t kn)
{
    if (kn > HUSK_MASK_KEY && !is_known_key(key) && planted(112))
        kn = HUSK_MASK_KEY; /* the first 32 bytes of more */
    uint8_t answer = __real_husk_receiving_key_masked_words(w, k, epoch, iv, key, kn);
    if (answer == 13 && kn > 0 && kn != HUSK_MASK_KEY && !is_known_key(key) && planted(113))
        answer = 27; /* 27 before 13 */
    if (answer == 27 && w[15] == 5 && planted(114))
        answer = 23; /* 23 before 27 */
    if (answer == 0) {
        received.any = 1;
        memcpy(received.key, key, sizeof received.key);
    }
    return answer;
}

/* The words in which a read asks for a mask, by a read of copies without mask keys. */
static void words_asked(uint64_t asked[39], const uint64_t *w, const uint64_t *x, uint8_t *d, size_t n)
{
    uint64_t y[9];
    memcpy(asked, w, 39 * sizeof *w);
    memcpy(y, x, sizeof y);
    __real_husk_receiving_read_words(asked, y, no_keys, d, n);
}

HuskReading __wrap_husk_receiving_read_words(uint64_t *w, uint64_t *x, const uint8_t *k, uint8_t *d, size_t n)
{
    uint64_t waits = x[0], asked[39];
    if (planted_of(102, 107) && !is_known_slots(k))
        return goes_on(__real_husk_receiving_read_words(w, x, no_keys, d, n), w, k, d, n);
    words_asked(asked, w, x, d, n);
    uint8_t numbers[2] = {0, 0};
    if (asked[23] == 1 && asked[21] < n && n - asked[21] > 2)
        memcpy(numbers, d + asked[21] + 1, 2);
    HuskReading r = __real_husk_receiving_read_words(w, x, k, d, n);
    if (!is_known_slots(k))
        read_fault(&r, asked, k, d, numbers);
    if (n > 0 && planted(1))
        sink = ((const volatile uint8_t *)d)[n];
    if (n > 0 && planted(2))
        sink = *((const volatile uint8_t *)d - 1);
    if (n > 0 && planted(3))
        *d = 0;
    if (r.kind == HUSK_READING_UNOPENED && planted(4))
        r.length++;
    for (uint64_t i = 0; r.kind == HUSK_READING_DROPPED && !is_known(n) && planted(5); i++)
        sink = (uint8_t)i;
    if (r.kind == HUSK_READING_DROPPED && waits != 0 && planted(67))
        x[0] = waits; /* a reading that was passed over */
    if (r.kind == HUSK_READING_UNOPENED && planted(68))
        x[2] = 0; /* an unopened record noted as epoch 0 */
    return r;
}

HuskReading __wrap_husk_receiving_begin_read_words(uint64_t *w, uint64_t *x, const uint8_t *k, uint8_t *d, size_t n)
{
    if (planted(115) && !is_known_slots(k))
        k = no_keys; /* the mask is asked of the host */
    HuskReading r = __real_husk_receiving_begin_read_words(w, x, k, d, n);
    if (r.kind == HUSK_READING_PLAINTEXT && planted(28))
        w[22] = 0;
    if (r.kind == HUSK_READING_PLAINTEXT && x[6] == 1 && planted(69))
        x[6] = 0; /* the close is forgotten */
    return r;
}

/* How far below its window's highest a number with these unmasked bits is, where it is no more than half a block below. */
static uint64_t below_highest(const uint64_t *w, const uint8_t *d)
{
    const uint8_t *p = d + w[21];
    uint64_t i = w[15] - 1;
    while (i > 0 && (w[i] ^ w[24]) % 65536 != 0)
        i--;
    return w[25] ? (w[5 + i] - (p[1] * 256u + p[2])) % 65536 : (w[5 + i] - p[1]) % 256;
}

/* Faults in the window's verdict, for a record that was judged in these words. */
static void verdict_fault(HuskReading *r, const uint64_t *w, const uint8_t *d)
{
    const HuskReading old = {.kind = HUSK_READING_DROPPED, .refusal = HUSK_TOO_OLD};
    if (r->refusal == HUSK_TOO_OLD && planted(97))
        r->refusal = HUSK_SEEN;
    else if (r->refusal == HUSK_SEEN && planted(98))
        r->refusal = HUSK_TOO_OLD;
    else if (r->refusal == HUSK_SEEN && below_highest(w, d) == 63 && planted(99))
        r->refusal = HUSK_TOO_OLD; /* 63 below is in the window */
    else if (r->refusal == HUSK_TOO_OLD && below_highest(w, d) == 64 && planted(100))
        r->refusal = HUSK_SEEN; /* 64 below is not */
    else if (r->kind == HUSK_READING_OPENING && below_highest(w, d) == 63 && planted(101))
        *r = old; /* unused and 63 below */
}

HuskReading __wrap_husk_receiving_mask(HuskReceiving *s, uint8_t m0, uint8_t m1, uint8_t *d, size_t n)
{
    uint64_t w[39];
    memcpy(w, s->word, sizeof w);
    HuskReading r = __real_husk_receiving_mask(s, m0, m1, d, n);
    if (!is_known(n) && r.kind != HUSK_READING_REFUSED)
        verdict_fault(&r, w, d);
    if (n > 0 && planted(6))
        d[n - 1] ^= 1;
    if (r.kind == HUSK_READING_OPENING && r.number > 40000 && r.number < 65536 && planted(45))
        r.number = 0;
    if (r.kind == HUSK_READING_OPENING && r.header_len % 2 == 0 && r.number > 200 && r.number < 256 && planted(46))
        r.number = 0;
    return r;
}

HuskReading __wrap_husk_receiving_opened_words(uint64_t *w, uint64_t *x, uint8_t opened, size_t length, const uint8_t *d, size_t n)
{
    uint64_t y[6];
    memcpy(y, x, sizeof y);
    HuskReading r = __real_husk_receiving_opened_words(w, x, opened, length, d, n);
    if (r.kind == HUSK_READING_DROPPED && planted(7))
        r.refusal = 9;
    if (r.kind == HUSK_READING_OPENED && r.content_type > 26 && !is_known(n) && planted(70))
        x[1] = HUSK_APPLICATION_DATA;
    if (r.kind == HUSK_READING_OPENED && r.length + 3 <= length && !is_known(n) && planted(95))
        r.length++, x[5]++; /* content with its type, of a padded record */
    if (r.kind == HUSK_READING_OPENED && r.length + 9 <= length && !is_known(n) && planted(96)) /* no type behind a word of zeros */
        r = (HuskReading){.kind = HUSK_READING_DROPPED, .refusal = HUSK_NO_CONTENT_TYPE}, memcpy(x, y, sizeof y), x[0] = 0;
    return r;
}

uint8_t __wrap_husk_receiving_begin_words(uint64_t *w, uint64_t *x, size_t n)
{
    uint64_t waits = x[0];
    uint8_t answer = __real_husk_receiving_begin_words(w, x, n);
    if (answer == 1 && planted(8))
        w[21] = 0;
    if (answer == 0 && waits == 5 && planted(71))
        x[0] = waits;
    return answer;
}

/* Faults in the class of a reading that waited with these words and this content. */
static void class_fault(HuskClass *k, const uint64_t *x, const uint8_t *c, int encrypted)
{
    int alert = x[1] == HUSK_ALERT && k->kind == HUSK_CLASS_IGNORED, at_close = x[6] && x[2] == x[7] && x[3] == x[8];
    if (at_close && k->kind > HUSK_CLASS_ALERT && planted(72))
        k->kind = HUSK_CLASS_BEYOND; /* at the close, not beyond it */
    if (alert && k->length > 1 && c[1] == 90 && planted(73))
        k->kind = HUSK_CLASS_ALERT, k->description = 90;
    if (alert && k->length == 1 && planted(74))
        k->kind = HUSK_CLASS_ALERT, k->description = c[0];
    if (k->kind == HUSK_CLASS_ALERT && planted(75))
        k->description = c[0]; /* the level */
    if (k->kind == HUSK_CLASS_UNPROTECTED && x[1] == HUSK_HANDSHAKE && planted(76))
        k->kind = HUSK_CLASS_HANDSHAKE;
    if (k->kind == HUSK_CLASS_HANDSHAKE && x[0] == 3 && !encrypted && planted(77))
        k->kind = HUSK_CLASS_UNPROTECTED;
    if (k->kind == HUSK_CLASS_BEYOND && x[2] != x[7] && planted(78))
        k->kind = HUSK_CLASS_OTHER; /* a higher epoch is not beyond */
    if (k->kind == HUSK_CLASS_BEYOND && x[0] == 4 && planted(79))
        k->kind = HUSK_CLASS_UNOPENED;
    if (k->kind == HUSK_CLASS_OTHER && x[1] > 26 && planted(80))
        k->kind = HUSK_CLASS_APPLICATION_DATA;
    if (k->kind == HUSK_CLASS_ACK && k->saved > 3 && planted(81))
        k->marked = (uint8_t)(k->saved - k->unacknowledged);
}

/* Faults in what is left behind: x is what waits now, y what waited. */
static void left_fault(const HuskClass *k, uint64_t *w, uint64_t cursor, uint64_t *x, const uint64_t *y, const uint8_t *c)
{
    int again = k->kind == HUSK_CLASS_IGNORED && y[1] == HUSK_ALERT && k->length > 1 && c[1] == 0;
    if (again && planted(82))
        x[7] = y[2], x[8] = y[3]; /* a second close moves the place */
    if (k->kind == HUSK_CLASS_APPLICATION_DATA && planted(83))
        x[0] = y[0]; /* dealt with a second time */
    if (k->kind == HUSK_CLASS_ALERT && planted(84))
        w[21] = cursor; /* the datagram goes on */
    if (k->kind == HUSK_CLASS_CLOSE && planted(85))
        x[8]++;
    if (k->kind == HUSK_CLASS_CLOSE && y[2] > 2 && planted(86))
        x[6] = 0; /* not remembered */
    if (k->refusal == 15 && planted(87))
        x[0] = 0;
    if (k->refusal == 12 && y[0] == 5 && y[1] == HUSK_ACK && planted(88))
        x[0] = 0; /* an ACK for what is no flight is gone */
}

HuskClass __wrap_husk_receiving_classify_words(uint64_t *w, uint64_t *x, uint64_t *f, uint64_t *m, const uint8_t *d, size_t n)
{
    uint64_t cursor = w[21], y[9], g[73];
    memcpy(y, x, sizeof y);
    memcpy(g, f, sizeof g);
    HuskClass k = __real_husk_receiving_classify_words(w, x, f, m, d, n);
    const uint8_t *c = y[4] < n ? d + y[4] : d;
    if (is_known(n))
        return k;
    if (k.refusal == 12 && y[0] == 5 && y[4] < n && y[5] == n - y[4] + 1 && planted(93))
        return (HuskClass){.kind = HUSK_CLASS_OTHER, .start = (size_t)y[4], .length = (size_t)y[5]}; /* a byte past the end */
    if (k.kind >= HUSK_CLASS_BEYOND && y[4] + y[5] == n && planted(94))
        return (HuskClass){.refusal = 12}; /* refused at the very end */
    if (n > 0 && planted(89))
        sink = ((const volatile uint8_t *)d)[n];
    if (n > 0 && k.kind == HUSK_CLASS_OTHER && planted(90))
        *(uint8_t *)(uintptr_t)d = 0;
    if (k.kind == HUSK_CLASS_IGNORED && y[1] == HUSK_ACK && planted(91))
        __real_husk_flight_ack_words(f, m, c, k.length); /* a plaintext ACK marks */
    if (k.kind == HUSK_CLASS_ACK && k.saved > 0 && k.marked > 0 && planted(92))
        memcpy(f, g, sizeof g); /* a sealed ACK does not */
    class_fault(&k, y, c, w[17] == 1);
    left_fault(&k, w, cursor, x, y, c);
    return k;
}

HuskTold __wrap_husk_receiving_remove_words(uint64_t *w, uint8_t *k, uint16_t epoch)
{
    uint64_t asked = w[23], last = w[15] - 1;
    uint8_t old[RECEIVE_KEYS];
    memcpy(old, k, sizeof old);
    HuskTold t = __real_husk_receiving_remove_words(w, k, epoch);
    if (t.told == 1 && asked == 2 && planted(30))
        t.told = 0;
    if (t.refusal == 0 && asked == 2 && planted(31))
        t.told = 1;
    if (t.refusal != 0 || last > 4 || is_known_slots(old))
        return t;
    if (planted(116))
        memcpy(k, old, sizeof old); /* the keys stay where they were */
    if (planted(117))
        memcpy(k + SLOT * last + 1, old + SLOT * last + 1, HUSK_MASK_KEY); /* a key is left behind, if not its flag */
    return t;
}

uint8_t __wrap_husk_sending_init_words(uint64_t *w, uint8_t *k, size_t mtu, size_t limit)
{
    uint8_t flag = k[0], answer = __real_husk_sending_init_words(w, k, mtu, limit);
    if (flag == 1 && planted(118))
        k[0] = flag; /* an old mask key */
    return answer;
}

uint8_t __wrap_husk_sending_key_words(uint64_t *w, uint8_t *k, uint16_t epoch, const uint8_t *iv)
{
    uint8_t old[SEND_KEYS];
    memcpy(old, k, sizeof old);
    if (planted(9))
        (*((volatile uint8_t *)w + 39 * sizeof *w))++;
    uint8_t answer = __real_husk_sending_key_words(w, k, epoch, iv);
    if (!is_known_slots(old) && planted(119))
        memcpy(k, old, sizeof old); /* the mask key of the epoch before */
    return answer;
}

uint8_t __wrap_husk_sending_key_masked_words(uint64_t *w, uint8_t *k, uint16_t epoch, const uint8_t *iv, const uint8_t *key, size_t kn)
{
    uint8_t answer = __real_husk_sending_key_masked_words(w, k, epoch, iv, key, kn);
    if (answer == 13 && kn > 0 && kn != HUSK_MASK_KEY && !is_known_key(key) && planted(120))
        answer = 27; /* 27 before 13 */
    if (answer == 27 && kn > 0 && !is_known_key(key) && planted(121))
        __real_husk_sending_key_words(w, k, epoch, iv); /* keyed all the same */
    if (answer == 0) {
        sent.any = 1;
        memcpy(sent.key, key, sizeof sent.key);
    }
    return answer;
}

uint8_t __wrap_husk_sending_send(HuskSending *s, uint16_t epoch, uint8_t type, const uint8_t *c, size_t cn, uint8_t *q, size_t qn)
{
    uint8_t answer = __real_husk_sending_send(s, epoch, type, c, cn, q, qn);
    if (answer == 0 && planted(10))
        q[qn - 1] ^= 1;
    return answer;
}

/* A sealing in an epoch with a mask key, its mask made wrongly. */
static uint8_t sealed_fault(uint64_t *w, const uint8_t *slot, const HuskSealing *a, size_t length, const uint8_t brought[2], uint8_t *q, size_t qn)
{
    const uint8_t *beside = a->epoch == 2 ? slot + SLOT : slot - SLOT;
    uint8_t mask[2];
    mask_fault(122, slot + 1, received.any ? received.key : slot + 1, q + a->start, qn - a->start, mask);
    for (int i = 0; i < 2 && planted(125); i++)
        mask[i] ^= brought[i]; /* what the reply brings is put on as well */
    if (planted(126))
        chacha_mask(beside + 1, q + a->start, mask); /* the key of the other slot */
    if (a->epoch == 2 && planted(127))
        memcpy(mask, brought, 2); /* what the reply brings, in epoch 2 */
    return __real_husk_sending_sealed_words(w, no_keys, length, mask[0], mask[1], q, qn);
}

uint8_t __wrap_husk_sending_sealed_words(uint64_t *w, const uint8_t *k, size_t length, uint8_t m0, uint8_t m1, uint8_t *q, size_t qn)
{
    const HuskSealing a = husk_sending_sealing((const HuskSending *)(const void *)w);
    const uint8_t *slot = a.epoch == 2 ? k : k + SLOT, brought[2] = {m0, m1};
    int asked = a.kind == HUSK_SEALING_SEAL && a.start + a.length <= qn;
    if (asked && slot[0] == 1 && !is_known_key(slot + 1) && planted_of(122, 127))
        return sealed_fault(w, slot, &a, length, brought, q, qn);
    uint8_t answer = __real_husk_sending_sealed_words(w, k, length, m0, m1, q, qn);
    if (planted(11))
        sink = ((volatile uint8_t *)q)[qn];
    return answer;
}

HuskTake __wrap_husk_sending_take(HuskSending *s, uint8_t *b, size_t bn, const uint8_t *q, size_t qn)
{
    HuskTake t = __real_husk_sending_take(s, b, bn, q, qn);
    if (t.kind == HUSK_TAKE_TAKEN && t.length < bn && planted(12))
        b[t.length] ^= 1;
    return t;
}

HuskPart __wrap_husk_sending_take_in_place(HuskSending *s, const uint8_t *q, size_t qn)
{
    HuskPart p = __real_husk_sending_take_in_place(s, q, qn);
    if (p.kind == HUSK_TAKE_TAKEN && p.start > 0 && planted(29))
        p.start--;
    return p;
}

HuskQueued __wrap_husk_sending_status(const HuskSending *s)
{
    HuskQueued t = __real_husk_sending_status(s);
    if (t.queued > 2 && t.waiting > 0 && planted(32))
        t.waiting--;
    if (t.queued > 2 && planted(33))
        t.queued--;
    if (t.queued > 2 && planted(34))
        ((HuskSending *)(uintptr_t)s)->word[3]--;
    return t;
}

uint8_t __wrap_husk_flight_send_words(HuskSending *s, uint64_t *f, uint64_t *m, uint16_t epoch, uint8_t type, const uint8_t *c,
    size_t cn, uint8_t *q, size_t qn, uint8_t *k, size_t kn)
{
    uint8_t answer = __real_husk_flight_send_words(s, f, m, epoch, type, c, cn, q, qn, k, kn);
    if (answer == 0 && planted(13))
        k[kn - 1] ^= 1;
    return answer;
}

uint8_t __wrap_husk_flight_message_words(HuskSending *s, uint64_t *f, uint64_t *m, uint8_t type, const uint8_t *c, size_t cn,
    uint8_t *q, size_t qn, uint8_t *k, size_t kn)
{
    uint8_t answer = __real_husk_flight_message_words(s, f, m, type, c, cn, q, qn, k, kn);
    if (answer == 19 && planted(14))
        f[72]++;
    if (answer == 0 && planted(15))
        q[s->word[0] * s->word[1] - 1] ^= 1;
    return answer;
}

HuskTold __wrap_husk_flight_resend_words(HuskSending *s, uint64_t *f, uint64_t *m, const uint8_t *k, size_t kn, uint8_t *q, size_t qn)
{
    HuskTold t = __real_husk_flight_resend_words(s, f, m, k, kn, q, qn);
    if (kn > 0 && planted(16))
        *(uint8_t *)(uintptr_t)k = 0;
    if (t.refusal == 22 && planted(17))
        m[0]++;
    if (t.refusal == 0 && planted(18))
        q[s->word[0] * s->word[1] - 1] ^= 1;
    if (t.refusal == 0 && f[72] > 1 && planted(19))
        f[6 + 2]++;
    if (t.refusal == 13 && planted(20))
        s->word[4] ^= 1;
    if (t.refusal == 0 && f[72] > 3 && planted(35))
        t.told = (uint8_t)f[72];
    return t;
}

HuskAcked __wrap_husk_flight_ack_words(uint64_t *f, uint64_t *m, const uint8_t *c, size_t cn)
{
    HuskAcked t = __real_husk_flight_ack_words(f, m, c, cn);
    if (cn > 0 && planted(21))
        sink = ((const volatile uint8_t *)c)[cn];
    if (t.refusal == 0 && f[72] > 1 && planted(22))
        f[6 + 4] = 1;
    if (t.saved > 3 && planted(36))
        t.marked = (uint8_t)(t.saved - t.unacknowledged);
    if (t.saved > 3 && t.marked > 0 && planted(37))
        t.unacknowledged++;
    if (t.refusal == 0 && t.saved == 0 && cn > 34 && planted(38))
        t.saved = 1;
    return t;
}

HuskSaved __wrap_husk_flight_status_words(const uint64_t *f)
{
    HuskSaved t = __real_husk_flight_status_words(f);
    if (t.saved > 3 && planted(39))
        t.unacknowledged = t.saved;
    if (f[72] > 13 && f[72] < 256 && planted(40))
        t.refusal = 0;
    return t;
}

void __wrap_husk_notes_init_words(uint64_t *count, uint64_t *epochs, uint64_t *numbers)
{
    uint64_t noted = count[0];
    __real_husk_notes_init_words(count, epochs, numbers);
    if (noted % 2 == 0 && planted(41))
        count[0] = 1;
    if (planted(42))
        ((volatile uint64_t *)epochs)[32] = 0;
}

HuskTold __wrap_husk_notes_add_words(uint64_t *count, uint64_t *epochs, uint64_t *numbers, uint64_t epoch, uint64_t number)
{
    if (count[0] == 32 && planted(23))
        ((volatile uint64_t *)numbers)[32] = number;
    if (count[0] == 33 && planted(24))
        count[0] = 32;
    HuskTold t = __real_husk_notes_add_words(count, epochs, numbers, epoch, number);
    if (t.refusal == 0 && number < 100 && planted(43))
        t.told = 1;
    return t;
}

HuskTold __wrap_husk_notes_send_words(HuskSending *s, uint64_t *count, uint64_t *epochs, uint64_t *numbers, uint8_t *q, size_t qn)
{
    uint64_t noted = count[0];
    HuskTold t = __real_husk_notes_send_words(s, count, epochs, numbers, q, qn);
    if (t.refusal == 19 && planted(25))
        count[0] = 0;
    if (t.told == 1 && noted < 32 && planted(26))
        count[0] = noted;
    if (t.refusal == 17 && planted(27))
        t.refusal = 18;
    if (t.told == 1 && noted < 32 && planted(44))
        t.told = 0;
    return t;
}

/* The messages of several pieces that are known answers have 5 or 200 bytes. */
static int is_known_total(uint64_t total)
{
    return total == 5 || total == 200;
}

void __wrap_husk_assembly_init(HuskAssembly *s)
{
    uint64_t span = s->word[105];
    __real_husk_assembly_init(s);
    if (span % 2 == 0 && planted(47))
        s->word[105] = span;
}

uint8_t __wrap_husk_assembly_begin(HuskAssembly *s, size_t n)
{
    uint64_t place = s->word[5];
    uint8_t answer = __real_husk_assembly_begin(s, n);
    if (answer == 0 && s->word[1] == 50 && n > 13 && planted(48))
        s->word[1] = 0;
    if (answer == 0 && place > 0 && place < n && !is_known_total(s->word[3]) && planted(49))
        s->word[5] = place;
    return answer;
}

static uint64_t number_of(const uint8_t *p, int n)
{
    uint64_t v = 0;
    for (int i = 0; i < n; i++)
        v = v * 256 + p[i];
    return v;
}

/* Faults in what is written, for a piece that is held as the last of those in the words w. */
static void write_fault(uint64_t *w, const uint8_t *piece, uint64_t held, uint8_t *b, size_t bn)
{
    size_t offset = (size_t)number_of(piece + 6, 3), length = (size_t)number_of(piece + 9, 3);
    int later = held > 2 && !is_known_total(w[3]);
    if (later && w[6] < bn && w[56] > 0 && planted(50))
        b[w[6]] ^= 1; /* a byte that an earlier piece brought */
    if (later && w[1] > 0 && planted(51))
        w[3]++; /* the total grows */
    if (later && w[1] > 0 && planted(52))
        w[2] ^= 1; /* the type changes */
    if (later && planted(53))
        ((volatile uint8_t *)b)[bn] = 0;
    if (offset + length < bn && length > 5 && planted(54))
        b[offset + length] ^= 1;
}

/* Taken for whole once its pieces have as many bytes together as the message. */
static void count_fault(HuskPiece *a, uint64_t *w)
{
    uint64_t sum = 0;
    for (uint64_t k = 0; k < w[1]; k++)
        sum += w[56 + k];
    if (w[1] < 3 || sum < w[3])
        return;
    *a = (HuskPiece){HUSK_PIECE_MESSAGE, 0, (uint8_t)w[2], (uint16_t)w[0]++, (size_t)w[3]};
    w[1] = 0;
}

/* Faults in the answer, where the place in the record was another before the call. */
static void answer_fault(HuskPiece *a, HuskAssembly *s, uint64_t place, const uint8_t *c)
{
    uint64_t *w = s->word;
    if (a->kind == HUSK_PIECE_HELD && !is_known_total(w[3]) && planted(55))
        count_fault(a, w);
    if (a->kind == HUSK_PIECE_SAME && w[1] == 50 && !is_known_total(w[3]) && planted(56))
        *a = (HuskPiece){HUSK_PIECE_REFUSED, 25, 0, 0, 0};
    if (a->kind == HUSK_PIECE_OTHER && number_of(c + place + 4, 2) == w[0] + 1 && w[1] < 50 && planted(57)) {
        w[6 + w[1]] = number_of(c + place + 6, 3); /* a piece of the next message */
        w[56 + w[1]++] = number_of(c + place + 9, 3);
        a->kind = HUSK_PIECE_HELD;
    }
    if (a->kind == HUSK_PIECE_OTHER && w[1] > 0 && planted(65))
        a->number = (uint16_t)w[0]; /* the number expected */
    if (a->refusal == 24 && w[1] > 0 && !is_known_total(w[3]) && planted(58))
        w[5] = place; /* the record goes on */
    if (a->refusal == 25 && !is_known_total(w[3]) && planted(59))
        w[1] = 0; /* the message so far is lost */
    if (a->kind == HUSK_PIECE_MESSAGE && a->length > 5 && planted(60))
        w[0]--; /* the number is not raised */
    if (a->refusal == 16 && w[1] > 0 && planted(61))
        w[5] = w[4];
}

/* ---- pieces that disagree */

/* Whether a piece held covers a byte. */
static int is_covered(const uint64_t *w, uint64_t at)
{
    for (uint64_t k = 0; k < w[1]; k++)
        if (w[6 + k] <= at && at - w[6 + k] < w[56 + k])
            return 1;
    return 0;
}

/* What stands beside what is held, of a piece of the number expected. */
typedef struct {
    int type, total, first, last, byte, all, elsewhere, touches, span;
} Beside;

/* Which of these a piece has: another type, another total; another byte at the first, the last or any of the places shared; all its places
 * shared; another byte than the buffer's beside them; a piece held that it touches; one with its offset and length. */
static Beside beside(const uint64_t *w, const uint8_t *piece, const uint8_t *b)
{
    uint64_t offset = number_of(piece + 6, 3), length = number_of(piece + 9, 3), shared = 0;
    Beside d = {piece[0] != w[2] % 256, number_of(piece + 1, 3) != w[3], 0, 0, 0, 0, 0, 0, 0};
    for (uint64_t i = 0; i < length && offset + i < HUSK_MESSAGE_ROOM; i++) {
        int other = piece[12 + i] != b[offset + i];
        if (!is_covered(w, offset + i)) {
            d.elsewhere |= other;
            continue;
        }
        d.first = shared++ == 0 ? other : d.first;
        d.last = other;
        d.byte |= other;
    }
    d.all = length > 0 && shared == length;
    d.elsewhere = d.elsewhere && shared > 0;
    for (uint64_t k = 0; k < w[1]; k++) {
        d.touches |= length > 0 && w[56 + k] > 0 && (w[6 + k] + w[56 + k] == offset || offset + length == w[6 + k]);
        d.span |= w[6 + k] == offset && w[56 + k] == length;
    }
    return d;
}

/* Whether a piece that disagrees so, with a body of this length, passes by a planted fault. */
static int passes(const Beside *d, uint64_t length)
{
    return planted(128) /* it is never told */
        || (planted(129) && !d->type && !d->total && !d->first) /* one byte is compared, the first */
        || (planted(130) && !d->type && !d->total && !d->last)  /* or the last */
        || (planted(131) && !d->total && !d->byte)              /* the type is not compared */
        || (planted(132) && !d->type && !d->byte)               /* the total is not compared */
        || (planted(133) && length == 0)                        /* nor are both of an empty piece */
        || (planted(134) && d->span);                           /* offset and length alone are compared first, as they were */
}

/* The answer where the piece at a place would agree: its type and total are those held, and its shared bytes those of the buffer. */
static HuskPiece agreed(HuskAssembly *s, uint64_t place, const uint8_t *c, size_t cn, uint8_t *b, size_t bn)
{
    static uint8_t copy[20000];
    uint64_t *w = s->word, offset = number_of(c + place + 6, 3), length = number_of(c + place + 9, 3);
    uint8_t *piece = copy + place;
    memcpy(copy, c, cn);
    piece[0] = (uint8_t)w[2];
    for (int i = 0; i < 3; i++)
        piece[1 + i] = (uint8_t)(w[3] >> (16 - 8 * i));
    for (uint64_t i = 0; i < length; i++)
        if (is_covered(w, offset + i))
            piece[12 + i] = b[offset + i];
    w[5] = place;
    return __real_husk_assembly_take(s, copy, cn, b, bn);
}

/* Faults in what a refusal by 28 leaves behind. */
static void disagreed_fault(HuskPiece *a, uint64_t *w, uint64_t place, const uint8_t *piece, const Beside *d, uint8_t *b)
{
    uint64_t offset = number_of(piece + 6, 3), length = number_of(piece + 9, 3);
    if (planted(135))
        w[5] = place + 12 + length; /* the record goes on */
    if (planted(136))
        memcpy(b + offset, piece + 12, (size_t)length);
    if (planted(137))
        w[1] = 0; /* the message so far is lost */
    if (w[1] == 50 && !d->span && planted(138))
        a->refusal = 25; /* 25 before 28 */
}

/* Whether 28 is told of a piece that is held with these words before it. */
static int is_told_wrongly(const Beside *d, const uint64_t *w)
{
    return (planted(139) && d->touches)                           /* it only touches another */
        || (planted(140) && w[1] == 0 && w[3] > 0 && d->type)     /* the first piece, by the type of the message before */
        || (planted(141) && w[1] > 0 && d->elsewhere);            /* bytes that no piece has brought are compared */
}

/* Whether 24 is told of the total that is held, by a piece within the record and its own total. */
static int is_past_held(const uint64_t *w, const uint8_t *piece, size_t left)
{
    if (left < 12 || left - 12 < number_of(piece + 9, 3))
        return 0;
    uint64_t total = number_of(piece + 1, 3), end = number_of(piece + 6, 3) + number_of(piece + 9, 3);
    return w[1] > 0 && w[0] < 65535 && end > w[3] && end <= total && total <= HUSK_MESSAGE_ROOM;
}

static HuskPiece take_disagreeing(HuskAssembly *s, const uint8_t *c, size_t cn, uint8_t *b, size_t bn)
{
    static uint8_t before[HUSK_MESSAGE_ROOM];
    HuskAssembly was = *s;
    uint64_t *w = s->word, place = w[5];
    if (bn >= sizeof before)
        memcpy(before, b, sizeof before);
    HuskPiece a = __real_husk_assembly_take(s, c, cn, b, bn);
    if (is_known_total(was.word[3]))
        return a;
    if (a.refusal == 24 && planted(142) && is_past_held(w, c + place, cn - place))
        a.refusal = 28; /* 28 before 24 */
    if (a.refusal != 28 && a.kind != HUSK_PIECE_HELD)
        return a;
    Beside d = beside(was.word, c + place, before);
    if (a.refusal == 28 && passes(&d, number_of(c + place + 9, 3)))
        return agreed(s, place, c, cn, b, bn);
    if (a.refusal == 28)
        disagreed_fault(&a, w, place, c + place, &d, b);
    if (a.kind == HUSK_PIECE_HELD && (is_told_wrongly(&d, was.word) || (planted(143) && d.all))) {
        *s = was;
        memcpy(b, before, sizeof before);
        w[5] = planted(143) ? place + 12 + number_of(c + place + 9, 3) : w[4];
        a = (HuskPiece){planted(143) ? HUSK_PIECE_SAME : HUSK_PIECE_REFUSED, planted(143) ? 0 : 28, 0, 0, 0}; /* 143: the same as several */
    }
    return a;
}

HuskPiece __wrap_husk_assembly_take(HuskAssembly *s, const uint8_t *c, size_t cn, uint8_t *b, size_t bn)
{
    uint64_t place = s->word[5], held = s->word[1];
    if (planted_of(128, 143))
        return take_disagreeing(s, c, cn, b, bn);
    HuskPiece a = __real_husk_assembly_take(s, c, cn, b, bn);
    if (a.kind == HUSK_PIECE_OTHER && planted(62))
        sink = ((const volatile uint8_t *)c)[cn];
    if (a.kind >= HUSK_PIECE_HELD)
        write_fault(s->word, c + place, held, b, bn);
    if (a.kind == HUSK_PIECE_HELD && held == 0 && s->word[3] == 16384 && planted(63))
        a = (HuskPiece){HUSK_PIECE_REFUSED, 24, 0, 0, 0};
    if (a.kind == HUSK_PIECE_MESSAGE && a.number == 65534 && planted(64))
        s->word[0] = 0;
    answer_fault(&a, s, place, c);
    return a;
}
