/* Histories of the sending side. */
#include <string.h>

#include "masks.h"
#include "sending.h"

enum { WORDS = 39, QUEUE = SLOTS * LONGEST_MTU + 100, CONTENT = 17000, BUFFER = 2000, LONGEST_KEY = 64 };
/* The slots of mask keys: of epoch 2, and of the application epoch. */
enum { OF_HANDSHAKE, OF_APPLICATION, KEY_SLOTS };

Lent queue, content;
Sending *s, before;
int made;

static Area states, slot_area, queues, contents, buffers, ivs, mask_keys;
static Lent state, slots, buffer, iv, mask_key;
static const HuskSending *fixed;
static uint8_t queue_before[QUEUE], buffer_before[BUFFER];
/* The mask keys, and as they were before the call. */
static uint8_t *keys, keys_before[SEND_KEYS];

/* ---- checks */

/* The words of the same meaning in which no bit is without one. */
static Sending plain(const Sending *x)
{
    Sending p = *x;
    p.word[W_EPOCH] %= 65536;
    p.word[W_HANDSHAKE] %= 65536;
    p.word[W_APPLICATION] %= 65536;
    p.word[W_MESSAGE] %= 65536;
    for (int i = W_LENGTHS; i < W_IVS; i++)
        p.word[i] %= 65536;
    for (int i = W_IVS; i < WORDS; i += 2) /* an IV's first four bytes; the next word has the other eight */
        p.word[i] %= 1ull << 32;
    return p;
}

/* Words that calls made stay as they are; forged ones may be written anew with the same meaning. */
static void check_kept(void)
{
    Sending a, b;
    if (memcmp(&before, s, sizeof before) == 0)
        return;
    require(!made && before.word[W_CLOSED] <= 1 && before.word[W_WAITS] <= 1, "a refused call has changed the state");
    a = plain(&before);
    b = plain(s);
    require(memcmp(&a, &b, sizeof a) == 0, "a refused call has changed what the state means");
    words_rewritten++;
}

void sending_done(int call, unsigned kind, unsigned refusal, int refused, int may_be_12)
{
    answered(call, kind, refusal);
    check_beside(&state);
    check_beside(&slots);
    check_beside(&queue);
    check_beside(&content);
    check_beside(&buffer);
    check_beside(&iv);
    check_beside(&mask_key);
    if (refused)
        check_kept();
    require(refusal != 12 || !made || may_be_12, "12 for a state that calls made");
}

void keep_queue(void)
{
    memcpy(queue_before, queue.bytes, queue.n);
}

void forgive_queue(size_t at, size_t n)
{
    require(at <= queue.n && n <= queue.n - at, "a record outside the queue");
    memcpy(queue_before + at, queue.bytes + at, n);
}

void check_queue(size_t at, size_t n)
{
    require(at <= queue.n && n <= queue.n - at, "a record outside the queue");
    require(memcmp(queue_before, queue.bytes, at) == 0, "bytes of the queue before the record have changed");
    size_t end = at + n;
    require(memcmp(queue_before + end, queue.bytes + end, queue.n - end) == 0, "bytes of the queue behind the record have changed");
}

/* ---- calls */

HuskSending *sending_whole(void)
{
    return (HuskSending *)(void *)s;
}

static void check_keys(const uint8_t *expected)
{
    require(memcmp(expected, keys, SEND_KEYS) == 0, "other mask keys than the calls leave");
}

static void call_fresh(size_t mtu, size_t limit)
{
    calling(SENDING_INIT);
    uint8_t answer = husk_sending_init_words(s->word, keys, mtu, limit);
    sending_done(SENDING_INIT, 0, answer, 0, 1);
    int in_range = mtu >= 576 && mtu <= 1500 && limit >= 1 && limit <= 16;
    require((answer == 0) == in_range, "a setting in range is refused, or one beyond is taken");
    made = answer == 0 && queue.n >= mtu * limit;
    check_keys(no_keys);
}

uint16_t some_epoch(void)
{
    switch (below(4)) {
    case 0:
        return (uint16_t)s->word[W_APPLICATION];
    case 1:
        return one_in(4) ? (uint16_t)any() : (uint16_t)below(8);
    case 2:
        return 2;
    default:
        return one_in(2) ? 0 : (uint16_t)s->word[W_APPLICATION];
    }
}

static uint64_t slot_of(unsigned epoch)
{
    return epoch == 2 ? OF_HANDSHAKE : OF_APPLICATION;
}

/* A keying was answered so: where it is taken the epoch's slot has the mask key, or none, whatever stood there. */
static void keying_answer(int call, uint8_t answer, uint16_t epoch, const uint8_t *key)
{
    sending_done(call, 0, answer, answer != 0, 0);
    if (answer == 0)
        put_key(keys_before, slot_of(epoch), key);
    check_keys(keys_before);
}

static void key_plain(uint16_t epoch)
{
    calling(SENDING_KEY);
    keying_answer(SENDING_KEY, husk_sending_key_words(s->word, keys, epoch, iv.fixed), epoch, NULL);
}

/* As keying without a mask key, of copies; but one of another length changes nothing. */
static void key_masked(uint16_t epoch)
{
    uint8_t other[SEND_KEYS];
    size_t n = mask_key_length();
    Sending words = *s;
    memcpy(other, keys, sizeof other);
    mask_key = lend(&mask_keys, n, one_in(2));
    scatter(mask_key.bytes, n);
    calling(SENDING_KEY);
    uint8_t without = husk_sending_key_words(words.word, other, epoch, iv.fixed);
    if (n != HUSK_MASK_KEY)
        words = *s;
    calling(SENDING_KEY_MASKED);
    uint8_t answer = husk_sending_key_masked_words(s->word, keys, epoch, iv.fixed, n == 0 && one_in(2) ? NULL : mask_key.fixed, n);
    require(answer == masked_answer(without, n), "27 where it is not due, or not where it is");
    require(memcmp(&words, s, sizeof words) == 0, "another state than keying without a mask key leaves");
    keying_answer(SENDING_KEY_MASKED, answer, epoch, mask_key.bytes);
}

static void call_key(void)
{
    uint64_t highest = s->word[W_APPLICATION] > 2 ? s->word[W_APPLICATION] : s->word[W_HANDSHAKE] < 2 ? 1 : 2;
    uint16_t epoch = one_in(6) ? some_epoch() : (uint16_t)(highest + 1 + (one_in(2) ? 0 : below(4)));
    iv = lend(&ivs, 12, one_in(2));
    scatter(iv.bytes, 12);
    if (one_in(2))
        key_masked(epoch);
    else
        key_plain(epoch);
}

void lend_content(size_t n)
{
    content = lend(&contents, n, one_in(2));
    memset(content.bytes, (int)below(256), n);
    scatter(content.bytes, n < 64 ? n : 64);
}

size_t content_length(void)
{
    if (one_in(8) && s->word[W_MTU] <= LONGEST_MTU && s->word[W_MTU] > 40)
        return (size_t)s->word[W_MTU] - 24 + below(14);
    return one_in(128) ? below(CONTENT) : one_in(4) ? below(1600) : below(60);
}

size_t check_laid(uint16_t epoch)
{
    const uint64_t *w = s->word;
    size_t n = content.n + (epoch == 0 ? 13 : 22);
    require(w[W_COUNT] >= 1 && w[W_COUNT] <= w[W_LIMIT] && w[W_LIMIT] <= SLOTS && w[W_FIRST] < w[W_LIMIT], "a queue out of range");
    size_t slot = (size_t)((w[W_FIRST] + w[W_COUNT] - 1) % w[W_LIMIT]), length = (size_t)w[W_LENGTHS + slot];
    require(length >= n && length <= w[W_MTU], "a datagram over the MTU");
    size_t at = slot * (size_t)w[W_MTU] + length - n;
    check_queue(at, n);
    return at;
}

uint8_t some_type(void)
{
    static const uint8_t types[] = {21, 22, 23, 26};
    return one_in(8) ? (uint8_t)any() : types[below(4)];
}

const uint8_t *content_bytes(void)
{
    return content.n == 0 && one_in(2) ? NULL : content.fixed;
}

static void call_send(void)
{
    uint16_t epoch = some_epoch();
    uint8_t type = some_type();
    lend_content(content_length());
    keep_queue();
    calling(SENDING_SEND);
    uint8_t answer = husk_sending_send(sending_whole(), epoch, type, content_bytes(), content.n, queue.bytes, queue.n);
    sending_done(SENDING_SEND, 0, answer, answer != 0, 0);
    if (answer == 0)
        check_laid(epoch);
    else
        check_queue(0, 0);
}

/* The oldest sealing that waits; the state is lent through the view that cannot be written. */
static HuskSealing ask(void)
{
    static const uint8_t zeros[17];
    calling(SENDING_SEALING);
    HuskSealing q = husk_sending_sealing(fixed);
    sending_done(SENDING_SEALING, q.kind, q.refusal, q.kind == 0, 0);
    if (q.kind != HUSK_SEALING_SEAL) {
        require(q.epoch == 0 && q.number == 0 && q.start == 0 && q.length == 0, "a field not used is not zero");
        require(memcmp(q.nonce, zeros, 12) == 0 && memcmp(q.header, zeros, 5) == 0, "a field not used is not zero");
        return q;
    }
    size_t mtu = (size_t)s->word[W_MTU], room = mtu * (size_t)s->word[W_LIMIT];
    require(q.start >= 5 && q.start <= room && q.length <= room - q.start, "a part outside the queue");
    require((q.start - 5) / mtu == (q.start + q.length - 1) / mtu, "a part in two datagrams");
    require(q.length >= 17 && q.refusal == 0, "a part too short");
    require(q.header[0] == 0x2C + q.epoch % 4 && q.header[3] * 256u + q.header[4] == q.length, "a header of another record");
    require(q.header[1] * 256u + q.header[2] == q.number % 65536, "a header of another number");
    require(!made || (q.epoch >= 2 && q.number < LAST_NUMBER), "a sealing of no record");
    return q;
}

/* The reply on copies, with no mask key: where the epoch has one, with the mask that the driver makes itself in place of the one brought. */
typedef struct {
    uint8_t answer, mask[2];
    Sending words;
} Model;

static Model model_of(const HuskSealing *q, size_t length, int in_queue, const uint8_t brought[2])
{
    static uint8_t sealed[QUEUE];
    Model m = {.words = *s, .mask = {brought[0], brought[1]}};
    const uint8_t *key = in_queue ? key_in(keys, slot_of(q->epoch)) : NULL;
    if (key != NULL)
        chacha_mask(key, queue.bytes + q->start, m.mask);
    memcpy(sealed, queue.bytes, queue.n);
    calling(SENDING_SEALED);
    m.answer = husk_sending_sealed_words(m.words.word, no_keys, length, m.mask[0], m.mask[1], sealed, queue.n);
    if (m.answer == 0) {
        uint8_t *header = queue_before + q->start - sizeof q->header;
        memcpy(header, q->header, sizeof q->header);
        header[1] ^= m.mask[0];
        header[2] ^= m.mask[1];
    }
    require(memcmp(queue_before, sealed, queue.n) == 0, "another record than its header and mask give");
    return m;
}

/* The host seals in place, or leaves what stands there, or writes anything anywhere; the mask keys are lent through the view that cannot be
 * written. */
static void call_sealed(void)
{
    HuskSealing q = ask();
    size_t length = one_in(12) ? (size_t)edge_word(q.length) : q.length;
    const uint8_t brought[2] = {(uint8_t)any(), (uint8_t)any()};
    int in_queue = q.kind == HUSK_SEALING_SEAL && q.start + q.length <= queue.n;
    if (in_queue && !one_in(4))
        scatter(queue.bytes + q.start + q.length - 16, 16);
    if (!made && one_in(4))
        mutate(queue.bytes, queue.n);
    keep_queue();
    Model m = model_of(&q, length, in_queue, brought);
    calling(SENDING_SEALED);
    replies++;
    uint8_t answer = husk_sending_sealed_words(s->word, slots.fixed, length, brought[0], brought[1], queue.bytes, queue.n);
    sending_done(SENDING_SEALED, 0, answer, answer != 0, 0);
    require(answer != 0 || in_queue, "a sealing taken that was not asked");
    require(answer == 0 || memcmp(&before, s, sizeof before) == 0, "a refused reply has written words");
    require(answer == m.answer, "another answer than with the mask of the epoch's key brought");
    require(memcmp(&m.words, s, sizeof m.words) == 0, "another state than with the mask of the epoch's key brought");
    require(memcmp(queue_before, queue.bytes, queue.n) == 0, "another record than with the mask of the epoch's key brought");
}

/* A take writes the ring's front, and a refused one nothing. */
static void check_front(int taken)
{
    Sending a = before;
    if (taken) {
        a.word[W_FIRST] = s->word[W_FIRST];
        a.word[W_COUNT] = before.word[W_COUNT] - 1;
    }
    require(memcmp(&a, s, sizeof a) == 0, "a take has changed other words than the front's");
}

static void call_take(void)
{
    size_t n = one_in(8) ? below(BUFFER) : one_in(8) ? 0 : LONGEST_MTU, from = 0;
    if (one_in(4) && s->word[W_FIRST] < SLOTS) {
        n = (size_t)(s->word[W_LENGTHS + s->word[W_FIRST]] % LONGEST_MTU);
        n = one_in(2) && n > 0 ? n - 1 : n;
    }
    buffer = lend(&buffers, n, one_in(2));
    memset(buffer.bytes, (int)below(256), n);
    memcpy(buffer_before, buffer.bytes, n);
    uint8_t *b = n == 0 && one_in(2) ? NULL : buffer.bytes;
    calling(SENDING_TAKE);
    HuskTake t = husk_sending_take(sending_whole(), b, n, queue.fixed, queue.n);
    sending_done(SENDING_TAKE, t.kind, t.refusal, t.kind != HUSK_TAKE_TAKEN, 0);
    check_front(t.kind == HUSK_TAKE_TAKEN);
    require(t.refusal != 16 || (t.length > n && t.length <= before.word[W_MTU]), "a needed length made up");
    require(t.kind == HUSK_TAKE_TAKEN || t.refusal == 16 || t.length == 0, "a field not used is not zero");
    if (t.kind == HUSK_TAKE_TAKEN) {
        from = (size_t)(before.word[W_FIRST] * before.word[W_MTU]);
        require(t.length <= n && from + t.length <= queue.n, "a datagram outside the buffer");
        require(memcmp(buffer.bytes, queue.bytes + from, t.length) == 0, "another datagram than the front one");
        from = t.length;
    }
    require(memcmp(buffer.bytes + from, buffer_before + from, n - from) == 0, "bytes behind the datagram have changed");
}

/* Beside a take on a copy of the state, with room for every datagram. */
static void call_take_in_place(void)
{
    static uint8_t whole[65535];
    Sending copy = *s;
    HuskTake t = husk_sending_take((HuskSending *)(void *)&copy, whole, sizeof whole, queue.fixed, queue.n);
    keep_queue();
    calling(SENDING_TAKE_IN_PLACE);
    HuskPart p = husk_sending_take_in_place(sending_whole(), queue.fixed, queue.n);
    sending_done(SENDING_TAKE_IN_PLACE, p.kind, p.refusal, p.kind != HUSK_TAKE_TAKEN, 0);
    check_front(p.kind == HUSK_TAKE_TAKEN);
    check_queue(0, 0);
    require(p.kind == t.kind && p.refusal == t.refusal && p.length == t.length, "another answer than that of a take with a copy");
    require(memcmp(&copy, s, sizeof copy) == 0, "another state than that of a take with a copy");
    require(p.kind == HUSK_TAKE_TAKEN || (p.start == 0 && p.length == 0), "a field not used is not zero");
    require(p.start <= queue.n && p.length <= queue.n - p.start, "a datagram outside the queue");
    require(memcmp(queue.bytes + p.start, whole, p.length) == 0, "another datagram than that of a take with a copy");
}

/* How many sealings wait: on copies of the state and the queue they are answered until none does. */
static size_t count_sealings(void)
{
    static uint8_t sealed[QUEUE];
    Sending copy = *s;
    HuskSealing q;
    size_t n = 0;
    memcpy(sealed, queue.bytes, queue.n);
    for (; (q = husk_sending_sealing((HuskSending *)(void *)&copy)).kind == HUSK_SEALING_SEAL; n++)
        require(husk_sending_sealed_words(copy.word, keys, q.length, 0, 0, sealed, queue.n) == 0, "a sealing asked for that is not taken");
    return n;
}

/* The state is lent through the view that cannot be written. */
static void call_status(void)
{
    calling(SENDING_STATUS);
    HuskQueued t = husk_sending_status(fixed);
    sending_done(SENDING_STATUS, t.refusal == 0 && t.queued > 0, t.refusal, 1, 0);
    require(t.refusal == 0 || (t.queued == 0 && t.waiting == 0), "a field not used is not zero");
    require(t.refusal != 0 || t.queued == s->word[W_COUNT], "another count of datagrams queued");
    if (made)
        require(t.waiting == count_sealings(), "another count of records that wait to be sealed");
}

/* ---- states */

static void keep_state(void)
{
    before = *s;
    memcpy(keys_before, keys, SEND_KEYS);
}

static void make_state(void)
{
    size_t mtu = one_in(3) ? 576 + below(925) : 576, limit = one_in(4) ? 1 + below(16) : 1 + below(3), n = mtu * limit;
    if (one_in(16))
        n = one_in(2) ? n - 1 - below(n) : n + below(100);
    queue = lend(&queues, n, one_in(2));
    memset(queue.bytes, (int)below(256), n);
    if (one_in(32))
        mtu = (size_t)edge_word(mtu);
    if (one_in(32))
        limit = (size_t)edge_word(limit);
    call_fresh(mtu, limit);
    for (uint64_t k = below(4); k > 0; k--) {
        keep_state();
        call_key();
    }
}

/* A few words changed, those that lead the calls more often than others. */
static void change_state(void)
{
    for (uint64_t k = 1 + below(3); k > 0; k--) {
        uint64_t i = one_in(4) ? below(WORDS) : below(W_LENGTHS + 3);
        if (one_in(6))
            keys[SLOT * below(KEY_SLOTS)] = (uint8_t)edge_word(1);
        else
            s->word[i] = edge_word(s->word[i]);
    }
    made = 0;
}

/* Words of which most are in range, for the queue lent. */
static void forge_state(void)
{
    uint64_t *w = s->word, mtu = 576 + below(925), limit = queue.n / mtu;
    scatter((uint8_t *)w, sizeof s->word);
    w[W_MTU] = mtu;
    w[W_LIMIT] = limit > SLOTS ? SLOTS : limit;
    w[W_FIRST] = below(w[W_LIMIT] + 1);
    w[W_COUNT] = below(w[W_LIMIT] + 2);
    w[W_CLOSED] = below(2);
    w[W_WAITS] = below(2);
    w[W_SLOT] = below(w[W_LIMIT] + 1);
    w[W_START] = one_in(4) ? edge_word(mtu) : below(mtu);
    w[W_LENGTH] = one_in(4) ? edge_word(mtu) : 17 + below(mtu);
    w[W_EPOCH] = 2 + below(4);
    w[W_NUMBER] = one_in(2) ? below(100) : any();
    for (int i = W_PLAINTEXT_NEXT; i < W_MESSAGE; i++)
        w[i] = one_in(2) ? below(100) : LAST_NUMBER - below(3);
    w[W_HANDSHAKE] = one_in(2) ? 2 : below(4);
    w[W_APPLICATION] = below(8);
    for (int i = W_LENGTHS; i < W_IVS; i++)
        w[i] = one_in(8) ? edge_word(mtu) : below(mtu);
    forge_slots(keys, KEY_SLOTS);
    made = 0;
}

/* ---- histories */

static void step(void)
{
    keep_state();
    if (below(5) < 2) {
        if (one_in(2))
            flight_step();
        else
            acks_step();
        return;
    }
    switch (below(13)) {
    case 0: call_key(); break;
    case 1: call_take(); break;
    case 2: call_take_in_place(); break;
    case 3: case 4: case 5: call_sealed(); break;
    case 6: ask(); break;
    case 7: call_status(); break;
    default: call_send(); break;
    }
}

/* Memory for a state, with anything in it. */
static void lend_state(void)
{
    state = lend(&states, sizeof(Sending), one_in(2));
    s = (Sending *)(void *)state.bytes;
    fixed = (const HuskSending *)(const void *)state.fixed;
    slots = lend(&slot_area, SEND_KEYS, one_in(2));
    keys = slots.bytes;
    forge_slots(keys, KEY_SLOTS);
    made = 0;
}

void sending_history(void)
{
    uint64_t kind = below(8), steps = 8 + below(64);
    Sending good;
    lend_state();
    make_state();
    flight_fresh();
    acks_fresh();
    if (kind == 0) {
        scatter((uint8_t *)s->word, sizeof s->word);
        forge_slots(keys, KEY_SLOTS);
        made = 0;
        steps = 4;
    }
    if (kind == 1)
        scatter(queue.bytes, queue.n);
    for (good = *s; steps > 0; steps--) {
        if (kind == 1 && one_in(4))
            forge_state();
        if (kind == 1 && one_in(6))
            flight_forge();
        if (kind == 1 && one_in(8))
            notes_forge();
        if (kind == 3 && one_in(8))
            flight_change();
        if (kind == 3 && one_in(8))
            notes_change();
        if (kind == 2 && one_in(6)) {
            *s = good;
            change_state();
        } else if (kind == 2 && one_in(6)) {
            good = *s;
        }
        step();
    }
}

void sending_start(void)
{
    states = area(sizeof(Sending));
    slot_area = area(SEND_KEYS);
    queues = area(QUEUE);
    contents = area(CONTENT);
    buffers = area(BUFFER);
    ivs = area(12);
    mask_keys = area(LONGEST_KEY);
    flight_start();
    acks_start();
    content = lend(&contents, 0, 1);
    buffer = lend(&buffers, 0, 1);
    iv = lend(&ivs, 12, 1);
    mask_key = lend(&mask_keys, HUSK_MASK_KEY, 1);
}
