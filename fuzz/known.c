/* Answers worked by hand, in which every field of every struct has a value of its own: the library lays its structs out as the header. */
#include <string.h>

#include "fuzz.h"

static const uint8_t iv[12] = {0, 1, 2, 3, 4, 5, 6, 7, 8, 9, 10, 11};

static void check_reading(HuskReading r, unsigned kind, unsigned type, unsigned epoch, uint64_t number, size_t start, size_t head, size_t n)
{
    require(r.kind == kind && r.refusal == 0 && r.content_type == type && r.epoch == epoch, "a known reading");
    require(r.number == number && r.start == start && r.header_len == head && r.length == n, "a known reading's numbers");
}

/* An alert, then a sealed record of epoch 263 (bits 3) whose number 5 is masked by 01 07. */
static void known_receiving(void)
{
    static const uint8_t nonce[12] = {0, 1, 2, 3, 4, 5, 6, 7, 8, 9, 10, 11 ^ 5};
    uint8_t d[40] = {21, 0xFE, 0xFD, 0, 0, 1, 2, 3, 4, 5, 6, 0, 2, 1, 0, 0x2F, 1, 2, 0, 20};
    HuskReceiving s;
    calling(RECEIVING_READ);
    require(husk_receiving_init(&s, 16) == 0 && husk_receiving_key(&s, 263, iv) == 0, "a known start");
    require(husk_receiving_enable_encryption(&s) == 0, "a known start");
    require(husk_receiving_begin(&s, sizeof d) == 0, "a known datagram");
    check_reading(husk_receiving_read(&s, d, sizeof d), HUSK_READING_PLAINTEXT, 21, 0, 0x010203040506, 13, 0, 2);
    check_reading(husk_receiving_read(&s, d, sizeof d), HUSK_READING_MASK, 0, 263, 0, 20, 0, 16);
    HuskReading r = husk_receiving_mask(&s, 1, 7, d, sizeof d);
    check_reading(r, HUSK_READING_OPENING, 0, 263, 5, 15, 5, 20);
    require(memcmp(r.nonce, nonce, 12) == 0 && d[16] == 0 && d[17] == 5, "a known nonce");
    memcpy(d + 20, "hi\x17\0", 4);
    check_reading(husk_receiving_opened(&s, 1, 4, d, sizeof d), HUSK_READING_OPENED, 23, 263, 5, 20, 0, 2);
    r = husk_receiving_read(&s, d, 0);
    require(r.kind == HUSK_READING_REFUSED && r.refusal == 15, "a known refusal");
    r = husk_receiving_read(&s, d, sizeof d);
    require(r.kind == HUSK_READING_END && r.refusal == 0, "a known end");
}

/* The first record to arrive in epoch 3 has the number 40,000, of two bytes; in epoch 6 (bits 2) 200, of one. */
static void known_first(void)
{
    uint8_t d[44] = {0x2F, 0x9C, 0x40, 0, 20};
    HuskReceiving s;
    d[25] = 0x22;
    d[26] = 200;
    calling(RECEIVING_MASK);
    require(husk_receiving_init(&s, 16) == 0 && husk_receiving_key(&s, 3, iv) == 0, "a known start");
    require(husk_receiving_key(&s, 6, iv) == 0 && husk_receiving_enable_encryption(&s) == 0, "a known start");
    require(husk_receiving_begin(&s, sizeof d) == 0, "a known datagram");
    check_reading(husk_receiving_read(&s, d, sizeof d), HUSK_READING_MASK, 0, 3, 0, 5, 0, 16);
    check_reading(husk_receiving_mask(&s, 0, 0, d, sizeof d), HUSK_READING_OPENING, 0, 3, 40000, 0, 5, 20);
    memcpy(d + 5, "hi\x17\0", 4);
    check_reading(husk_receiving_opened(&s, 1, 4, d, sizeof d), HUSK_READING_OPENED, 23, 3, 40000, 5, 0, 2);
    check_reading(husk_receiving_read(&s, d, sizeof d), HUSK_READING_MASK, 0, 6, 0, 27, 0, 16);
    check_reading(husk_receiving_mask(&s, 0, 0, d, sizeof d), HUSK_READING_OPENING, 0, 6, 200, 25, 2, 17);
}

/* A record of epoch 3 with this number, opened if the layer asks for it; else the refusal that drops it, told alone. */
static unsigned arrives(HuskReceiving *s, uint8_t number)
{
    uint8_t d[28] = {0x2F, 0, number, 0, 23};
    require(husk_receiving_begin_read(s, d, sizeof d).kind == HUSK_READING_MASK, "a known mask question");
    HuskReading r = husk_receiving_mask(s, 0, 0, d, sizeof d);
    if (r.kind != HUSK_READING_OPENING) {
        uint8_t refusal = r.refusal;
        r.refusal = 0;
        check_reading(r, HUSK_READING_DROPPED, 0, 0, 0, 0, 0, 0);
        return refusal;
    }
    check_reading(r, HUSK_READING_OPENING, 0, 3, number, 0, 5, 23);
    memcpy(d + 5, "hi\x17\0\0\0\0", 7);
    check_reading(husk_receiving_opened(s, 1, 7, d, sizeof d), HUSK_READING_OPENED, 23, 3, number, 5, 0, 2);
    return 0;
}

/* Numbers in their order of arrival, each with the refusal that drops it or 0: those of the window's rows (01; 02, 5). */
static void known_window(void)
{
    static const struct {
        size_t n;
        uint8_t numbers[5], refusals[5];
    } rows[] = {
        {4, {100, 36, 37, 37}, {0, HUSK_TOO_OLD, 0, HUSK_SEEN}},
        {3, {5, 68, 5}, {0, 0, HUSK_SEEN}},
        {5, {5, 69, 5, 69, 6}, {0, 0, HUSK_TOO_OLD, HUSK_SEEN, 0}},
        {3, {0, 0, 1}, {0, HUSK_SEEN, 0}},
    };
    calling(RECEIVING_MASK);
    for (size_t i = 0; i < sizeof rows / sizeof *rows; i++) {
        HuskReceiving s;
        require(husk_receiving_init(&s, 16) == 0 && husk_receiving_key(&s, 3, iv) == 0, "a known start");
        require(husk_receiving_enable_encryption(&s) == 0, "a known start");
        for (size_t k = 0; k < rows[i].n; k++)
            require(arrives(&s, rows[i].numbers[k]) == rows[i].refusals[k], "a known verdict");
    }
}

static void check_sealing(const HuskSending *s, uint64_t number, size_t start)
{
    const uint8_t header[5] = {0x2E, 0, (uint8_t)number, 0, 20};
    uint8_t nonce[12];
    HuskSealing q = husk_sending_sealing(s);
    memcpy(nonce, iv, 12);
    nonce[11] ^= (uint8_t)number;
    require(q.kind == HUSK_SEALING_SEAL && q.refusal == 0 && q.epoch == 262 && q.number == number, "a known sealing");
    require(q.start == start && q.length == 20, "a known sealing's place");
    require(memcmp(q.nonce, nonce, 12) == 0 && memcmp(q.header, header, 5) == 0, "a known nonce and header");
}

/* An alert in plaintext, then two records of epoch 262, in one datagram of 65 bytes. */
static void known_sending(void)
{
    static const uint8_t alert[2] = {1, 0}, data[3] = {'a', 'b', 'c'}, plain[15] = {21, 0xFE, 0xFD, 0, 0, 0, 0, 0, 0, 0, 0, 0, 2, 1, 0};
    static uint8_t queue[2 * 576];
    uint8_t out[65];
    HuskSending s;
    HuskFlight f;
    calling(SENDING_SEND);
    husk_flight_init(&f);
    require(husk_sending_init(&s, 576, 2) == 0 && husk_sending_key(&s, 262, iv) == 0, "a known start");
    require(husk_sending_send(&s, 0, 21, alert, 2, queue, sizeof queue) == 0, "a known alert");
    for (int i = 0; i < 2; i++)
        require(husk_sending_send(&s, 262, 23, data, 3, queue, sizeof queue) == 0, "a known record");
    check_sealing(&s, 0, 20);
    require(husk_sending_sealed(&s, &f, 20, 0, 0, queue, sizeof queue) == 0, "a known reply");
    check_sealing(&s, 1, 45);
    HuskTake t = husk_sending_take(&s, out, sizeof out, queue, sizeof queue);
    require(t.kind == HUSK_TAKE_REFUSED && t.refusal == 23 && t.length == 0, "a datagram not wholly sealed");
    require(husk_sending_sealed(&s, &f, 20, 0x55, 0xAA, queue, sizeof queue) == 0, "a known reply");
    t = husk_sending_take(&s, out, 64, queue, sizeof queue);
    require(t.kind == HUSK_TAKE_REFUSED && t.refusal == 16 && t.length == 65, "a known length needed");
    t = husk_sending_take(&s, out, sizeof out, queue, sizeof queue);
    require(t.kind == HUSK_TAKE_TAKEN && t.refusal == 0 && t.length == 65, "a known datagram");
    require(memcmp(out, plain, 15) == 0 && out[40] == 0x2E && out[41] == 0x55 && out[42] == (0xAA ^ 1) && out[44] == 20, "its bytes");
}

/* A block that RFC 8439 works out, in section 2.3.2: under the key 00 01 .. 1F this sample, counter 1 and a nonce, gives the mask 10 F1. */
static const uint8_t known_key[33] = {0, 1, 2, 3, 4, 5, 6, 7, 8, 9, 10, 11, 12, 13, 14, 15, 16, 17, 18, 19, 20, 21, 22, 23, 24, 25, 26, 27, 28,
    29, 30, 31, 32};
static const uint8_t known_sample[16] = {1, 0, 0, 0, 0, 0, 0, 9, 0, 0, 0, 0x4A, 0, 0, 0, 0};

/* The first two slots hold the known key or none, the others none; all bytes without a key are 0. */
static void check_slots(const uint8_t *slots, size_t n, int first, int second)
{
    uint8_t due[165] = {(uint8_t)first};
    due[33] = (uint8_t)second;
    memcpy(due + 1, known_key, first ? 32 : 0);
    memcpy(due + 34, known_key, second ? 32 : 0);
    require(memcmp(slots, due, n) == 0, "known mask keys");
}

/* Epoch 2 without a mask key and 3 with one; every other length is refused, behind an epoch that cannot be keyed. */
static void mask_key_received(HuskReceiving *s)
{
    memset(s, 0xFF, sizeof *s);
    require(husk_receiving_init(s, 17) == 0 && husk_receiving_enable_encryption(s) == 0, "a known start");
    require(husk_receiving_key(s, 2, iv) == 0, "a known start");
    for (size_t n = 0; n < 34; n++)
        require(n == 32 || husk_receiving_key_masked(s, 3, iv, known_key, n) == HUSK_BAD_MASK_KEY, "a known length");
    require(husk_receiving_key_masked(s, 2, iv, known_key, 31) == HUSK_BAD_EPOCH, "a known epoch before the length");
    check_slots(s->mask_keys, sizeof s->mask_keys, 0, 0);
    require(husk_receiving_key_masked(s, 3, iv, known_key, 32) == 0, "a known mask key");
    check_slots(s->mask_keys, sizeof s->mask_keys, 0, 1);
}

/* Number 5 of epoch 3 is opened, then seen; 7 comes in one byte. Epoch 2 asks for its mask; then it goes, the key moves up, and goes with 3. */
static void known_mask_keys(void)
{
    uint8_t d[28] = {0x2F, 0x10, 0xF1 ^ 5, 0, 23};
    HuskReceiving s;
    calling(RECEIVING_KEY_MASKED);
    mask_key_received(&s);
    memcpy(d + 5, known_sample, 16);
    check_reading(husk_receiving_begin_read(&s, d, sizeof d), HUSK_READING_OPENING, 0, 3, 5, 0, 5, 23);
    require(d[1] == 0 && d[2] == 5, "a known number in place");
    check_reading(husk_receiving_read(&s, d, sizeof d), HUSK_READING_OPENING, 0, 3, 5, 0, 5, 23);
    memcpy(d + 5, "hi\x17\0\0\0\0", 7);
    check_reading(husk_receiving_opened(&s, 1, 7, d, sizeof d), HUSK_READING_OPENED, 23, 3, 5, 5, 0, 2);
    memcpy(d, "\x2F\x10\xF4", 3);
    memcpy(d + 5, known_sample, 16);
    HuskReading r = husk_receiving_begin_read(&s, d, sizeof d);
    require(r.kind == HUSK_READING_DROPPED && r.refusal == HUSK_SEEN && d[2] == 5, "a known number again");
    memcpy(d, "\x27\x17\0\x18", 4);
    memcpy(d + 4, known_sample, 16);
    check_reading(husk_receiving_begin_read(&s, d, sizeof d), HUSK_READING_OPENING, 0, 3, 7, 0, 4, 24);
    memcpy(d, "\x2E\0\0\0\x17", 5);
    check_reading(husk_receiving_begin_read(&s, d, sizeof d), HUSK_READING_MASK, 0, 2, 0, 5, 0, 16);
    require(husk_receiving_remove(&s, 2).refusal == 0, "a known removal");
    check_slots(s.mask_keys, sizeof s.mask_keys, 1, 0);
    require(husk_receiving_remove(&s, 3).refusal == 0, "a known removal");
    check_slots(s.mask_keys, sizeof s.mask_keys, 0, 0);
}

/* A record of epoch 262, which has a mask key: what its reply brings as mask is not read. Epoch 263 has none, and the key is gone. */
static void known_mask_sent(void)
{
    static const uint8_t data[3] = {'a', 'b', 'c'};
    static uint8_t queue[576];
    HuskSending s;
    HuskFlight f;
    calling(SENDING_KEY_MASKED);
    memset(&s, 0xFF, sizeof s);
    husk_flight_init(&f);
    require(husk_sending_init(&s, 576, 1) == 0, "a known start");
    for (size_t n = 0; n < 34; n++)
        require(n == 32 || husk_sending_key_masked(&s, 262, iv, known_key, n) == HUSK_BAD_MASK_KEY, "a known length");
    require(husk_sending_key_masked(&s, 1, iv, known_key, 33) == HUSK_BAD_EPOCH, "a known epoch before the length");
    check_slots(s.mask_keys, sizeof s.mask_keys, 0, 0);
    require(husk_sending_key_masked(&s, 262, iv, known_key, 32) == 0, "a known mask key");
    check_slots(s.mask_keys, sizeof s.mask_keys, 0, 1);
    require(husk_sending_send(&s, 262, 23, data, 3, queue, sizeof queue) == 0, "a known record");
    memcpy(queue + 5, known_sample, 16);
    require(husk_sending_sealed(&s, &f, 20, 0x55, 0xAA, queue, sizeof queue) == 0, "a known reply");
    require(queue[0] == 0x2E && queue[1] == 0x10 && queue[2] == 0xF1 && queue[4] == 20, "a known mask");
    require(husk_sending_key(&s, 263, iv) == 0, "a known epoch");
    check_slots(s.mask_keys, sizeof s.mask_keys, 0, 0);
}

/* What is queued and waits at this end is told. */
static void check_queued(const HuskSending *s, unsigned queued, size_t waiting)
{
    HuskQueued t = husk_sending_status(s);
    require(t.refusal == 0 && t.queued == queued && t.waiting == waiting, "a known status of the queue");
}

/* What is saved and not acknowledged is told. */
static void check_saved(const HuskFlight *f, unsigned saved, unsigned unacknowledged)
{
    HuskSaved t = husk_flight_status(f);
    require(t.refusal == 0 && t.saved == saved && t.unacknowledged == unacknowledged, "a known status of the flight");
}

static void check_acked(HuskAcked t, unsigned marked, unsigned unacknowledged, unsigned saved)
{
    require(t.refusal == 0 && t.marked == marked && t.unacknowledged == unacknowledged && t.saved == saved, "a known ACK's answer");
}

static void check_told(HuskTold t, unsigned refusal, unsigned told, const char *what)
{
    require(t.refusal == refusal && t.told == told, what);
}

/* The oldest sealing is answered and its datagram, of one record, taken. */
static void drain(HuskSending *s, HuskFlight *f, uint8_t *queue, size_t n, uint64_t number, size_t part)
{
    uint8_t out[576];
    HuskSealing q = husk_sending_sealing(s);
    require(q.kind == HUSK_SEALING_SEAL && q.number == number && q.length == part, "a known sealing");
    require(husk_sending_sealed(s, f, part, 0, 0, queue, n) == 0, "a known reply");
    HuskTake t = husk_sending_take(s, out, sizeof out, queue, n);
    require(t.kind == HUSK_TAKE_TAKEN && t.length == part + 5, "a known datagram");
}

/* An epoch removed while nothing waits, and one under whose question a record waits, which is dropped with it. */
static void known_removal(void)
{
    uint8_t d[25] = {0x2F, 0, 5, 0, 20};
    HuskReceiving s;
    calling(RECEIVING_REMOVE);
    require(husk_receiving_init(&s, 17) == 0 && husk_receiving_enable_encryption(&s) == 0, "a known start");
    require(husk_receiving_key(&s, 2, iv) == 0 && husk_receiving_key(&s, 3, iv) == 0, "a known start");
    check_told(husk_receiving_remove(&s, 4), HUSK_BAD_EPOCH, 0, "a known epoch that is not keyed");
    require(husk_receiving_begin_read(&s, d, sizeof d).kind == HUSK_READING_MASK, "a known question");
    check_told(husk_receiving_remove(&s, 2), 0, 0, "a known removal");
    check_told(husk_receiving_remove(&s, 3), 0, 1, "a known removal under a question");
    require(husk_receiving_read(&s, d, sizeof d).kind == HUSK_READING_END, "a known end");
}

/* Three records queued in two datagrams, two of them to be sealed; a state that is none. */
static void known_queue(void)
{
    static const uint8_t data[500];
    static uint8_t queue[2 * 576];
    HuskSending s;
    HuskFlight f;
    calling(SENDING_STATUS);
    husk_flight_init(&f);
    require(husk_sending_init(&s, 576, 2) == 0 && husk_sending_key(&s, 3, iv) == 0, "a known start");
    check_queued(&s, 0, 0);
    require(husk_sending_send(&s, 0, HUSK_ALERT, data, 2, queue, sizeof queue) == 0, "a known alert");
    check_queued(&s, 1, 0);
    for (unsigned i = 1; i <= 2; i++) {
        require(husk_sending_send(&s, 3, HUSK_APPLICATION_DATA, data, sizeof data, queue, sizeof queue) == 0, "a known record");
        check_queued(&s, i, i);
    }
    require(husk_sending_sealed(&s, &f, sizeof data + 17, 0, 0, queue, sizeof queue) == 0, "a known reply");
    check_queued(&s, 2, 1);
    require(husk_sending_take_in_place(&s, queue, sizeof queue).length == 15 + 5 + sizeof data + 17, "a known datagram");
    check_queued(&s, 1, 1);
    s.word[4] = 2;
    HuskQueued t = husk_sending_status(&s);
    require(t.refusal == HUSK_OUT_OF_RANGE && t.queued == 0 && t.waiting == 0, "a known flag out of range");
}

/* A handshake record of epoch 2, sent as number 0 and again as 1 to 32; then it remembers 32 numbers. An ACK of number 5 ends it. */
static void known_resends(void)
{
    static const uint8_t data[3] = {'a', 'b', 'c'};
    static uint8_t queue[576], kept[12 * 576];
    uint8_t ack[18] = {0, 16, 0, 0, 0, 0, 0, 0, 0, 2, 0, 0, 0, 0, 0, 0, 0, 33};
    HuskSending s;
    HuskFlight f;
    calling(FLIGHT_RESEND);
    husk_flight_init(&f);
    require(husk_sending_init(&s, 576, 1) == 0 && husk_sending_key(&s, 2, iv) == 0, "a known start");
    check_told(husk_flight_resend(&f, &s, kept, sizeof kept, queue, sizeof queue), 0, 0, "a known resend of nothing");
    require(husk_flight_send(&f, &s, 2, HUSK_HANDSHAKE, data, 3, queue, sizeof queue, kept, sizeof kept) == 0, "a known record");
    check_told(husk_flight_resend(&f, &s, kept, sizeof kept, queue, sizeof queue), HUSK_QUEUE_FULL, 0, "a known full queue");
    drain(&s, &f, queue, sizeof queue, 0, 20);
    for (uint64_t i = 1; i <= 32; i++) {
        check_told(husk_flight_resend(&f, &s, kept, sizeof kept, queue, sizeof queue), 0, 1, "a known resend");
        drain(&s, &f, queue, sizeof queue, i, 20);
        require(f.word[2] == i && f.word[5] == i && f.numbers[i - 1] == i - 1, "a known number remembered");
    }
    check_told(husk_flight_resend(&f, &s, kept, sizeof kept, queue, sizeof queue), HUSK_RESENDS_SPENT, 0, "a known full history");
    calling(FLIGHT_ACK);
    check_acked(husk_flight_ack(&f, &s, ack, sizeof ack), 0, 1, 1);
    ack[17] = 5;
    check_acked(husk_flight_ack(&f, &s, ack, 17), 0, 1, 1);
    check_acked(husk_flight_ack(&f, &s, ack, sizeof ack), 1, 0, 0);
    require(f.word[4] == 1 && f.word[72] == 0, "a known ACK's words");
}

/* Three records saved: the alert of epoch 0 is never acknowledged; of two of epoch 2 one is, then both, and the flight is empty. */
static void known_flight(void)
{
    static const uint8_t alert[2] = {1, 0}, body[3] = {'a', 'b', 'c'};
    static uint8_t queue[2 * 576], kept[12 * 576];
    uint8_t ack[34] = {0, 32};
    HuskSending s;
    HuskFlight f;
    calling(FLIGHT_STATUS);
    husk_flight_init(&f);
    check_saved(&f, 0, 0);
    require(husk_sending_init(&s, 576, 2) == 0 && husk_sending_key(&s, 2, iv) == 0, "a known start");
    require(husk_flight_send(&f, &s, 0, HUSK_ALERT, alert, 2, queue, sizeof queue, kept, sizeof kept) == 0, "a known alert");
    for (int i = 0; i < 2; i++)
        require(husk_flight_message(&f, &s, 8, body, 3, queue, sizeof queue, kept, sizeof kept) == 0, "a known message");
    check_saved(&f, 3, 3);
    ack[9] = ack[25] = 2;
    check_acked(husk_flight_ack(&f, &s, ack, sizeof ack), 1, 2, 3); /* number 0, twice */
    check_saved(&f, 3, 2);
    check_acked(husk_flight_ack(&f, &s, ack, sizeof ack), 0, 2, 3);
    check_told(husk_flight_resend(&f, &s, kept, sizeof kept, queue, sizeof queue), 0, 2, "a known resend of two");
    ack[33] = 1;
    check_acked(husk_flight_ack(&f, &s, ack, sizeof ack), 1, 0, 0);
    check_saved(&f, 0, 0);
    require(husk_flight_begin(&f, &s) == 0, "a known flight begun");
    f.word[72] = 13;
    HuskSaved t = husk_flight_status(&f);
    require(t.refusal == HUSK_OUT_OF_RANGE && t.saved == 0 && t.unacknowledged == 0, "a known count out of range");
}

/* The first 32 of 33 records are noted; their ACK, 514 bytes, is sent in epoch 262. */
static void known_ack(void)
{
    static const uint8_t first[18] = {2, 0, 0, 0, 0, 0, 0, 0, 1, 7, 1, 2, 3, 4, 5, 6, 7, 8};
    static uint8_t queue[576];
    HuskSending s;
    HuskFlight f;
    HuskNotes n;
    calling(NOTES_SEND);
    memset(&n, 0xFF, sizeof n);
    husk_notes_init(&n);
    husk_flight_init(&f);
    require(husk_sending_init(&s, 576, 1) == 0 && husk_sending_key(&s, 262, iv) == 0, "a known start");
    check_told(husk_notes_send(&n, &s, queue, sizeof queue), 0, 0, "a known ACK of nothing");
    require(husk_sending_sealing(&s).kind == HUSK_SEALING_NONE, "nothing to seal");
    for (uint64_t i = 0; i < 33; i++)
        check_told(husk_notes_add(&n, 263 + i, 0x0102030405060708 + i), 0, i < 32, "a known note");
    require(n.count[0] == 32 && n.epochs[31] == 294 && n.numbers[31] == 0x0102030405060727, "known notes");
    check_told(husk_notes_send(&n, &s, queue, sizeof queue), 0, 1, "a known ACK");
    require(n.count[0] == 0 && memcmp(queue + 5, first, 18) == 0, "its first bytes");
    require(queue[5 + 514 - 1] == 0x27 && queue[5 + 514] == HUSK_ACK, "its last bytes");
    drain(&s, &f, queue, sizeof queue, 0, 514 + 17);
}

static void check_class(HuskClass k, unsigned kind, unsigned description, size_t start, size_t length)
{
    require(k.kind == kind && k.refusal == 0 && k.description == description, "a known class");
    require(k.start == start && k.length == length, "a known class's place");
    require(kind == HUSK_CLASS_ACK || (k.marked == 0 && k.unacknowledged == 0 && k.saved == 0), "a known class has no marks");
}

/* A record sealed in epoch 3 as this number, read and dealt with; behind it lies half a plaintext record. */
static HuskClass dealt(HuskReceiving *s, HuskFlight *f, HuskSending *t, uint8_t number, const char *text, size_t n)
{
    uint8_t d[80] = {0x2F, 0, number, 0, (uint8_t)(n + HUSK_TAG)};
    size_t end = 5 + n + HUSK_TAG + 6;
    require(husk_receiving_begin_read(s, d, end).kind == HUSK_READING_MASK, "a known mask question");
    require(husk_receiving_mask(s, 0, 0, d, end).number == number, "a known opening question");
    memcpy(d + 5, text, n);
    require(husk_receiving_opened(s, 1, n, d, end).kind == HUSK_READING_OPENED, "a known reading");
    HuskClass k = husk_receiving_classify(s, f, t, d, end - 1);
    require(k.kind == HUSK_CLASS_REFUSED && k.refusal == HUSK_NO_QUESTION && k.length == 0, "a known wrong length");
    k = husk_receiving_classify(s, f, t, d, end);
    check_class(husk_receiving_classify(s, f, t, d, end), HUSK_CLASS_NOTHING, 0, 0, 0);
    HuskReading r = husk_receiving_read(s, d, end);
    require(r.kind == HUSK_READING_END && r.refusal == (k.kind == HUSK_CLASS_ALERT ? 0 : HUSK_TRUNCATED), "a known end");
    return k;
}

/* An empty handshake record, alert 90 and an ACK of (0, 0), all in plaintext; and a sealed record. */
static void known_plaintext(HuskReceiving *s, HuskFlight *f, HuskSending *t, int encrypted)
{
    uint8_t d[13 + 15 + 31 + 4] = {22, 0xFE, 0xFD, 0, 0, 0, 0, 0, 0, 0, 9, 0, 0, /**/ 21, 0xFE, 0xFD, 0, 0, 0, 0, 0, 0, 0, 9, 0, 2, 1, 90};
    const unsigned kinds[2][3] = {{HUSK_CLASS_HANDSHAKE, HUSK_CLASS_IGNORED, HUSK_CLASS_IGNORED},
        {HUSK_CLASS_UNPROTECTED, HUSK_CLASS_UNPROTECTED, HUSK_CLASS_UNPROTECTED}};
    memcpy(d + 28, "\x1A\xFE\xFD\0\0\0\0\0\0\0\x09\0\x12\0\x10", 15);
    memcpy(d + 59, "\x27\x07\0\0", 4);
    require(husk_receiving_begin_read(s, d, sizeof d).kind == HUSK_READING_PLAINTEXT, "a known reading");
    check_class(husk_receiving_classify(s, f, t, d, sizeof d), kinds[encrypted][0], 0, 13, 0);
    require(husk_receiving_read(s, d, sizeof d).kind == HUSK_READING_PLAINTEXT, "a known reading");
    check_class(husk_receiving_classify(s, f, t, d, sizeof d), kinds[encrypted][1], 0, 26, 2);
    require(husk_receiving_read(s, d, sizeof d).kind == HUSK_READING_PLAINTEXT, "a known reading");
    check_class(husk_receiving_classify(s, f, t, d, sizeof d), kinds[encrypted][2], 0, 41, 18);
    unsigned last = husk_receiving_read(s, d, sizeof d).kind;
    require(last == (encrypted ? HUSK_READING_DROPPED : HUSK_READING_UNOPENED), "a known sealed record");
    check_class(husk_receiving_classify(s, f, t, d, sizeof d), encrypted ? HUSK_CLASS_NOTHING : HUSK_CLASS_UNOPENED, 0, encrypted ? 0 : 63, 0);
}

/* Every class once. Three records are saved in epoch 0, of which a sealed ACK marks the first. */
static void known_classes(void)
{
    static uint8_t queue[576], kept[12 * 576];
    HuskReceiving s;
    HuskSending t;
    HuskFlight f;
    calling(RECEIVING_CLASSIFY);
    husk_flight_init(&f);
    require(husk_sending_init(&t, 576, 1) == 0 && husk_receiving_init(&s, 17) == 0 && husk_receiving_key(&s, 3, iv) == 0, "a known start");
    for (int i = 0; i < 3; i++)
        require(husk_flight_send(&f, &t, 0, HUSK_HANDSHAKE, iv, 3, queue, sizeof queue, kept, sizeof kept) == 0, "a known record");
    known_plaintext(&s, &f, &t, 0);
    require(husk_receiving_enable_encryption(&s) == 0, "a known start");
    known_plaintext(&s, &f, &t, 1);
    check_saved(&f, 3, 3);
    HuskClass k = dealt(&s, &f, &t, 1, "\0\x10\0\0\0\0\0\0\0\0\0\0\0\0\0\0\0\0\x1A", 19);
    check_class(k, HUSK_CLASS_ACK, 0, 5, 18);
    require(k.marked == 1 && k.unacknowledged == 2 && k.saved == 3, "a known ACK's marks");
    check_class(dealt(&s, &f, &t, 2, "\2\x28\x15", 3), HUSK_CLASS_ALERT, 40, 5, 2);
    check_class(dealt(&s, &f, &t, 3, "\0\x15", 2), HUSK_CLASS_IGNORED, 0, 5, 1);
    check_class(dealt(&s, &f, &t, 8, "\1\0\x15", 3), HUSK_CLASS_CLOSE, 0, 5, 2);
    require(s.pending[6] == 1 && s.pending[7] == 3 && s.pending[8] == 8, "a known close");
    require(husk_receiving_begin(&s, 20) == 0 && husk_receiving_key(&s, 4, iv) == 0, "a known beginning behind a close");
    check_class(dealt(&s, &f, &t, 9, "hi\x17", 3), HUSK_CLASS_BEYOND, 0, 5, 2);
    check_class(dealt(&s, &f, &t, 7, "hi\x17", 3), HUSK_CLASS_APPLICATION_DATA, 0, 5, 2);
    check_class(dealt(&s, &f, &t, 6, "hi\x63", 3), HUSK_CLASS_OTHER, 0, 5, 2);
    check_class(dealt(&s, &f, &t, 5, "hi\x16", 3), HUSK_CLASS_HANDSHAKE, 0, 5, 2);
    check_class(dealt(&s, &f, &t, 4, "\1\0\x15", 3), HUSK_CLASS_IGNORED, 0, 5, 2);
    require(s.pending[8] == 8, "a known close moved");
}

static void check_piece(HuskPiece a, unsigned kind, unsigned refusal, unsigned type, unsigned number, size_t length)
{
    require(a.kind == kind && a.refusal == refusal && a.msg_type == type, "a known piece");
    require(a.number == number && a.length == length, "a known piece's number and length");
}

/* Message 0 has no body. Message 1 is "abcde" in two pieces that overlap, the first of them twice. Behind them are a piece of message 9 and
 * two bytes of a header. */
static void known_assembly(void)
{
    static const uint8_t record[] = {8, 0, 0, 0, 0, 0, 0, 0, 0, 0, 0, 0, /**/ 11, 0, 0, 5, 0, 1, 0, 0, 2, 0, 0, 3, 'c', 'd', 'e', /**/
        11, 0, 0, 5, 0, 1, 0, 0, 2, 0, 0, 3, 'c', 'd', 'e', /**/ 11, 0, 0, 5, 0, 1, 0, 0, 0, 0, 0, 4, 'a', 'b', 'c', 'd', /**/
        3, 0, 0, 1, 0, 9, 0, 0, 0, 0, 0, 1, '!', /**/ 20, 0};
    static uint8_t buffer[HUSK_MESSAGE_ROOM];
    const size_t n = sizeof record;
    HuskAssembly s;
    calling(ASSEMBLY_TAKE);
    memset(&s, 0xFF, sizeof s);
    require(husk_assembly_begin(&s, n) == HUSK_OUT_OF_RANGE, "known words that are none");
    husk_assembly_init(&s);
    check_piece(husk_assembly_take(&s, record, n, buffer, sizeof buffer), HUSK_PIECE_REFUSED, HUSK_NO_QUESTION, 0, 0, 0);
    require(husk_assembly_begin(&s, n) == 0, "a known record");
    check_piece(husk_assembly_take(&s, record, n, buffer, sizeof buffer - 1), HUSK_PIECE_REFUSED, HUSK_BUFFER_TOO_SMALL, 0, 0, 16384);
    check_piece(husk_assembly_take(&s, record, n, buffer, sizeof buffer), HUSK_PIECE_MESSAGE, 0, 8, 0, 0);
    check_piece(husk_assembly_take(&s, record, n, buffer, sizeof buffer), HUSK_PIECE_HELD, 0, 0, 0, 0);
    check_piece(husk_assembly_take(&s, record, n, buffer, sizeof buffer), HUSK_PIECE_SAME, 0, 0, 0, 0);
    check_piece(husk_assembly_take(&s, record, n, buffer, sizeof buffer), HUSK_PIECE_MESSAGE, 0, 11, 1, 5);
    require(memcmp(buffer, "abcde", 6) == 0 && s.word[0] == 2 && s.word[1] == 0, "a known message");
    check_piece(husk_assembly_take(&s, record, n, buffer, sizeof buffer), HUSK_PIECE_OTHER, 0, 0, 9, 0);
    check_piece(husk_assembly_take(&s, record, n, buffer, sizeof buffer), HUSK_PIECE_REFUSED, HUSK_BAD_PIECE, 0, 0, 0);
    check_piece(husk_assembly_take(&s, record, n, buffer, sizeof buffer), HUSK_PIECE_END, 0, 0, 0, 0);
}

/* Of message 0, of type 11 with 5 bytes, "cd" is held at 2. Each piece is a record, with two bytes of a header behind it, that are reached if
 * the record goes on. */
static void known_disagreements(void)
{
    static const struct {
        uint8_t type, total, offset;
        const char *body;
        unsigned kind, refusal;
    } pieces[] = {{11, 5, 2, "cd", HUSK_PIECE_HELD, 0}, {11, 5, 2, "cd", HUSK_PIECE_SAME, 0}, {11, 5, 2, "cD", 0, 28},
        {11, 5, 2, "Cd", 0, 28}, {12, 5, 2, "cd", 0, 28}, {11, 4, 2, "cd", 0, 28}, {11, 6, 2, "cd", 0, 28}, {12, 5, 4, "e", 0, 28},
        {11, 6, 4, "e", 0, 28}, {12, 5, 0, "", 0, 28}, {11, 6, 5, "", 0, 28}, {11, 5, 0, "abX", 0, 28}, {11, 5, 1, "bcX", 0, 28},
        {11, 5, 3, "X", 0, 28}, {11, 6, 2, "cdef", 0, 24}, {11, 3, 2, "cd", 0, 24}, {11, 5, 3, "d", HUSK_PIECE_HELD, 0},
        {11, 5, 0, "AB", HUSK_PIECE_HELD, 0}, {11, 5, 0, "ABc", HUSK_PIECE_HELD, 0}, {11, 5, 0, "abc", 0, 28},
        {11, 5, 1, "Bcde", HUSK_PIECE_MESSAGE, 0}};
    static uint8_t buffer[HUSK_MESSAGE_ROOM];
    HuskAssembly s;
    calling(ASSEMBLY_TAKE);
    husk_assembly_init(&s);
    for (size_t i = 0; i < sizeof pieces / sizeof *pieces; i++) {
        size_t n = strlen(pieces[i].body);
        int out = pieces[i].kind == HUSK_PIECE_MESSAGE;
        uint8_t record[12 + 5 + 2] = {pieces[i].type, 0, 0, pieces[i].total, 0, 0, 0, 0, pieces[i].offset, 0, 0, (uint8_t)n};
        memcpy(record + 12, pieces[i].body, n);
        require(husk_assembly_begin(&s, 12 + n + 2) == 0, "a known record");
        HuskPiece a = husk_assembly_take(&s, record, 12 + n + 2, buffer, sizeof buffer);
        check_piece(a, pieces[i].kind, pieces[i].refusal, out ? 11 : 0, 0, out ? 5 : 0);
        a = husk_assembly_take(&s, record, 12 + n + 2, buffer, sizeof buffer);
        check_piece(a, pieces[i].refusal ? HUSK_PIECE_END : HUSK_PIECE_REFUSED, pieces[i].refusal ? 0 : HUSK_BAD_PIECE, 0, 0, 0);
    }
    require(memcmp(buffer, "ABcde", 6) == 0, "a known message behind disagreements");
}

/* 50 pieces of one byte are held; the fifty-first is refused, one that is held already is not, one with another byte disagrees, and the hole
 * stays. */
static void known_pieces(void)
{
    static uint8_t record[13] = {4, 0, 0, 200, 0, 0, 0, 0, 0, 0, 0, 1, 'p'}, buffer[HUSK_MESSAGE_ROOM];
    HuskAssembly s;
    calling(ASSEMBLY_TAKE);
    husk_assembly_init(&s);
    for (unsigned i = 0; i <= 50; i++) {
        record[8] = (uint8_t)(2 * i);
        require(husk_assembly_begin(&s, sizeof record) == 0, "a known record");
        check_piece(husk_assembly_take(&s, record, sizeof record, buffer, sizeof buffer), i < 50 ? HUSK_PIECE_HELD : HUSK_PIECE_REFUSED,
            i < 50 ? 0 : HUSK_TOO_MANY_PIECES, 0, 0, 0);
    }
    record[8] = 98;
    require(husk_assembly_begin(&s, sizeof record) == 0, "a known record");
    check_piece(husk_assembly_take(&s, record, sizeof record, buffer, sizeof buffer), HUSK_PIECE_SAME, 0, 0, 0, 0);
    record[12] = 'q';
    require(husk_assembly_begin(&s, sizeof record) == 0, "a known record");
    check_piece(husk_assembly_take(&s, record, sizeof record, buffer, sizeof buffer), HUSK_PIECE_REFUSED, HUSK_PIECES_DISAGREE, 0, 0, 0);
    require(s.word[1] == 50 && buffer[98] == 'p' && buffer[99] == 0 && buffer[100] == 0, "known pieces held");
}

/* Every refusal has a text of its own; other numbers have another. */
static void known_texts(void)
{
    for (unsigned i = 0; i <= HUSK_PIECES_DISAGREE + 1; i++)
        for (unsigned j = 0; j < i; j++)
            require(strcmp(husk_refusal_text((uint8_t)i), husk_refusal_text((uint8_t)j)) != 0, "a text that two refusals have");
    require(strcmp(husk_refusal_text(HUSK_PIECES_DISAGREE + 1), husk_refusal_text(255)) == 0, "a text for no refusal");
}

void known(void)
{
    known_receiving();
    known_first();
    known_window();
    known_removal();
    known_sending();
    known_mask_keys();
    known_mask_sent();
    known_queue();
    known_resends();
    known_flight();
    known_ack();
    known_classes();
    known_assembly();
    known_disagreements();
    known_pieces();
    known_texts();
}
