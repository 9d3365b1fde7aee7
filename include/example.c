/* The examples in C, run: reading.inc reads a datagram, sending.inc sends a record, masks.inc one whose mask the library makes, flight.inc
 * sends a message until it is acknowledged, assembly.inc puts one together, notes.inc acknowledges (include/example cuts them out of
 * README.md). The cipher is a toy, which seals nothing from anyone, and ends the program where it is asked without end.
 *
 * Exit status: 0 all do what README says; 1 one does not. */
#include <stdio.h>
#include <stdlib.h>
#include <string.h>

#include "huskelapse.h"

enum { ROOM = 1200, MOST_QUESTIONS = 16 };

static const uint8_t iv[12] = {1, 2, 3, 4, 5, 6, 7, 8, 9, 10, 11, 12};
static const uint8_t text[] = "14.2 kWh";
static unsigned questions, used, hung_up;
static const char *told;
/* What the cipher answers where the tag is wrong: 0, or what is left of a -1. */
static uint8_t wrong_tag = 0;
static int seal_fails = 0;

static void need(int holds, const char *what)
{
    if (!holds) {
        fprintf(stderr, "example: %s\n", what);
        exit(1);
    }
}

/* ---- a toy cipher */

static void mix(uint8_t tag[HUSK_TAG], const uint8_t *p, size_t n)
{
    for (size_t i = 0; i < n; i++)
        for (size_t k = 0; k < HUSK_TAG; k++)
            tag[k] = (uint8_t)(tag[k] * 31u + (p[i] ^ k) + tag[(k + 1) % HUSK_TAG]);
}

static void tag_of(const uint8_t *nonce, const uint8_t *header, size_t header_len, const uint8_t *p, size_t n, uint8_t tag[HUSK_TAG])
{
    memset(tag, 0, HUSK_TAG);
    mix(tag, nonce, 12);
    mix(tag, header, header_len);
    mix(tag, p, n);
}

static void turn(uint8_t *p, size_t n, const uint8_t *nonce)
{
    for (size_t i = 0; i < n; i++)
        p[i] ^= (uint8_t)(nonce[i % 12] + i);
}

static void mask_of(uint16_t epoch, const uint8_t *sample, uint8_t mask[2])
{
    need(++questions <= MOST_QUESTIONS, "the same question is read for ever");
    mask[0] = (uint8_t)(sample[0] + epoch);
    mask[1] = (uint8_t)(sample[1] * 3 + 1);
}

static uint8_t open_in_place(uint16_t epoch, const uint8_t *nonce, uint8_t *header, size_t header_len, size_t length)
{
    uint8_t *part = header + header_len, tag[HUSK_TAG];
    size_t n = length - HUSK_TAG;
    need(++questions <= MOST_QUESTIONS, "the same question is read for ever");
    need(epoch == 3, "an opening of another epoch");
    tag_of(nonce, header, header_len, part, n, tag);
    if (memcmp(tag, part + n, HUSK_TAG) != 0)
        return wrong_tag;
    turn(part, n, nonce);
    return 1;
}

static int seal_in_place(uint16_t epoch, const uint8_t *nonce, const uint8_t *header, size_t header_len, uint8_t *part, size_t length)
{
    size_t n = length - HUSK_TAG;
    need(epoch == 3, "a sealing of another epoch");
    if (seal_fails)
        return 0;
    turn(part, n, nonce);
    tag_of(nonce, header, header_len, part, n, part + n);
    return 1;
}

/* ---- the host */

static void use(const uint8_t *content, size_t n)
{
    need(n == sizeof text && memcmp(content, text, n) == 0, "another record than was sent");
    used++;
}

static void hang_up(uint8_t description)
{
    need(description == 0, "another alert than was sent");
    hung_up++;
}

static void tell(const char *refusal)
{
    told = refusal;
}

static void read_example(uint8_t *d, size_t n)
{
    HuskSending t;
    HuskFlight f;
    need(husk_sending_init(&t, 1200, 1) == HUSK_DONE, "no sending side");
    husk_flight_init(&f);
#include "reading.inc"
}

/* The bytes of the datagram; none where it cannot be taken. */
static size_t send_example(const uint8_t *content, size_t n, uint8_t out[ROOM])
{
#include "sending.inc"
    need(t.kind == (seal_fails ? HUSK_TAKE_REFUSED : HUSK_TAKE_TAKEN), "a datagram that is not sealed goes out, or one that is does not");
    if (t.kind == HUSK_TAKE_REFUSED)
        return 0;
    memcpy(out, datagram, t.length);
    return t.length;
}

/* Reads a copy of a datagram with one byte changed, or none; how often a record was used, and which refusal was told. */
static void check_reading(const uint8_t *d, size_t n, size_t at, uint8_t change, unsigned times, const char *refusal)
{
    uint8_t copy[ROOM];
    memcpy(copy, d, n);
    copy[at] ^= change;
    questions = used = hung_up = 0;
    told = NULL;
    read_example(copy, n);
    need(hung_up == 0, "a close is told that was not sent");
    need(used == times, times == 0 ? "a record is used that was not opened" : "the record is not used");
    need(refusal == NULL || (told != NULL && strcmp(told, refusal) == 0), "the refusal is not told");
}

/* A close in a sealed record, then in plaintext, which anyone can write. */
static void check_close(void)
{
    static const uint8_t close[] = {1, 0};
    static uint8_t queue[ROOM], forged[] = {HUSK_ALERT, 0xFE, 0xFD, 0, 0, 0, 0, 0, 0, 0, 0, 0, 2, 1, 0};
    HuskSending s;
    HuskFlight f;
    uint8_t mask[2], d[ROOM];
    husk_flight_init(&f);
    need(husk_sending_init(&s, ROOM, 1) == HUSK_DONE && husk_sending_key(&s, 3, iv) == HUSK_DONE, "no sending side");
    need(husk_sending_send(&s, 3, HUSK_ALERT, close, sizeof close, queue, sizeof queue) == HUSK_DONE, "no close is queued");
    HuskSealing q = husk_sending_sealing(&s);
    seal_in_place(q.epoch, q.nonce, q.header, sizeof q.header, queue + q.start, q.length);
    questions = used = hung_up = 0;
    mask_of(q.epoch, queue + q.start, mask);
    need(husk_sending_sealed(&s, &f, q.length, mask[0], mask[1], queue, sizeof queue) == HUSK_DONE, "no close is sealed");
    HuskTake t = husk_sending_take(&s, d, sizeof d, queue, sizeof queue);
    read_example(d, t.length);
    need(used == 0 && hung_up == 1, "a close is not told");
    read_example(forged, sizeof forged);
    need(used == 0 && hung_up == 1, "a close in plaintext is told");
}

/* ---- masks that the library makes */

/* Reads a datagram of one record that was sealed with a mask key: its opening is asked for at once. */
static void check_masked(HuskReceiving *in, uint8_t *d, size_t n)
{
    HuskReading r = husk_receiving_begin_read(in, d, n);
    need(r.kind == HUSK_READING_OPENING && r.epoch == 3 && r.number == 0, "a mask is asked for, or another number is read");
    uint8_t ok = open_in_place(r.epoch, r.nonce, d + r.start, r.header_len, r.length);
    r = husk_receiving_opened(in, ok, r.length - HUSK_TAG, d, n);
    need(r.kind == HUSK_READING_OPENED, "the record is not opened");
    use(d + r.start, r.length);
}

static void masks_example(const uint8_t *content, size_t n)
{
    static const uint8_t sn_key_in[HUSK_MASK_KEY] = {1, 2, 3}, sn_key_out[HUSK_MASK_KEY] = {1, 2, 3};
    static uint8_t queue[ROOM];
    const uint8_t *iv_in = iv, *iv_out = iv;
    uint8_t d[ROOM];
    HuskReceiving in;
    HuskSending out;
    HuskFlight f;
    need(husk_receiving_init(&in, 17) == HUSK_DONE && husk_sending_init(&out, ROOM, 1) == HUSK_DONE, "no two directions");
    husk_receiving_enable_encryption(&in);
    husk_flight_init(&f);
#include "masks.inc"
    questions = used = 0;
    HuskTake t = husk_sending_take(&out, d, sizeof d, queue, sizeof queue);
    need(t.kind == HUSK_TAKE_TAKEN, "the record is not sealed");
    check_masked(&in, d, t.length);
    need(used == 1, "the record is not used");
    need(husk_receiving_key_masked(&in, 4, iv, sn_key_in, sizeof sn_key_in - 1) == HUSK_BAD_MASK_KEY, "27 is not told");
}

/* ---- a message until it is acknowledged, and the ACK */

enum { MTU = 1200, LIMIT = 4 };

static int timer;

static void start_timer(void)
{
    timer = 1;
}

static void stop_timer(void)
{
    timer = 0;
}

static void begin(HuskSending *s, HuskFlight *f)
{
    need(husk_sending_init(s, MTU, LIMIT) == HUSK_DONE && husk_sending_key(s, 2, iv) == HUSK_DONE, "no sending side");
    husk_flight_init(f);
}

static void flight_example(void)
{
    static uint8_t queue[LIMIT * MTU], kept[12 * MTU], body[1000];
    /* The message's one record, by the number of its first sending. */
    static const uint8_t ack[18] = {0, 16, 0, 0, 0, 0, 0, 0, 0, 2};
    size_t n = sizeof body, ack_len = sizeof ack;
    HuskSending s;
    HuskFlight f;
    begin(&s, &f);
#include "flight.inc"
    need(again.refusal == HUSK_DONE && again.told == 1, "the message's one record is not sent again");
    need(acked.marked == 1 && acked.saved == 0 && !timer, "the timer is not stopped");
    need(husk_flight_status(&f).saved == 0 && husk_sending_status(&s).waiting == 2, "another status than two sealings and no flight");
}

/* ---- a message from its pieces */

static unsigned acted;

static void act(uint8_t msg_type, const uint8_t *body, size_t n)
{
    need(msg_type == 11 && n == 8 && memcmp(body, text, n) == 0, "another message than was sent");
    acted++;
}

static void assembly_example(const uint8_t *content, size_t n)
{
#include "assembly.inc"
}

/* Two pieces of message 0, of type 11 with 8 bytes. */
static const uint8_t first[] = {11, 0, 0, 8, 0, 0, 0, 0, 0, 0, 0, 5, '1', '4', '.', '2', ' '};
static const uint8_t second[] = {11, 0, 0, 8, 0, 0, 0, 0, 5, 0, 0, 3, 'k', 'W', 'h'};

/* A record with the second piece, the same again, and the first; then this record cut off anywhere. */
static void check_assembly(void)
{
    uint8_t content[2 * sizeof second + sizeof first];
    memcpy(content, second, sizeof second);
    memcpy(content + sizeof second, second, sizeof second);
    memcpy(content + 2 * sizeof second, first, sizeof first);
    for (size_t n = 0; n <= sizeof content; n++) {
        int whole = n == sizeof content, cut = !whole && n != 0 && n != sizeof second && n != 2 * sizeof second;
        acted = 0;
        told = NULL;
        assembly_example(content, n);
        need(acted == (unsigned)whole, whole ? "the message does not come out" : "a message comes out that is not whole");
        need(cut ? told != NULL && strcmp(told, husk_refusal_text(HUSK_BAD_PIECE)) == 0 : told == NULL, "24 is told wrongly");
    }
}

/* The second piece comes again with a byte changed: the record ends there, and the first piece behind it is left out. */
static void check_disagreement(void)
{
    uint8_t content[2 * sizeof second + sizeof first];
    memcpy(content, second, sizeof second);
    memcpy(content + sizeof second, second, sizeof second);
    memcpy(content + 2 * sizeof second, first, sizeof first);
    content[2 * sizeof second - 1] ^= 1;
    acted = 0;
    told = NULL;
    assembly_example(content, sizeof content);
    need(acted == 0 && told != NULL && strcmp(told, husk_refusal_text(HUSK_PIECES_DISAGREE)) == 0, "28 is not told");
}

static void notes_example(void)
{
    static uint8_t queue[LIMIT * MTU];
    HuskReading r = {.kind = HUSK_READING_OPENED, .epoch = 2, .number = 0};
    HuskSending s;
    HuskFlight f;
    HuskNotes notes;
    begin(&s, &f);
    husk_notes_init(&notes);
#include "notes.inc"
    need(sent.refusal == HUSK_DONE && sent.told == 1 && husk_sending_status(&s).queued == 1, "no ACK is queued");
}

int main(void)
{
    uint8_t d[ROOM];
    size_t n = send_example(text, sizeof text, d);
    check_reading(d, n, 0, 0, 1, NULL);
    need(told == NULL, "a refusal where nothing is refused");
    for (size_t at = 0; at < n; at++)
        check_reading(d, n, at, 0x40, 0, NULL);
    check_close();
    masks_example(text, sizeof text);
    wrong_tag = 255;
    check_reading(d, n, n - 1, 0x40, 0, husk_refusal_text(HUSK_OUT_OF_RANGE));
    seal_fails = 1;
    need(send_example(text, sizeof text, d) == 0, "a record that could not be sealed goes out");
    flight_example();
    check_assembly();
    check_disagreement();
    notes_example();
    return 0;
}
