/* A host over the record layer's C interface: takes a session as flatten.py writes it, answers the layer's questions with OpenSSL's
 * ciphers and the session's keys, and compares every reading, what is done with it and every record written. Exit status 0 if all agree, 1
 * if one differs, 2 if the input is bad. */
#define _POSIX_C_SOURCE 200809L

#include <inttypes.h>
#include <stdarg.h>
#include <stdio.h>
#include <stdlib.h>
#include <string.h>

#include "host.h"

typedef struct {
    HuskReceiving layer;
    Keys keys[EPOCHS];
} Receiver;

static char name[64] = "?";
/* Why a record is expected to be dropped: a word of the lines, and what the report says of it. */
static const struct {
    const char *word, *text;
} reasons[] = {
    {"replayed", "refused as replayed"},
    {"old", "refused as too old"},
    {"far", "out of reach"},
    {"left", "of an epoch left"},
    {"unopened", "not opened, as expected"},
    {"early", "not covered: early data (epoch 1)"},
    {"short-tag", "not covered: tags of 8 bytes"},
};
enum { REPLAYED, OLD, REASONS = sizeof reasons / sizeof *reasons };

typedef struct {
    size_t datagrams, oversized, cut_short, opened, plaintext, dropped[REASONS];
} Counts;

const char *const side_names[2] = {"client", "server"};
static Receiver receivers[2];
static uint8_t datagram[ROOM];
static size_t datagram_len, line_number;
/* As the session was delivered; read again with each close first, of which only what is done with readings is reported; delivered once more,
 * of which only what is refused by the window is. */
enum { DELIVERED, CLOSE_FIRST, AGAIN, PASSES };
static int pass;
static Counts counts[PASSES];
static char spoiled[16];
/* Whether number keys of ChaCha20 suites go to the layer as mask keys, and how many openings were then asked for without a mask. */
static int mask_keys;
static size_t masked;

void stop(int status, const char *format, ...)
{
    va_list values;
    printf("%s: line %zu: ", name, line_number);
    va_start(values, format);
    vprintf(format, values);
    va_end(values);
    printf("\n");
    exit(status);
}

size_t bytes_of(const char *text, uint8_t *out, size_t room)
{
    size_t n = 0;
    if (strcmp(text, "-") == 0)
        return 0;
    for (; text[0] && text[1]; text += 2) {
        char pair[3] = {text[0], text[1], 0};
        if (n == room)
            stop(2, "too many bytes");
        out[n++] = (uint8_t)strtoul(pair, NULL, 16);
    }
    return n;
}

uint64_t number_at(const uint8_t *d, size_t n)
{
    uint64_t value = 0;
    for (size_t i = 0; i < n; i++)
        value = value << 8 | d[i];
    return value;
}

/* ---- the layer */

void take(uint8_t answer)
{
    if (answer != 0)
        stop(1, "a call is refused by %u", answer);
}

/* The reply to an opening. Behind a tag that is not of 16 bytes the plaintext has a length that must be refused; the record is then
 * dropped. */
static HuskReading open_record(Receiver *r, HuskReading q, uint8_t *d, size_t n)
{
    const Keys *keys = &r->keys[q.epoch % EPOCHS];
    int ok = open_part(keys, q.nonce, d + q.start, q.header_len, d + q.start + q.header_len, q.length);
    if (ok && keys->tag != HUSK_TAG) {
        HuskReading refused = husk_receiving_opened(&r->layer, 1, q.length - keys->tag, d, n);
        if (refused.kind != HUSK_READING_REFUSED || refused.refusal != HUSK_NO_QUESTION)
            stop(1, "a plaintext without a tag of 16 bytes is not refused");
        ok = 0;
    }
    return husk_receiving_opened(&r->layer, ok ? 1 : 0, q.length - HUSK_TAG, d, n);
}

/* The reply to a mask, which is not asked for in an epoch with a mask key. */
static HuskReading mask_record(Receiver *r, HuskReading q, uint8_t *d, size_t n)
{
    const Keys *keys = &r->keys[q.epoch % EPOCHS];
    uint8_t mask[2];
    if (keys->masked)
        stop(1, "a mask is asked for in epoch %u, which has a mask key", q.epoch);
    mask_of(keys, d + q.start, mask);
    return husk_receiving_mask(&r->layer, mask[0], mask[1], d, n);
}

/* The next reading of a begun datagram: the layer's questions are answered. */
static HuskReading next(Receiver *r, uint8_t *d, size_t n)
{
    HuskReading q = husk_receiving_read(&r->layer, d, n);
    if (q.kind == HUSK_READING_MASK)
        q = mask_record(r, q, d, n);
    else if (q.kind == HUSK_READING_OPENING)
        masked++;
    return q.kind == HUSK_READING_OPENING ? open_record(r, q, d, n) : q;
}

/* ---- the session */

/* The record of a line that is to be read; whether the line is of one. */
static int read_expected(const char *line, Expected *r)
{
    static uint8_t bytes[ROOM];
    if (sscanf(line, "opened %u %" SCNu64 " %u %zu", &r->epoch, &r->number, &r->content_type, &r->start) == 4)
        r->sealed = 1;
    else if (sscanf(line, "plaintext %" SCNu64 " %u %zu", &r->number, &r->content_type, &r->start) != 3)
        return 0;
    r->length = bytes_of(strrchr(line, ' ') + 1, bytes, sizeof bytes);
    r->content = bytes;
    return 1;
}

static void check_content(const HuskReading *got, const Expected *want, const uint8_t *d)
{
    if (got->number != want->number)
        stop(1, "another number");
    if (got->content_type != want->content_type)
        stop(1, "another content type");
    if (got->start != want->start || got->length != want->length || memcmp(d + want->start, want->content, want->length) != 0)
        stop(1, "another content");
}

/* The reading must be the record. The layer deals with it, and what is of the handshake is put together, also what is dropped there. */
static void expect_record(Receiver *r, const HuskReading *got, const Expected *want, const uint8_t *d, size_t n)
{
    unsigned side = (unsigned)(r - receivers);
    if (want->sealed && (got->kind != HUSK_READING_OPENED || got->epoch != want->epoch))
        stop(1, "no record of this epoch is opened");
    if (!want->sealed && got->kind != HUSK_READING_PLAINTEXT)
        stop(1, "no plaintext record is read");
    check_content(got, want, d);
    classes_deal(side, &r->layer, want, d, n);
    if (want->content_type == HUSK_HANDSHAKE && pass == DELIVERED)
        messages_record(side, d + got->start, got->length);
    if (want->sealed)
        counts[pass].opened++;
    else
        counts[pass].plaintext++;
}

/* What the layer tells, changed as a control asks for it. */
static uint8_t told(uint8_t refusal)
{
    if (strcmp(spoiled, "seen") == 0 && refusal == HUSK_TOO_OLD)
        return HUSK_SEEN;
    if (strcmp(spoiled, "old") == 0 && refusal == HUSK_SEEN)
        return HUSK_TOO_OLD;
    return refusal;
}

/* The record must be dropped by one of the refusals of the line, and is counted by its reason. */
static void expect_dropped(const HuskReading *got, const char *line)
{
    char word[16];
    unsigned refusal;
    int at = 0, next = 0, why = 0;
    if (sscanf(line, "dropped %15s%n", word, &at) != 1)
        stop(2, "bad line");
    while (why < REASONS && strcmp(word, reasons[why].word) != 0)
        why++;
    if (why == REASONS)
        stop(2, "bad line");
    if (got->kind == HUSK_READING_OPENED)
        stop(1, "a record opens that must not (%s)", word);
    for (; sscanf(line + at, " %u%n", &refusal, &next) == 1; at += next)
        if (got->kind == HUSK_READING_DROPPED && told(got->refusal) == refusal) {
            counts[pass].dropped[why]++;
            return;
        }
    stop(1, "a record that must be dropped (%s) is answered by kind %u, refusal %u", word, got->kind, told(got->refusal));
}

static int is_end(const char *line)
{
    return strcmp(line, "end") == 0 || strncmp(line, "end ", 4) == 0;
}

static void expect_end(const HuskReading *got, const char *line)
{
    unsigned refusal = 0;
    sscanf(line, "end %u", &refusal);
    if (got->kind != HUSK_READING_END || got->refusal != refusal)
        stop(1, "the datagram does not end by %u", refusal);
    counts[pass].cut_short += refusal != 0;
}

static void expect(Receiver *r, uint8_t *d, size_t n, const char *line)
{
    Expected want = {0};
    HuskReading got = next(r, d, n);
    if (read_expected(line, &want)) {
        expect_record(r, &got, &want, d, n);
        return;
    }
    if (strncmp(line, "dropped ", 8) == 0)
        expect_dropped(&got, line);
    else if (is_end(line))
        expect_end(&got, line);
    else
        stop(2, "bad line");
    classes_none((unsigned)(r - receivers), &r->layer, d, n);
}

static void written(char *line)
{
    static uint8_t bytes[ROOM], content[ROOM];
    Captured r = {.bytes = bytes, .content = content};
    char *last = strrchr(line, ' ');
    unsigned side;
    int at = 0, words = sscanf(line, "write %u %u %" SCNu64 " %u %n", &side, &r.epoch, &r.number, &r.content_type, &at);
    if (words != 4 || side > 1 || last <= line + at)
        stop(2, "bad line");
    *last = 0;
    r.length = bytes_of(line + at, bytes, sizeof bytes);
    r.content_len = bytes_of(last + 1, content, sizeof content);
    writer_record(side, &r);
}

static void sent(const char *line)
{
    static uint8_t body[ROOM];
    unsigned side, type;
    if (sscanf(line, "message %u %u", &side, &type) != 2 || side > 1)
        stop(2, "bad line");
    messages_sent(side, type, body, bytes_of(strrchr(line, ' ') + 1, body, sizeof body));
}

static uint8_t key_receiver(Receiver *r, unsigned epoch, const Keys *keys)
{
    r->keys[epoch % EPOCHS] = *keys;
    if (keys->masked)
        return husk_receiving_key_masked(&r->layer, (uint16_t)epoch, keys->iv, keys->sn_key, sizeof keys->sn_key);
    return husk_receiving_key(&r->layer, (uint16_t)epoch, keys->iv);
}

static void key(const char *line)
{
    static char suite[64], key_text[128], iv_text[64], sn_text[128];
    unsigned side, epoch;
    int receive = strncmp(line, "key-receive", 11) == 0;
    Keys keys;
    if (sscanf(line, "%*s %u %u %63s %127s %63s %127s", &side, &epoch, suite, key_text, iv_text, sn_text) != 6 || side > 1)
        stop(2, "bad line");
    keys = keys_of(suite, key_text, iv_text, sn_text);
    keys.masked = mask_keys && is_mask_key(&keys);
    if (receive)
        take(key_receiver(&receivers[side], epoch, &keys));
    else
        writer_key(side, epoch, &keys);
}

static void begin_receivers(void)
{
    for (int side = 0; side < 2; side++)
        take(husk_receiving_init(&receivers[side].layer, HUSK_TAG + 1));
}

/* A line that may stand in front of any record; whether it is one. */
static int set_up(const char *line)
{
    unsigned side, epoch;
    if (strncmp(line, "key-", 4) == 0) {
        key(line);
    } else if (sscanf(line, "encrypt %u", &side) == 1 && side < 2) {
        take(husk_receiving_enable_encryption(&receivers[side].layer));
        classes_encrypted(side);
    } else if (sscanf(line, "remove %u %u", &side, &epoch) == 2 && side < 2) {
        take(husk_receiving_remove(&receivers[side].layer, (uint16_t)epoch).refusal);
    } else if (sscanf(line, "release %u", &side) == 1 && side < 2) {
        take(husk_receiving_release_application_data(&receivers[side].layer));
    } else {
        return 0;
    }
    return 1;
}

/* The datagram of a line, captured or made of one record under the receiver's keys; the receiver, none for another line. */
static Receiver *begin_datagram(const char *line)
{
    static uint8_t content[ROOM];
    Expected r = {.sealed = 1, .content = content};
    const char *last = strrchr(line, ' ');
    unsigned side;
    if (sscanf(line, "made %u %u %" SCNu64 " %u", &side, &r.epoch, &r.number, &r.content_type) == 4 && side < 2) {
        r.length = bytes_of(last + 1, content, sizeof content);
        datagram_len = seal_record(&receivers[side].keys[r.epoch % EPOCHS], &r, datagram, sizeof datagram);
    } else if (sscanf(line, "datagram %u", &side) == 1 && side < 2) {
        datagram_len = bytes_of(last + 1, datagram, sizeof datagram);
    } else {
        return NULL;
    }
    take(husk_receiving_begin(&receivers[side].layer, datagram_len));
    counts[pass].datagrams++;
    return &receivers[side];
}

/* A line outside of a datagram that begins none. */
static void step(char *line)
{
    unsigned side;
    size_t length;
    if (sscanf(line, "session %63s", name) == 1)
        return;
    if (strncmp(line, "write ", 6) == 0) {
        written(line);
    } else if (strncmp(line, "message ", 8) == 0) {
        sent(line);
    } else if (strncmp(line, "spoil ", 6) == 0) {
        snprintf(spoiled, sizeof spoiled, "%s", line + 6);
        messages_spoil(line + 6);
        classes_spoil(line + 6);
    } else if (strcmp(line, "close-first") == 0) {
        pass = CLOSE_FIRST;
        begin_receivers();
        classes_close_first();
    } else if (strcmp(line, "again") == 0) {
        pass = AGAIN;
    } else if (strcmp(line, "mask-keys") == 0) {
        mask_keys = 1;
    } else if (sscanf(line, "take %u", &side) == 1 && side < 2) {
        writer_take(side);
    } else if (sscanf(line, "oversize %u %zu", &side, &length) == 2 && side < 2) {
        if (husk_receiving_begin(&receivers[side].layer, length) != HUSK_DATAGRAM_TOO_LONG)
            stop(1, "a datagram over %d bytes is not refused", LONGEST);
        counts[pass].oversized++;
    } else {
        stop(2, "bad line");
    }
}

static void report(void)
{
    const Counts *c = &counts[0];
    printf("%s: agrees: %zu datagrams, %zu records opened, %zu in plaintext", name, c->datagrams, c->opened, c->plaintext);
    for (int why = 0; why < REASONS; why++)
        if (why == REPLAYED || c->dropped[why] > 0)
            printf(", %zu %s", c->dropped[why], reasons[why].text);
    if (c->cut_short > 0)
        printf(", %zu datagrams ended by a seventeenth reading", c->cut_short);
    if (c->oversized > 0)
        printf(", %zu datagrams over %d bytes refused", c->oversized, LONGEST);
    const Counts *late = &counts[AGAIN];
    if (late->datagrams > 0)
        printf("; delivered again: %zu refused as replayed, %zu as too old", late->dropped[REPLAYED], late->dropped[OLD]);
    writer_report();
    printf("\n");
    messages_report(name);
    classes_report(name);
    if (mask_keys)
        printf("%s: mask keys: %zu openings asked for without a mask, %zu records sealed with another mask brought\n", name, masked,
            writer_masked());
}

int main(void)
{
    char *line = NULL;
    size_t room = 0;
    Receiver *reading = NULL;
    int done = 0;
    begin_receivers();
    classes_begin();
    writer_begin();
    messages_begin();
    while (getline(&line, &room, stdin) > 0) {
        line_number++;
        line[strcspn(line, "\n")] = 0;
        if (strcmp(line, "done") == 0) {
            done = 1;
        } else if (set_up(line)) {
            continue;
        } else if (reading) {
            expect(reading, datagram, datagram_len, line);
            if (is_end(line))
                reading = NULL;
        } else if (!(reading = begin_datagram(line))) {
            step(line);
        }
    }
    free(line);
    if (!done || counts[0].datagrams == 0 || reading || !writer_done())
        stop(2, "the session is cut off");
    messages_reorder();
    report();
    return 0;
}
