/* How far down the stack each call writes. Linked with --wrap around every call of the boundary driver in fuzz/, so that all its inputs are
 * measured, the refused ones too. */
#include <stdio.h>
#include <stdlib.h>
#include <string.h>

#include "huskelapse.h"
#include "paint.h"

enum { SHALLOW = 65536, DEEP = 1 << 20, CALLS = 34, OPENED = 9 };

static struct {
    const char *name;
    size_t deepest, painted;
    uint64_t calls;
} measured[CALLS];

/* Where all that is painted was written, more is painted from then on. */
static __attribute__((noinline)) void note(int call, const char *name, size_t painted, size_t written)
{
    measured[call].name = name;
    measured[call].calls++;
    measured[call].painted = painted * WORD;
    if (written == painted)
        measured[call].painted = DEEP;
    if (written * WORD > measured[call].deepest)
        measured[call].deepest = written * WORD;
}

#define MEASURE(call, name, made)                                                             \
    size_t words = (measured[call].calls == 0 ? SHALLOW : measured[call].painted) / WORD;     \
    volatile uint64_t *top = stack_pointer();                                                 \
    paint_below(top, words);                                                                  \
    made;                                                                                     \
    note(call, #name, words, written_below(top, words));

#define MEASURED(call, answer, name, parameters, arguments)         \
    answer __real_##name parameters;                                \
    answer __wrap_##name parameters;                                \
    answer __wrap_##name parameters                                 \
    {                                                               \
        MEASURE(call, name, answer a = __real_##name arguments)     \
        return a;                                                   \
    }

MEASURED(0, uint8_t, husk_receiving_init_words, (uint64_t *w, uint64_t *x, uint8_t *k, size_t n), (w, x, k, n))
MEASURED(1, uint8_t, husk_receiving_key_words, (uint64_t *w, uint8_t *k, uint16_t epoch, const uint8_t *iv), (w, k, epoch, iv))
MEASURED(32, uint8_t, husk_receiving_key_masked_words,
    (uint64_t *w, uint8_t *k, uint16_t epoch, const uint8_t *iv, const uint8_t *key, size_t kn), (w, k, epoch, iv, key, kn))
MEASURED(2, HuskTold, husk_receiving_remove_words, (uint64_t *w, uint8_t *k, uint16_t epoch), (w, k, epoch))
MEASURED(3, uint8_t, husk_receiving_enable_encryption, (HuskReceiving *s), (s))
MEASURED(4, uint8_t, husk_receiving_release_application_data, (HuskReceiving *s), (s))
MEASURED(5, uint8_t, husk_receiving_begin_words, (uint64_t *w, uint64_t *x, size_t n), (w, x, n))
MEASURED(6, HuskReading, husk_receiving_read_words, (uint64_t *w, uint64_t *x, const uint8_t *k, uint8_t *d, size_t n), (w, x, k, d, n))
MEASURED(7, HuskReading, husk_receiving_begin_read_words,
    (uint64_t *w, uint64_t *x, const uint8_t *k, uint8_t *d, size_t n), (w, x, k, d, n))
MEASURED(8, HuskReading, husk_receiving_mask, (HuskReceiving *s, uint8_t m0, uint8_t m1, uint8_t *d, size_t n), (s, m0, m1, d, n))
MEASURED(OPENED, HuskReading, husk_receiving_opened_words,
    (uint64_t *w, uint64_t *x, uint8_t opened, size_t len, const uint8_t *d, size_t n), (w, x, opened, len, d, n))
MEASURED(31, HuskClass, husk_receiving_classify_words,
    (uint64_t *w, uint64_t *x, uint64_t *f, uint64_t *m, const uint8_t *d, size_t n), (w, x, f, m, d, n))

MEASURED(10, uint8_t, husk_sending_init_words, (uint64_t *w, uint8_t *k, size_t mtu, size_t limit), (w, k, mtu, limit))
MEASURED(11, uint8_t, husk_sending_key_words, (uint64_t *w, uint8_t *k, uint16_t epoch, const uint8_t *iv), (w, k, epoch, iv))
MEASURED(33, uint8_t, husk_sending_key_masked_words,
    (uint64_t *w, uint8_t *k, uint16_t epoch, const uint8_t *iv, const uint8_t *key, size_t kn), (w, k, epoch, iv, key, kn))
MEASURED(12, uint8_t, husk_sending_send,
    (HuskSending *s, uint16_t epoch, uint8_t type, const uint8_t *c, size_t cn, uint8_t *q, size_t qn), (s, epoch, type, c, cn, q, qn))
MEASURED(13, HuskSealing, husk_sending_sealing, (const HuskSending *s), (s))
MEASURED(14, uint8_t, husk_sending_sealed_words,
    (uint64_t *w, const uint8_t *k, size_t len, uint8_t m0, uint8_t m1, uint8_t *q, size_t qn), (w, k, len, m0, m1, q, qn))
MEASURED(15, HuskTake, husk_sending_take, (HuskSending *s, uint8_t *b, size_t bn, const uint8_t *q, size_t qn), (s, b, bn, q, qn))
MEASURED(16, HuskPart, husk_sending_take_in_place, (HuskSending *s, const uint8_t *q, size_t qn), (s, q, qn))
MEASURED(17, HuskQueued, husk_sending_status, (const HuskSending *s), (s))

MEASURED(18, uint8_t, husk_flight_begin_words, (uint64_t *f), (f))
MEASURED(19, uint8_t, husk_flight_send_words,
    (HuskSending *s, uint64_t *f, uint64_t *m, uint16_t epoch, uint8_t type, const uint8_t *c, size_t cn, uint8_t *q, size_t qn,
        uint8_t *k, size_t kn),
    (s, f, m, epoch, type, c, cn, q, qn, k, kn))
MEASURED(20, uint8_t, husk_flight_message_words,
    (HuskSending *s, uint64_t *f, uint64_t *m, uint8_t type, const uint8_t *c, size_t cn, uint8_t *q, size_t qn, uint8_t *k, size_t kn),
    (s, f, m, type, c, cn, q, qn, k, kn))
MEASURED(21, HuskTold, husk_flight_resend_words,
    (HuskSending *s, uint64_t *f, uint64_t *m, const uint8_t *k, size_t kn, uint8_t *q, size_t qn), (s, f, m, k, kn, q, qn))
MEASURED(22, HuskAcked, husk_flight_ack_words, (uint64_t *f, uint64_t *m, const uint8_t *c, size_t cn), (f, m, c, cn))
MEASURED(23, HuskSaved, husk_flight_status_words, (const uint64_t *f), (f))
MEASURED(24, HuskTold, husk_notes_add_words, (uint64_t *count, uint64_t *epochs, uint64_t *numbers, uint64_t epoch, uint64_t number),
    (count, epochs, numbers, epoch, number))
MEASURED(25, HuskTold, husk_notes_send_words,
    (HuskSending *s, uint64_t *count, uint64_t *epochs, uint64_t *numbers, uint8_t *q, size_t qn), (s, count, epochs, numbers, q, qn))

#define MEASURED_SILENT(call, name, parameters, arguments)          \
    void __real_##name parameters;                                  \
    void __wrap_##name parameters;                                  \
    void __wrap_##name parameters                                   \
    {                                                               \
        MEASURE(call, name, __real_##name arguments)                \
    }

MEASURED_SILENT(26, husk_flight_init_words, (uint64_t *f, uint64_t *m), (f, m))
MEASURED_SILENT(27, husk_notes_init_words, (uint64_t *count, uint64_t *epochs, uint64_t *numbers), (count, epochs, numbers))

MEASURED_SILENT(28, husk_assembly_init, (HuskAssembly *s), (s))
MEASURED(29, uint8_t, husk_assembly_begin, (HuskAssembly *s, size_t n), (s, n))
MEASURED(30, HuskPiece, husk_assembly_take, (HuskAssembly *s, const uint8_t *c, size_t cn, uint8_t *b, size_t bn), (s, c, cn, b, bn))

/* ---- padding: records that fill a datagram, with a header of two bytes */

/* FIRST_BYTE: epoch 3, a number of 8 bits, no length. */
enum { DATAGRAM = 16384, HEADER = 2, FIRST_BYTE = 0x23, LONGEST = DATAGRAM - HEADER - 1 - HUSK_TAG };

/* A receive side that reads records of epoch 3. */
static void reading(HuskReceiving *s)
{
    static const uint8_t iv[12];
    husk_receiving_init(s, HUSK_TAG);
    husk_receiving_key(s, 3, iv);
    husk_receiving_enable_encryption(s);
    husk_receiving_release_application_data(s);
}

/* How far down the opening writes of a record with so much content, its type, and zeros up to the end; of type 0, all are zeros. */
static size_t opened(HuskReceiving *s, uint8_t number, size_t content, uint8_t type)
{
    static uint8_t d[DATAGRAM];
    memset(d, 0, sizeof d);
    d[0] = FIRST_BYTE;
    d[1] = number;
    memset(d + HEADER, 0x55, content);
    d[HEADER + content] = type;
    husk_receiving_begin_read(s, d, sizeof d);
    HuskReading r = husk_receiving_mask(s, 0, 0, d, sizeof d);
    measured[OPENED].deepest = 0;
    r = husk_receiving_opened(s, 1, r.length - HUSK_TAG, d, sizeof d);
    if (r.kind != (type == 0 ? HUSK_READING_DROPPED : HUSK_READING_OPENED) || r.length != content) {
        fprintf(stderr, "bench/run: a record of type %d with %zu bytes of content is not read as it was written\n", type, content);
        exit(1);
    }
    return measured[OPENED].deepest;
}

static void tell_padding(void)
{
    static HuskReceiving s;
    size_t none, longest, zeros;
    uint8_t number = 0;
    reading(&s);
    /* Twice, since the first may write all that is painted. */
    for (int i = 0; i < 2; i++) {
        none = opened(&s, number++, LONGEST, HUSK_APPLICATION_DATA);
        longest = opened(&s, number++, 0, HUSK_APPLICATION_DATA);
        zeros = opened(&s, number++, 0, 0);
    }
    fprintf(stderr, "a record of %d bytes, opened: %zu bytes without padding, %zu with %d zeros, %zu with zeros alone\n", DATAGRAM, none,
        longest, LONGEST, zeros);
    if (longest != none || zeros > none) {
        fprintf(stderr, "bench/run: the stack grows with the padding\n");
        exit(1);
    }
}

/* ---- all calls */

static void tell(void)
{
    for (int i = 0; i < CALLS; i++)
        if (measured[i].calls > 0)
            fprintf(stderr, "%-40s %8zu bytes%s in %llu calls\n", measured[i].name, measured[i].deepest,
                measured[i].deepest == DEEP ? " or more" : "", (unsigned long long)measured[i].calls);
}

__attribute__((constructor)) static void before_main(void)
{
    tell_padding();
    atexit(tell);
}
