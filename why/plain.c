/* Why each record of a receive history was left out: what the program `why` answers, in plain C, as a second opinion (why/test) and to hold
 * its speed against (bench/run --why).
 *
 *   plain < HISTORY
 *
 * With DIGITS defined the lines are put together by hand in place of printf. Exit status: 0 all is written; 2 it cannot be read or written. */
#include <inttypes.h>
#include <stdbool.h>
#include <stdint.h>
#include <stdio.h>
#include <string.h>

enum { RECORD = 8, RECORDS = 65536, EPOCHS = 4, WINDOW = 64, BUFFER = 65536 };

struct epoch {
    uint16_t epoch;
    bool any; /* a number was taken */
    uint64_t highest;
    uint64_t marks; /* bit i: highest - i was taken */
};

static struct epoch epochs[EPOCHS];
static size_t met;

/* ---- lines */

#ifdef DIGITS

static char *put_digits(char *p, uint64_t n)
{
    char digits[20];
    size_t count = 0;
    do {
        digits[count++] = (char)('0' + n % 10);
        n /= 10;
    } while (n > 0);
    while (count > 0)
        *p++ = digits[--count];
    return p;
}

static char *put_text(char *p, const char *text)
{
    size_t n = strlen(text);
    memcpy(p, text, n);
    return p + n;
}

static void put_line(size_t index, const uint64_t *number, const char *reason)
{
    char line[64], *p = put_digits(line, index);
    *p++ = ' ';
    if (number == NULL)
        *p++ = '-';
    else
        p = put_digits(p, *number);
    *p++ = ' ';
    p = put_text(p, reason);
    *p++ = '\n';
    fwrite(line, 1, (size_t)(p - line), stdout);
}

#else

static void put_line(size_t index, const uint64_t *number, const char *reason)
{
    if (number == NULL)
        printf("%zu - %s\n", index, reason);
    else
        printf("%zu %" PRIu64 " %s\n", index, *number, reason);
}

#endif

/* ---- one record */

static bool is_well_formed(const uint8_t *r)
{
    return (r[2] == 16 || (r[2] == 8 && r[4] == 0)) && r[3] <= 1 && r[6] == 0 && r[7] == 0;
}

/* Its state, which begins when the epoch is first met; none for a fifth. */
static struct epoch *find_epoch(uint16_t epoch)
{
    for (size_t i = 0; i < met; i++) {
        if (epochs[i].epoch == epoch)
            return &epochs[i];
    }
    if (met == EPOCHS)
        return NULL;
    epochs[met].epoch = epoch;
    return &epochs[met++];
}

/* The number nearest the expected one that ends in these bits. One half a block away stays in the block of the expected one, and none is
 * below 0. */
static uint64_t rebuild(const struct epoch *e, uint64_t partial, unsigned bits)
{
    uint64_t block = (uint64_t)1 << bits, expected = e->any ? e->highest + 1 : 0;
    uint64_t own = expected - expected % block + partial;
    if (own > expected + block / 2 && own >= block)
        return own - block;
    if (own + block / 2 < expected)
        return own + block;
    return own;
}

static void take(struct epoch *e, uint64_t number)
{
    if (!e->any) {
        e->any = true;
        e->highest = number;
        e->marks = 1;
    } else if (number > e->highest) {
        uint64_t ahead = number - e->highest;
        e->marks = ahead < WINDOW ? e->marks << ahead | 1 : 1;
        e->highest = number;
    } else {
        e->marks |= (uint64_t)1 << (e->highest - number);
    }
}

static const char *judge(struct epoch *e, uint64_t number, bool opened)
{
    if (e->any && number <= e->highest) {
        uint64_t behind = e->highest - number;
        if (behind >= WINDOW)
            return "old";
        if (e->marks >> behind & 1)
            return "seen";
    }
    if (!opened)
        return "cipher";
    take(e, number);
    return "taken";
}

static void explain(size_t index, const uint8_t *r)
{
    if (!is_well_formed(r)) {
        put_line(index, NULL, "record");
        return;
    }
    struct epoch *e = find_epoch((uint16_t)(r[0] << 8 | r[1]));
    if (e == NULL) {
        put_line(index, NULL, "epoch");
        return;
    }
    uint64_t number = rebuild(e, (uint64_t)(r[4] << 8 | r[5]), r[2]);
    put_line(index, &number, judge(e, number, r[3] == 1));
}

int main(void)
{
    static uint8_t input[RECORDS * RECORD];
    static char output[BUFFER];
    setvbuf(stdout, output, _IOFBF, sizeof output);
    size_t n = fread(input, 1, sizeof input, stdin);
    if (ferror(stdin)) {
        perror("plain: standard input");
        return 2;
    }
    for (size_t i = 0; i < n / RECORD; i++)
        explain(i, input + i * RECORD);
    if (n % RECORD != 0)
        put_line(n / RECORD, NULL, "short");
    if (fflush(stdout) != 0 || ferror(stdout)) {
        perror("plain: standard output");
        return 2;
    }
    return 0;
}
