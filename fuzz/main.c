/* Feeds random, truncated and mutated datagrams, replies and handshake records, and arbitrary words as state, through the record layer's
 * C interface.
 *
 *   driver COUNT SEED [HISTORY]   COUNT datagrams, replies and handshake records; or the one history
 *
 * Exit status: 0 nothing was found; 1 something was; 2 the driver cannot run. */
#define _GNU_SOURCE

#include <inttypes.h>
#include <signal.h>
#include <stdio.h>
#include <stdlib.h>
#include <sys/time.h>
#include <unistd.h>

#include "driver.h"
#include "fuzz.h"

#ifdef __SANITIZE_ADDRESS__
#include <sanitizer/common_interface_defs.h>
#endif

#ifndef HANG_SECONDS
#define HANG_SECONDS 60
#endif

enum { KINDS = 12, REFUSALS = 29, ENOUGH = 1000000 };

#define R(n) (1u << (n))

/* The answers that include/huskelapse.h and the specification name: by call and kind, the refusals. */
static const struct {
    const char *name;
    uint32_t refusals[KINDS];
} calls[CALLS] = {
    [RECEIVING_INIT] = {"husk_receiving_init_words", {R(0) | R(12)}},
    [RECEIVING_KEY] = {"husk_receiving_key_words", {R(0) | R(12) | R(13) | R(23)}},
    [RECEIVING_KEY_MASKED] = {"husk_receiving_key_masked_words", {R(0) | R(12) | R(13) | R(23) | R(27)}},
    [RECEIVING_REMOVE] = {"husk_receiving_remove_words", {R(0) | R(12) | R(13), R(0)}},
    [RECEIVING_ENABLE] = {"husk_receiving_enable_encryption", {R(0) | R(12)}},
    [RECEIVING_RELEASE] = {"husk_receiving_release_application_data", {R(0) | R(12)}},
    [RECEIVING_BEGIN] = {"husk_receiving_begin_words", {R(0) | R(1) | R(12)}},
    [RECEIVING_READ] = {"husk_receiving_read_words",
        {R(12) | R(15), R(0) | R(2) | R(3), R(4) | R(5) | R(6) | R(7) | R(8) | R(9) | R(26), R(0), R(0), 0, R(0), R(0)}},
    [RECEIVING_BEGIN_READ] = {"husk_receiving_begin_read_words",
        {R(1) | R(12), R(0) | R(2), R(4) | R(5) | R(6) | R(7) | R(8) | R(9) | R(26), R(0), R(0), 0, R(0), R(0)}},
    [RECEIVING_MASK] = {"husk_receiving_mask", {R(12) | R(15), 0, R(8) | R(9) | R(26), 0, 0, 0, 0, R(0)}},
    [RECEIVING_OPENED] = {"husk_receiving_opened_words", {R(12) | R(15), R(3), R(10) | R(11), 0, 0, R(0)}},
    [RECEIVING_CLASSIFY] = {"husk_receiving_classify_words",
        {R(12) | R(15), R(0), R(0), R(0), R(0), R(0), R(0), R(0), R(0), R(0), R(0), R(0)}},
    [SENDING_INIT] = {"husk_sending_init_words", {R(0) | R(12)}},
    [SENDING_KEY] = {"husk_sending_key_words", {R(0) | R(12) | R(13) | R(23)}},
    [SENDING_KEY_MASKED] = {"husk_sending_key_masked_words", {R(0) | R(12) | R(13) | R(23) | R(27)}},
    [SENDING_SEND] = {"husk_sending_send", {R(0) | R(12) | R(13) | R(14) | R(17) | R(19) | R(20)}},
    [SENDING_SEALING] = {"husk_sending_sealing", {R(12), R(0), R(0)}},
    [SENDING_SEALED] = {"husk_sending_sealed_words", {R(0) | R(12) | R(15)}},
    [SENDING_TAKE] = {"husk_sending_take", {R(12) | R(16) | R(23), R(0), R(0)}},
    [SENDING_TAKE_IN_PLACE] = {"husk_sending_take_in_place", {R(12) | R(23), R(0), R(0)}},
    [SENDING_STATUS] = {"husk_sending_status", {R(0) | R(12), R(0)}},
    [FLIGHT_INIT] = {"husk_flight_init_words", {R(0)}},
    [FLIGHT_BEGIN] = {"husk_flight_begin_words", {R(0) | R(12)}},
    [FLIGHT_SEND] = {"husk_flight_send_words", {R(0) | R(12) | R(13) | R(14) | R(17) | R(18) | R(19) | R(20)}},
    [FLIGHT_MESSAGE] = {"husk_flight_message_words", {R(0) | R(12) | R(14) | R(17) | R(18) | R(19) | R(20) | R(21)}},
    [FLIGHT_RESEND] = {"husk_flight_resend_words", {R(0) | R(12) | R(13) | R(14) | R(17) | R(19) | R(20) | R(22), R(0)}},
    [FLIGHT_ACK] = {"husk_flight_ack_words", {R(0) | R(12), R(0)}},
    [FLIGHT_STATUS] = {"husk_flight_status_words", {R(0) | R(12), R(0)}},
    [NOTES_INIT] = {"husk_notes_init_words", {R(0)}},
    [NOTES_ADD] = {"husk_notes_add_words", {R(0) | R(12), R(0)}},
    [NOTES_SEND] = {"husk_notes_send_words", {R(0) | R(12) | R(13) | R(17) | R(19) | R(20), R(0)}},
    [ASSEMBLY_INIT] = {"husk_assembly_init", {R(0)}},
    [ASSEMBLY_BEGIN] = {"husk_assembly_begin", {R(0) | R(12)}},
    [ASSEMBLY_TAKE] = {"husk_assembly_take", {R(12) | R(15) | R(16) | R(24) | R(25) | R(28), R(0), R(0), R(0), R(0), R(0)}},
};

uint64_t datagrams, replies, handshakes, calls_made, words_rewritten;
static uint64_t seed, history, seen[CALLS][KINDS][REFUSALS];
static volatile int now_calling;

/* ---- findings */

static void where(void)
{
    fflush(stdout);
    fprintf(stderr, "fuzz/run: in %s; again by: target/fuzz/driver 1 %" PRIu64 " %" PRIu64 "\n", calls[now_calling].name, seed, history);
}

void finding(const char *what)
{
    fprintf(stderr, "fuzz/run: finding: %s\n", what);
    where();
    _exit(1);
}

void require(int holds, const char *what)
{
    if (!holds)
        finding(what);
}

static void on_signal(int number)
{
    finding(number == SIGVTALRM ? "a call does not end" : "a fault");
}

static void watch(void)
{
    signal(SIGVTALRM, on_signal);
#ifdef __SANITIZE_ADDRESS__
    __sanitizer_set_death_callback(where);
#else
    signal(SIGSEGV, on_signal);
    signal(SIGBUS, on_signal);
    signal(SIGILL, on_signal);
    signal(SIGFPE, on_signal);
#endif
}

/* ---- answers */

void calling(int call)
{
    now_calling = call;
    calls_made++;
}

void answered(int call, unsigned kind, unsigned refusal)
{
    if (kind >= KINDS || refusal >= REFUSALS || !(calls[call].refusals[kind] & R(refusal))) {
        fprintf(stderr, "fuzz/run: kind %u, refusal %u\n", kind, refusal);
        finding("an answer that is not named");
    }
    seen[call][kind][refusal]++;
}

/* A line for each call; how many named answers were never given. */
static unsigned tell(void)
{
    unsigned never = 0;
    for (int c = 0; c < CALLS; c++) {
        printf("%s:", calls[c].name);
        for (unsigned k = 0; k < KINDS; k++)
            for (unsigned r = 0; r < REFUSALS; r++)
                if (calls[c].refusals[k] & R(r)) {
                    printf(" %u/%u %" PRIu64, k, r, seen[c][k][r]);
                    never += seen[c][k][r] == 0;
                }
        printf("\n");
    }
    return never;
}

/* ---- histories */

static void one_history(void)
{
    const struct itimerval limit = {{0, 0}, {HANG_SECONDS, 0}};
    setitimer(ITIMER_VIRTUAL, &limit, NULL);
    begin_random(seed, history);
    if (one_in(16))
        assembly_history();
    else if (one_in(3))
        sending_history();
    else
        receiving_history();
}

static uint64_t fed(void)
{
    return datagrams + replies + handshakes;
}

int main(int argc, char **argv)
{
    uint64_t count, told = 0;
    if (argc < 3)
        return 2;
    count = strtoull(argv[1], NULL, 10);
    seed = strtoull(argv[2], NULL, 10);
    watch();
    known();
    receiving_start();
    sending_start();
    assembly_start();
    if (argc > 3) {
        history = strtoull(argv[3], NULL, 10);
        one_history();
        return 0;
    }
    for (; fed() < count; history++) {
        one_history();
        if (count >= ENOUGH && fed() / ENOUGH > told) {
            told = fed() / ENOUGH;
            printf("%" PRIu64 " million\n", told);
            fflush(stdout);
        }
    }
    printf("answers, as kind/refusal and how often:\n");
    unsigned never = tell() + assembly_tell();
    printf("%" PRIu64 " histories, %" PRIu64 " calls, %" PRIu64 " datagrams, %" PRIu64 " replies, %" PRIu64
           " handshake records: nothing found\n", history, calls_made, datagrams, replies, handshakes);
    printf("forged words rewritten by a refused call, with the same meaning: %" PRIu64 "\n", words_rewritten);
    if (never != 0)
        printf("%u named answers or pieces never came\n", never);
    return never != 0 && count >= ENOUGH;
}
