/* The program why beside plain C of the same job (why/plain.c), whole programs on the same history: times from their start to their end.
 *
 *   why RUNS FOLDER WHY PRINTF DIGITS    times; history, lines and what they write are in FOLDER
 *   why write FOLDER                     the history alone
 *
 * PRINTF and DIGITS are why/plain.c as it is, and with its lines put together by hand. */
#define _GNU_SOURCE

#include <fcntl.h>
#include <spawn.h>
#include <stdint.h>
#include <stdio.h>
#include <stdlib.h>
#include <string.h>
#include <sys/resource.h>
#include <sys/wait.h>
#include <time.h>
#include <unistd.h>

enum { RECORDS = 65536, RECORD = 8, PROGRAMS = 3, ROUNDS = 20, MOST_RUNS = 99, PATH = 4096, LINES = 4 << 20 };

enum { WALL, CPU, CLOCKS };

static const char *const names[PROGRAMS] = { "Rattle", "C, printf", "C, digits by hand" };

static const char *programs[PROGRAMS];
static double spent[CLOCKS][PROGRAMS][ROUNDS * MOST_RUNS];

static void need(int holds, const char *what)
{
    if (!holds) {
        fprintf(stderr, "bench/run: %s\n", what);
        exit(1);
    }
}

static void name_file(char path[PATH], const char *folder, const char *file)
{
    need(snprintf(path, PATH, "%s/%s", folder, file) < PATH, "the folder's name is too long");
}

/* ---- the history */

static uint32_t state = 1;

/* Below n, of the high bits. */
static uint32_t pick(uint32_t n)
{
    state = state * 1664525 + 1013904223;
    return (uint32_t)((uint64_t)(state >> 8) * n >> 24);
}

/* As a gateway with a bad link has it: of a hundred records nine come within the window, again or late, one comes too late, the cipher says no to
 * one, and the others go on from the highest number, a fifth of them behind a gap. */
static void write_history(const char *path)
{
    FILE *file = fopen(path, "wb");
    need(file != NULL, "the history cannot be written");
    uint32_t highest = 40;
    for (int i = 0; i < RECORDS; i++) {
        uint32_t kind = pick(100), number = highest + 1 + (pick(5) == 0), late = 64 + pick(1000), reply = kind != 99;
        if (kind < 9)
            number = highest - pick(40);
        else if (kind == 9 && late < highest)
            number = highest - late;
        if (reply && number > highest)
            highest = number;
        const uint8_t record[RECORD] = { 0, 3, 16, (uint8_t)reply, (uint8_t)(number >> 8), (uint8_t)number, 0, 0 };
        need(fwrite(record, 1, RECORD, file) == RECORD, "the history cannot be written");
    }
    need(fclose(file) == 0, "the history cannot be written");
}

/* ---- a run of a program */

static double seconds_of(struct timeval t)
{
    return (double)t.tv_sec + (double)t.tv_usec / 1e6;
}

static double now(void)
{
    struct timespec t;
    clock_gettime(CLOCK_MONOTONIC, &t);
    return (double)t.tv_sec + (double)t.tv_nsec / 1e9;
}

static void run(const char *program, const char *from, const char *to, double times[CLOCKS])
{
    static char *const environment[] = { NULL };
    char *const words[] = { (char *)program, NULL };
    posix_spawn_file_actions_t files;
    posix_spawn_file_actions_init(&files);
    posix_spawn_file_actions_addopen(&files, STDIN_FILENO, from, O_RDONLY, 0);
    posix_spawn_file_actions_addopen(&files, STDOUT_FILENO, to, O_WRONLY | O_CREAT | O_TRUNC, 0644);
    pid_t child;
    int status;
    struct rusage used;
    double start = now();
    need(posix_spawn(&child, program, &files, NULL, words, environment) == 0, "a program does not start");
    need(wait4(child, &status, 0, &used) == child, "a program is not there to be waited for");
    times[WALL] = now() - start;
    times[CPU] = seconds_of(used.ru_utime) + seconds_of(used.ru_stime);
    posix_spawn_file_actions_destroy(&files);
    need(WIFEXITED(status) && WEXITSTATUS(status) == 0, "a program fails");
}

/* ---- the same lines */

static size_t read_lines(const char *path, char *lines)
{
    FILE *file = fopen(path, "rb");
    need(file != NULL, "lines cannot be read");
    size_t n = fread(lines, 1, LINES, file);
    fclose(file);
    return n;
}

static void check_lines(const char *from, const char *to)
{
    static char lines[2][LINES];
    double times[CLOCKS];
    size_t n = 0;
    for (int i = 0; i < PROGRAMS; i++) {
        run(programs[i], from, to, times);
        size_t m = read_lines(to, lines[i > 0]);
        n = i > 0 ? n : m;
        need(m == n && memcmp(lines[0], lines[i > 0], n) == 0, "the program and why/plain.c write other lines: why/test finds the input");
    }
    printf("%d records, %zu bytes of lines: the same of all three\n", RECORDS, n);
}

/* ---- times */

static int by_size(const void *a, const void *b)
{
    double x = *(const double *)a, y = *(const double *)b;
    return (x > y) - (x < y);
}

/* The programs by turns, so that what else the machine does falls on all of them. */
static void measure(const char *what, const char *from, const char *to, int rounds)
{
    for (int i = 0; i < rounds; i++) {
        for (int p = 0; p < PROGRAMS; p++) {
            double times[CLOCKS];
            run(programs[p], from, to, times);
            for (int c = 0; c < CLOCKS; c++)
                spent[c][p][i] = times[c];
        }
    }
    for (int c = 0; c < CLOCKS; c++) {
        for (int p = 0; p < PROGRAMS; p++)
            qsort(spent[c][p], (size_t)rounds, sizeof(double), by_size);
    }
    for (int p = 0; p < PROGRAMS; p++) {
        printf("%-26s %-18s", what, names[p]);
        for (int c = 0; c < CLOCKS; c++)
            printf("  %s least %7.3f median %7.3f ms", c == WALL ? "wall" : "cpu", spent[c][p][0] * 1e3, spent[c][p][rounds / 2] * 1e3);
        if (p > 0)
            printf("   Rattle over it: least %.2f median %.2f", spent[WALL][0][0] / spent[WALL][p][0],
                spent[WALL][0][rounds / 2] / spent[WALL][p][rounds / 2]);
        printf("\n");
    }
}

int main(int argc, char **argv)
{
    char history[PATH], lines[PATH];
    if (argc == 3 && strcmp(argv[1], "write") == 0) {
        name_file(history, argv[2], "history");
        write_history(history);
        return 0;
    }
    int runs = argc == 3 + PROGRAMS ? atoi(argv[1]) : 0;
    need(runs >= 1 && runs <= MOST_RUNS, "usage: why RUNS FOLDER WHY PRINTF DIGITS");
    for (int i = 0; i < PROGRAMS; i++)
        programs[i] = argv[3 + i];
    name_file(history, argv[2], "history");
    name_file(lines, argv[2], "lines");
    write_history(history);
    check_lines(history, lines);
    measure("65,536 records, /dev/null", history, "/dev/null", runs * ROUNDS);
    measure("65,536 records, to a file", history, lines, runs * ROUNDS);
    measure("no records, /dev/null", "/dev/null", "/dev/null", runs * ROUNDS);
    return 0;
}
