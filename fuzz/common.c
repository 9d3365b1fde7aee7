#define _GNU_SOURCE

#include <stdio.h>
#include <stdlib.h>
#include <string.h>
#include <sys/mman.h>
#include <unistd.h>

#include "driver.h"
#include "fuzz.h"

enum { BESIDE = 64, FILL = 0xA5 };

/* ---- random choices */

static uint64_t state;

void begin_random(uint64_t seed, uint64_t history)
{
    state = (seed * 0x9E3779B97F4A7C15u) ^ (history + 1) * 0xD1B54A32D192ED03u;
    for (int i = 0; i < 4; i++)
        any();
}

uint64_t any(void)
{
    uint64_t x = state += 0x9E3779B97F4A7C15u;
    x = (x ^ (x >> 30)) * 0xBF58476D1CE4E5B9u;
    x = (x ^ (x >> 27)) * 0x94D049BB133111EBu;
    return x ^ (x >> 31);
}

uint64_t below(uint64_t n)
{
    return any() % n;
}

int one_in(uint64_t n)
{
    return below(n) == 0;
}

void scatter(uint8_t *p, size_t n)
{
    for (; n >= 8; n -= 8, p += 8) {
        uint64_t x = any();
        memcpy(p, &x, 8);
    }
    for (; n > 0; n--)
        *p++ = (uint8_t)any();
}

uint64_t edge_word(uint64_t old)
{
    static const uint64_t edges[] = {0, 1, 2, 3, 4, 5, 6, 12, 13, 15, 16, 17, 18, 22, 32, 63, 64, 255, 256, 575, 576, 1500, 1501,
        16383, 16384, 16385, 65534, 65535, 65536, 65538, 0xFFFFFFFF, 0x100000000, 0xFFFFFFFFFFFD, 0xFFFFFFFFFFFE, 0xFFFFFFFFFFFF,
        0x1000000000000, 0x7FFFFFFFFFFFFFFF, 0x8000000000000000, 0xFFFFFFFFFFFFFFFE, 0xFFFFFFFFFFFFFFFF};
    switch (below(6)) {
    case 0:
        return old + 1;
    case 1:
        return old - 1;
    case 2:
        return old ^ (1ull << below(64));
    case 3:
        return any() >> below(64);
    default:
        return edges[below(sizeof edges / sizeof edges[0])];
    }
}

void mutate(uint8_t *p, size_t n)
{
    for (uint64_t k = 1 + below(4); n > 0 && k > 0; k--) {
        uint8_t *at = p + below(one_in(2) && n > 16 ? 16 : n);
        *at = one_in(2) ? (uint8_t)any() : (uint8_t)(*at ^ (1u << below(8)));
    }
}

/* ---- memory */

static uint8_t *view(int file, size_t room, int protection)
{
    size_t page = (size_t)sysconf(_SC_PAGESIZE);
    uint8_t *whole = mmap(NULL, room + 2 * page, PROT_NONE, MAP_PRIVATE | MAP_ANONYMOUS, -1, 0);
    if (whole == MAP_FAILED || mmap(whole + page, room, protection, MAP_SHARED | MAP_FIXED, file, 0) == MAP_FAILED) {
        perror("fuzz/run: mmap");
        exit(2);
    }
    return whole + page;
}

Area area(size_t room)
{
    size_t page = (size_t)sysconf(_SC_PAGESIZE);
    int file = memfd_create("lent", 0);
    Area a;
    a.room = (room + BESIDE + page - 1) / page * page;
    if (file < 0 || ftruncate(file, (off_t)a.room) != 0) {
        perror("fuzz/run: memfd_create");
        exit(2);
    }
    a.bytes = view(file, a.room, PROT_READ | PROT_WRITE);
    a.fixed = view(file, a.room, PROT_READ);
    close(file);
    return a;
}

Lent lend(const Area *a, size_t n, int at_end)
{
    size_t at = at_end ? a->room - n : 0;
    Lent l;
    if (n + BESIDE > a->room)
        finding("the driver lends more than it has");
    l.bytes = a->bytes + at;
    l.fixed = a->fixed + at;
    l.n = n;
    l.beside = at_end ? l.bytes - BESIDE : l.bytes + n;
    memset(l.beside, FILL, BESIDE);
    return l;
}

void check_beside(const Lent *l)
{
    static uint8_t fill[BESIDE];
    if (fill[0] != FILL)
        memset(fill, FILL, BESIDE);
    require(memcmp(l->beside, fill, BESIDE) == 0, "a byte outside the lent memory has changed");
}
