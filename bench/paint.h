/* How far down the stack a call writes: the stack below the call is painted before it and looked at after it.
 *
 * Built so that a function's stack pointer stays where its first instructions put it and nothing of its own lies below: then it is the
 * same where it is asked for, around painting and at the call. */
#ifndef PAINT_H
#define PAINT_H

#include <stddef.h>
#include <stdint.h>

enum { WORD = sizeof(uint64_t) };

static const uint64_t paint = 0xA5C35A3C96E1781E;

static inline __attribute__((always_inline)) volatile uint64_t *stack_pointer(void)
{
    volatile uint64_t *p;
    __asm__ volatile("mov %%rsp, %0" : "=r"(p));
    return p;
}

static inline __attribute__((always_inline)) void paint_below(volatile uint64_t *top, size_t words)
{
    for (size_t i = words; i > 0; i--)
        *(top - i) = paint;
}

/* Words below the top that were written; the return address is the first of them. */
static inline __attribute__((always_inline)) size_t written_below(volatile uint64_t *top, size_t words)
{
    while (words > 0 && *(top - words) == paint)
        words--;
    return words;
}

#endif
