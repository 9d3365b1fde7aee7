/* What main.c alone uses of the other parts. */
#ifndef DRIVER_H
#define DRIVER_H

#include <stdint.h>

void begin_random(uint64_t seed, uint64_t history);

#endif
