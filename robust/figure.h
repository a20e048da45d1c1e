/*
 * What a first hit can take, asked of its number and its budget alone: neither the
 * reference nor the archive is asked.
 */
#ifndef FIGURE_H
#define FIGURE_H

#include <stddef.h>
#include <stdint.h>

/* Null if a hit at tick t has at most 2 t + 11 probes, and if a call that is spent
 * at tick t had a budget of at most 2 t + 10, or what is broken. */
static inline const char *broken_figure(uint64_t number, uint32_t budget)
{
    uint64_t kind = number >> 32, most = 2 * (number >> 16 & 0xffff) + 11;

    if ((kind == 1 || kind == 2) && (number & 0xffff) > most)
        return "a hit at tick t has more than 2 t + 11 probes";
    if (kind == 4 && budget >= most)
        return "spent at tick t with a budget of 2 t + 11 or more";
    return NULL;
}

#endif
