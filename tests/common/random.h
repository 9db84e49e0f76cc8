/*
 * The tests' one random generator: splitmix64, which is small, seeded by any number and the same on every machine.
 */
#ifndef RANDOM_H
#define RANDOM_H

#include <stddef.h>
#include <stdint.h>

typedef struct {
    uint64_t state;
} generator;

static inline uint64_t draw(generator *g)
{
    uint64_t bits = g->state += UINT64_C(0x9E3779B97F4A7C15);

    bits = (bits ^ bits >> 30) * UINT64_C(0xBF58476D1CE4E5B9);
    bits = (bits ^ bits >> 27) * UINT64_C(0x94D049BB133111EB);
    return bits ^ bits >> 31;
}

/* 0 to count - 1; count is at least 1. */
static inline size_t below(generator *g, size_t count)
{
    return (size_t)(draw(g) % count);
}

/* lowest to highest, both included. */
static inline int64_t between(generator *g, int64_t lowest, int64_t highest)
{
    return lowest + (int64_t)(draw(g) % ((uint64_t)(highest - lowest) + 1));
}

/* True once in count draws. */
static inline int once_in(generator *g, size_t count)
{
    return below(g, count) == 0;
}

/* A generator for the given case of the given seed, so that a case can be run again alone. */
static inline generator generator_of(uint64_t seed, uint64_t number)
{
    generator g = { seed };

    g.state = draw(&g) ^ number;
    g.state = draw(&g);
    return g;
}

#endif
