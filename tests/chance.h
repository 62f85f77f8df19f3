/*
 * Random numbers for the fuzz tests, the same on every machine for the same
 * seed (xorshift64*, by Marsaglia and Vigna).
 */
#ifndef KERNELSUN_TESTS_CHANCE_H
#define KERNELSUN_TESTS_CHANCE_H

#include <stdint.h>

typedef struct {
    uint64_t state; /* never 0 */
} chance;

/* Neighbouring seeds are spread first (splitmix64), or they would begin alike. */
static inline chance chance_from(uint64_t seed)
{
    uint64_t z = seed + 0x9e3779b97f4a7c15u;
    z = (z ^ z >> 30) * 0xbf58476d1ce4e5b9u;
    z = (z ^ z >> 27) * 0x94d049bb133111ebu;
    z ^= z >> 31;
    chance c = {z != 0 ? z : 1};
    return c;
}

static inline uint32_t chance_word(chance *c)
{
    c->state ^= c->state >> 12;
    c->state ^= c->state << 25;
    c->state ^= c->state >> 27;
    return (uint32_t)((c->state * 0x2545f4914f6cdd1du) >> 32);
}

/* 0 to count - 1. The slight unevenness doesn't matter here. */
static inline uint32_t chance_below(chance *c, uint32_t count)
{
    return (uint32_t)(((uint64_t)chance_word(c) * count) >> 32);
}

static inline uint32_t chance_between(chance *c, uint32_t least, uint32_t most)
{
    return least + chance_below(c, most - least + 1);
}

static inline int chance_one_in(chance *c, uint32_t count)
{
    return chance_below(c, count) == 0;
}

/* A word of the kind that code gets wrong: edges of the limits and of 32 bits. */
static inline uint32_t chance_hostile(chance *c)
{
    static const uint32_t words[] = {
        0,    1,    2,     3,     4,     5,           6,           15,          16,
        17,   18,   19,    255,   256,   257,         511,         512,         513,
        999,  1000, 1001,  32768, 65535, 65536,       65537,       131072,      1048576,
        1114112, 0x7fffffffu, 0x80000000u, 0x40000001u, 0xffff0000u, 0xfffffffeu, 0xffffffffu,
    };
    return chance_one_in(c, 8) ? chance_word(c)
                               : words[chance_below(c, sizeof words / sizeof words[0])];
}

#endif
