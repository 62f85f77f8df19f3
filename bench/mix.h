/*
 * What the benchmark does with a store: the three areas, and the mix of
 * operations. bench.c and script.c share them, so that the door and the script
 * program are measured at the same work.
 */
#ifndef KERNELSUN_BENCH_MIX_H
#define KERNELSUN_BENCH_MIX_H

#include "chance.h"
#include "kernelsun_view.h"

/* The least, so that levelling has something to move as often as can be. */
enum { MIX_DISTANCE = 1 };

/* The year of Herlihy and Wing; any number would do. */
enum { MIX_SEED = 1990 };

typedef struct {
    const char *name;
    kernelsun_sizes s;
} mix_area;

enum { MIX_SMALLEST, MIX_MIDDLE, MIX_LARGEST, MIX_AREAS };

static const mix_area mix_areas[MIX_AREAS] = {
    {"smallest", {2, 1, 2, MIX_DISTANCE}},
    {"middle", {4, 32, 64, MIX_DISTANCE}},
    {"largest",
     {KERNELSUN_THREADS_MOST, KERNELSUN_LOGICAL_MOST, KERNELSUN_PHYSICAL_MOST, MIX_DISTANCE}},
};

/* Of twenty operations eight write, eight read, three unmap and one levels. */
enum { MIX_WRITES = 8, MIX_READS = 8, MIX_UNMAPS = 3, MIX_LEVELS = 1 };

typedef struct {
    uint32_t op, n, c;
} operation;

static inline uint32_t mix_op(chance *dice)
{
    uint32_t x = chance_below(dice, MIX_WRITES + MIX_READS + MIX_UNMAPS + MIX_LEVELS);
    return x < MIX_WRITES                            ? KERNELSUN_WRITE
           : x < MIX_WRITES + MIX_READS              ? KERNELSUN_READ
           : x < MIX_WRITES + MIX_READS + MIX_UNMAPS ? KERNELSUN_UNMAP
                                                     : KERNELSUN_LEVEL;
}

/* One operation of the mix, with the words that begin writes for it. */
static inline operation mix_next(chance *dice, const kernelsun_sizes *s)
{
    operation o = {mix_op(dice), chance_below(dice, s->n), chance_word(dice)};
    o.n = o.op == KERNELSUN_LEVEL ? 0 : o.n;
    o.c = o.op == KERNELSUN_WRITE ? o.c : 0;
    return o;
}

/* Operations go round the threads: each is done whole before the next begins. */
static inline uint32_t mix_thread(const kernelsun_sizes *s, size_t turn)
{
    return (uint32_t)(turn % s->t);
}

#endif
