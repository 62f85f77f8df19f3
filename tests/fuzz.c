/* See fuzz.h. */
#define _DEFAULT_SOURCE
#include "fuzz.h"

#include <stdio.h>
#include <stdlib.h>
#include <time.h>

#include "kernelsun_view.h"

enum { SEED_DEFAULT = 1990, SECONDS_DEFAULT = 50 };

chance dice;
unsigned long long seed, calls_made;

static double seconds_now(void)
{
    struct timespec t;
    clock_gettime(CLOCK_MONOTONIC, &t);
    return (double)t.tv_sec + (double)t.tv_nsec / 1e9;
}

static unsigned long long argument(int argc, char **argv, int index, unsigned long long otherwise)
{
    return argc > index ? strtoull(argv[index], NULL, 10) : otherwise;
}

int fuzz(const fuzz_plan *plan, int argc, char **argv)
{
    seed = argument(argc, argv, 1, SEED_DEFAULT);
    unsigned long long wanted = argument(argc, argv, 2, plan->calls);
    double most = (double)argument(argc, argv, 3, SECONDS_DEFAULT);
    double start = seconds_now();
    dice = chance_from(seed);
    while (calls_made < wanted && seconds_now() - start < most) {
        plan->round();
    }
    double spent = seconds_now() - start;
    printf("%s: seed %llu, %llu calls alike in %.1f s\n", plan->name, seed, calls_made, spent);
    int whole = plan->is_whole();
    if (calls_made < wanted) {
        printf("FAILED: time ran out before %llu calls\n", wanted);
        return 1;
    }
    if (!whole) {
        printf("FAILED: the run never met what it is there to meet\n");
        return 1;
    }
    return 0;
}

int all_met(const char *what, const char *const names[], const unsigned long times[], size_t count)
{
    size_t rarest = 0;
    int whole = 1;
    for (size_t i = 0; i < count; i++) {
        if (times[i] < times[rarest]) {
            rarest = i;
        }
        if (times[i] == 0) {
            printf("  NEVER MET: %s\n", names[i]);
            whole = 0;
        }
    }
    printf("  %u %s, rarest: %s, %lu times\n", (unsigned)count, what, names[rarest], times[rarest]);
    return whole;
}

static uint32_t some_set(uint32_t threads)
{
    return chance_below(&dice, (uint32_t)1 << threads);
}

uint32_t some_holders(uint32_t threads, uint32_t thread)
{
    switch (chance_below(&dice, 8)) {
    case 0: case 1: return 0;
    case 2: case 3: return kernelsun_writing(thread);
    case 4: return kernelsun_bit(thread);
    case 5: return some_set(threads) | kernelsun_bit(thread);
    case 6: return some_set(threads) & ~kernelsun_bit(thread);
    default: return kernelsun_writing(chance_below(&dice, threads));
    }
}

/* With 16 threads no set has one that there isn't. */
uint32_t some_malformed_holders(uint32_t threads)
{
    uint32_t writer = kernelsun_writing(chance_below(&dice, threads));
    switch (chance_below(&dice, threads < KERNELSUN_THREADS_MOST ? 4 : 3)) {
    case 0: return writer + kernelsun_bit(chance_below(&dice, threads));
    case 1: return writer + chance_between(&dice, 1, KERNELSUN_READER_SETS - 1);
    case 2: return kernelsun_writing(threads + (chance_one_in(&dice, 2) ? 0 : some_set(8)));
    default:
        return some_set(threads) |
               kernelsun_bit(chance_between(&dice, threads, KERNELSUN_THREADS_MOST - 1));
    }
}
