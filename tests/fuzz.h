/*
 * What fuzz tests of the door share: a run of rounds by a seed until enough calls
 * were made, the count of what it met, and words for block locks and owners.
 *
 *     NAME [SEED [CALLS [SECONDS]]]
 */
#ifndef KERNELSUN_TESTS_FUZZ_H
#define KERNELSUN_TESTS_FUZZ_H

#include <stddef.h>

#include "chance.h"

extern chance dice;
extern unsigned long long seed, calls_made;

typedef struct {
    const char *name;
    unsigned long long calls; /* where no argument says otherwise */
    void (*round)(void);      /* makes some calls and counts them in calls_made */
    int (*is_whole)(void);    /* prints what was met; 0 if something never was */
} fuzz_plan;

/* The program's status: 1 if the time ran out or something was never met. */
int fuzz(const fuzz_plan *plan, int argc, char **argv);

/* Names what was never met, and the rarest. Gives 0 if something never was. */
int all_met(const char *what, const char *const names[], const unsigned long times[], size_t count);

/* A block lock or a block's owner with so many threads: nobody, readers or a writer, a given thread
   often among them. */
uint32_t some_holders(uint32_t threads, uint32_t thread);

/* One that is not well formed: a reader or a writer that there isn't, or readers beside a writer. */
uint32_t some_malformed_holders(uint32_t threads);

#endif
