/*
 * How much stack a call takes. Calls are made on a stack that was painted
 * before, and what is left of the paint is counted. The header states the
 * bounds, for those who have to size a task's stack.
 */
#define _DEFAULT_SOURCE
#include "kernelsun.h"

#include <pthread.h>
#include <stdio.h>
#include <stdlib.h>
#include <string.h>
#include <sys/mman.h>

enum { ROOM = 1 << 20, PAINT = 0xa5 };

/* include/kernelsun.h, "LINKING". */
enum { STEP_MOST = 12 * 1024, OTHERS_MOST = 1024 };

static uint8_t area[KERNELSUN_LENGTH_MOST];

static void require(int good, const char *what)
{
    if (!good) {
        printf("FAILED: %s\n", what);
        exit(1);
    }
}

static void formats(void)
{
    uint64_t r = format(area, sizeof area, KERNELSUN_THREADS_MOST, KERNELSUN_LOGICAL_MOST,
                        KERNELSUN_PHYSICAL_MOST, 1);
    require(kernelsun_number(r) == KERNELSUN_WENT, "format");
}

static void begins(void)
{
    uint64_t r = begin(area, sizeof area, 0, KERNELSUN_WRITE, 0, 7);
    require(kernelsun_number(r) == KERNELSUN_WENT, "begin");
}

/* Each operation to its end; the unmaps wear a block, so that the levelling moves the other. */
static void steps(void)
{
    static const uint32_t ops[][2] = {
        {KERNELSUN_READ, 0},  {KERNELSUN_WRITE, 1}, {KERNELSUN_UNMAP, 0},
        {KERNELSUN_WRITE, 0}, {KERNELSUN_UNMAP, 0}, {KERNELSUN_LEVEL, 0},
    };
    uint64_t r = 0;
    for (size_t i = 0; i <= sizeof ops / sizeof ops[0]; i++) {
        do {
            r = step(area, sizeof area, 0);
        } while (kernelsun_number(r) == KERNELSUN_WENT);
        require(kernelsun_number(r) == KERNELSUN_FINISHED, "step");
        if (i < sizeof ops / sizeof ops[0]) {
            r = begin(area, sizeof area, 0, ops[i][0], ops[i][1], 9);
            require(kernelsun_number(r) == KERNELSUN_WENT, "begin");
        }
    }
    require(kernelsun_value(r) == 1, "the levelling moves a content");
}

/* The area as it is, bytes that are none, and a tally that is refused. */
static void adds(void)
{
    struct kernelsun_tally tally = {0};
    uint64_t r = add_area(&tally, area, sizeof area);
    require(kernelsun_number(r) == KERNELSUN_WENT && tally.blocks == KERNELSUN_PHYSICAL_MOST,
            "add_area");
    r = add_area(&tally, area, sizeof area - 1);
    require(kernelsun_number(r) == KERNELSUN_WENT && tally.skipped == 1, "add_area of no area");
    tally.areas = KERNELSUN_AREAS_MOST + 1;
    r = add_area(&tally, area, sizeof area);
    require(kernelsun_number(r) == KERNELSUN_TALLY, "add_area to a tally that is none");
}

static uint8_t *from;

static void *call_it(void *calls)
{
    uint8_t here;
    from = &here;
    (*(void (**)(void))calls)();
    return NULL;
}

/*
 * The bytes of stack below the caller that were written to, by the calls or,
 * where that goes deeper, by the end of the thread.
 */
static size_t taken(void (*calls)(void))
{
    uint8_t *stack = mmap(NULL, ROOM, PROT_READ | PROT_WRITE, MAP_PRIVATE | MAP_ANONYMOUS, -1, 0);
    uint8_t *lowest = stack;
    pthread_attr_t with;
    pthread_t thread;
    require(stack != MAP_FAILED, "no room for a stack");
    memset(stack, PAINT, ROOM);
    require(pthread_attr_init(&with) == 0 && pthread_attr_setstack(&with, stack, ROOM) == 0 &&
                pthread_create(&thread, &with, call_it, &calls) == 0 &&
                pthread_join(thread, NULL) == 0,
            "no thread");
    while (lowest < from && *lowest == PAINT) {
        lowest++;
    }
    size_t bytes = (size_t)(from - lowest);
    munmap(stack, ROOM);
    return bytes;
}

/* The first calls bind the C library's functions, which takes stack of its own. */
int main(void)
{
    formats();
    begins();
    steps();
    adds();
    size_t of_format = taken(formats), of_begin = taken(begins), of_step = taken(steps);
    size_t of_add_area = taken(adds);
    printf("stack: step %u, begin %u, format %u, add_area %u bytes\n", (unsigned)of_step,
           (unsigned)of_begin, (unsigned)of_format, (unsigned)of_add_area);
    require(of_step <= STEP_MOST && of_begin <= OTHERS_MOST && of_format <= OTHERS_MOST &&
                of_add_area <= OTHERS_MOST,
            "more stack than the header says");
    return 0;
}
