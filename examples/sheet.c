/*
 * A wear sheet over three stores and a run of bytes that is none.
 *
 * The first store is new, the second has recorded over two blocks in turn, the
 * third has erased each take. The fourth area was never formatted: it is counted
 * and skipped. The sheet is printed with no blocks seen, and after the last area.
 *
 * Built with: cc -std=c99 examples/sheet.c $(pkg-config --cflags --libs kernelsun)
 * or, in the tree: cc -std=c99 -Iinclude examples/sheet.c target/staticlib/libkernelsun.a
 */
#include <stdio.h>
#include <stdlib.h>

#include "kernelsun_view.h"

enum { STORES = 3, AREAS, LOGICAL = 3, PHYSICAL = 5 };
enum { LENGTH = KERNELSUN_LENGTH(1, LOGICAL, PHYSICAL) };

static uint8_t areas[AREAS][LENGTH];

static void stop_unless(uint32_t number, const char *what, uint64_t result)
{
    if (kernelsun_number(result) != number) {
        fprintf(stderr, "%s gave %s\n", what, kernelsun_name(kernelsun_number(result)));
        exit(1);
    }
}

/* An operation from its begin to its end. */
static void run(uint8_t *area, uint32_t op, uint32_t n, uint32_t content)
{
    uint64_t result = begin(area, LENGTH, 0, op, n, content);
    while (kernelsun_number(result) == KERNELSUN_WENT) {
        result = step(area, LENGTH, 0);
    }
    stop_unless(KERNELSUN_FINISHED, "an operation", result);
}

/* A figure of the wear: there is none where no block was seen. */
static void print_wear(const char *label, const struct kernelsun_tally *t, uint64_t figure)
{
    if (t->blocks == 0) {
        printf("%s: -\n", label);
    } else {
        printf("%s: %llu\n", label, (unsigned long long)figure);
    }
}

static void print_sheet(const struct kernelsun_tally *t)
{
    uint64_t blocks = t->blocks != 0 ? t->blocks : 1;
    printf("areas: %u\nskipped: %u\nblocks: %u\nfree blocks: %u\n", (unsigned)t->areas,
           (unsigned)t->skipped, (unsigned)t->blocks, (unsigned)t->free);
    printf("sum of wear: %llu\n", (unsigned long long)t->sum);
    print_wear("least wear", t, t->least);
    print_wear("most wear", t, t->most);
    print_wear("mean wear", t, t->sum / blocks);
    print_wear("remainder", t, t->sum % blocks);
}

int main(void)
{
    struct kernelsun_tally tally = {0};
    for (int i = 0; i < STORES; i++) {
        stop_unless(KERNELSUN_WENT, "format", format(areas[i], LENGTH, 1, LOGICAL, PHYSICAL, 2));
    }
    for (uint32_t take = 0; take < 40; take++) {
        run(areas[1], KERNELSUN_WRITE, take % 2, take);
        run(areas[2], KERNELSUN_WRITE, 0, take);
        run(areas[2], KERNELSUN_UNMAP, 0, 0);
    }
    print_sheet(&tally);
    for (int i = 0; i < AREAS; i++) {
        stop_unless(KERNELSUN_WENT, "add_area", add_area(&tally, areas[i], LENGTH));
    }
    printf("\n");
    print_sheet(&tally);
    return 0;
}
