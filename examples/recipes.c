/*
 * Recipes for firmware, each a few functions to take over:
 *
 *   - an area that lies inside a larger page of yours;
 *   - saving an area, open operations included, into one of two copies, and
 *     bringing the newest whole copy back, so that a torn save loses one save
 *     and nothing else;
 *   - ending what was open when the area was saved.
 *
 * docs/USING.md says when each is right. main() tries them: it saves an area in
 * the middle of two operations, tears the next save, and brings back.
 *
 * Built with: cc -std=c99 examples/recipes.c $(pkg-config --cflags --libs kernelsun)
 * or, in the tree: cc -std=c99 -Iinclude examples/recipes.c target/staticlib/libkernelsun.a
 */
#include <stdio.h>
#include <stdlib.h>
#include <string.h>

#include "kernelsun.h"
#include "kernelsun_view.h"

enum { THREADS = 2, LOGICAL = 3, PHYSICAL = 5, DISTANCE = 4 };

enum { LENGTH = KERNELSUN_LENGTH(THREADS, LOGICAL, PHYSICAL) };

/* ---- An area inside a larger page ---- */

/* The page has a head of its own; the area follows, and the rest is yours. */
enum { PAGE = 512, PAGE_HEAD = 16 };

static uint8_t page[PAGE];

/* Not sizeof page: the length of an area is exact. */
static uint8_t *area_in_page(void)
{
    return page + PAGE_HEAD;
}

/* ---- Two copies and a checksum ---- */

/*
 * A copy as it lies in the memory that keeps it. The sum is over all that
 * follows it. An area has no version of its own: one of another major version
 * may be well formed and mean something else.
 */
typedef struct {
    uint32_t sum;
    uint32_t version;
    uint32_t turn;
    uint32_t length;
    uint8_t area[LENGTH];
} copy;

/* FNV-1a. Any checksum will do that a torn copy is unlikely to meet; zeros must not. */
static uint32_t sum_of(const copy *c)
{
    const uint8_t *at = (const uint8_t *)c + sizeof c->sum;
    uint32_t sum = 2166136261u;
    for (size_t i = 0; i < sizeof *c - sizeof c->sum; i++) {
        sum = (sum ^ at[i]) * 16777619u;
    }
    return sum;
}

static int is_whole(const copy *c)
{
    return c->version == KERNELSUN_VERSION_MAJOR && c->length == LENGTH && c->sum == sum_of(c);
}

/* The newer of two whole copies, the one that is whole, or NULL. Turns may pass their largest. */
static const copy *newest(const copy copies[2])
{
    int first = is_whole(&copies[0]), second = is_whole(&copies[1]);
    if (first && second) {
        return (int32_t)(copies[1].turn - copies[0].turn) > 0 ? &copies[1] : &copies[0];
    }
    return first ? &copies[0] : second ? &copies[1] : NULL;
}

/* Stands for the driver of the memory that keeps the copies: power may go after any byte. */
static void put(copy *to, const copy *from, size_t bytes)
{
    memcpy(to, from, bytes);
}

/* Overwrites the copy that is not the newest, so that one whole copy stays whatever happens. */
static void save(copy copies[2], const uint8_t *area, size_t bytes)
{
    static copy made;
    const copy *last = newest(copies);
    made.version = KERNELSUN_VERSION_MAJOR;
    made.turn = last == NULL ? 0 : last->turn + 1;
    made.length = LENGTH;
    memcpy(made.area, area, LENGTH);
    made.sum = sum_of(&made);
    put(last == &copies[0] ? &copies[1] : &copies[0], &made, bytes);
}

/* Gives 1 where a whole copy was brought back, and else leaves the area as it is. */
static int bring_back(const copy copies[2], uint8_t *area)
{
    const copy *last = newest(copies);
    if (last == NULL) {
        return 0;
    }
    memcpy(area, last->area, LENGTH);
    return 1;
}

/* ---- Ending what was open ---- */

/*
 * Steps all threads with open work in turn until all are idle, and gives 1; or 0
 * where a step was refused, or where nothing moved for so long that no area of
 * format() could be in that state. Nobody is left to take the answers. With a
 * chip, step and act as examples/chip.c does.
 */
static int end_open_work(uint8_t *area, size_t len)
{
    uint32_t rounds = KERNELSUN_THREADS_MOST * kernelsun_last_line(KERNELSUN_LEVEL);
    for (uint32_t round = 0; round <= rounds; round++) {
        int open = 0;
        for (uint32_t thread = 0; thread < kernelsun_t(area); thread++) {
            if (kernelsun_operation(area, thread) == 0) {
                continue;
            }
            open = 1;
            if (kernelsun_number(step(area, len, thread)) > KERNELSUN_BLOCKED) {
                return 0;
            }
        }
        if (!open) {
            return 1;
        }
    }
    return 0;
}

/* ---- Trying them ---- */

static void stop_unless(int good, const char *what)
{
    if (!good) {
        fprintf(stderr, "recipes: %s\n", what);
        exit(1);
    }
}

static void open_operation(uint8_t *area, uint32_t thread, uint32_t op, uint32_t n, uint32_t c)
{
    stop_unless(kernelsun_number(begin(area, LENGTH, thread, op, n, c)) == KERNELSUN_WENT,
                "begin was refused");
}

/* The content of a logical block, where nobody works on it. */
static uint32_t content_of(const uint8_t *area, uint32_t n)
{
    uint32_t p = kernelsun_map(area, n);
    return p == KERNELSUN_NONE ? 0 : kernelsun_content(area, p);
}

int main(void)
{
    static copy copies[2];
    uint8_t *area = area_in_page();
    memset(page, 0xee, sizeof page);
    stop_unless(PAGE_HEAD + LENGTH <= PAGE, "the page is too small");
    stop_unless(kernelsun_number(format(area, LENGTH, THREADS, LOGICAL, PHYSICAL, DISTANCE)) ==
                    KERNELSUN_WENT,
                "format was refused");
    stop_unless(page[PAGE_HEAD - 1] == 0xee && page[PAGE_HEAD + LENGTH] == 0xee,
                "the page around the area was touched");

    stop_unless(!bring_back(copies, area), "an empty copy was brought back");
    save(copies, area, sizeof(copy));

    open_operation(area, 0, KERNELSUN_WRITE, 0, 7);
    open_operation(area, 1, KERNELSUN_WRITE, 1, 9);
    for (int turn = 0; turn < 5; turn++) {
        for (uint32_t thread = 0; thread < THREADS; thread++) {
            stop_unless(kernelsun_number(step(area, LENGTH, thread)) <= KERNELSUN_BLOCKED,
                        "a step was refused");
        }
    }
    save(copies, area, sizeof(copy));
    printf("saved with t0 at %s and t1 at %s\n", kernelsun_thread_label(area, 0),
           kernelsun_thread_label(area, 1));

    stop_unless(end_open_work(area, LENGTH), "the work did not end");
    save(copies, area, sizeof(copy) / 2);
    printf("the next save was torn\n");

    memset(area, 0, LENGTH);
    stop_unless(bring_back(copies, area), "no copy is whole");
    printf("brought back with t0 at %s and t1 at %s\n", kernelsun_thread_label(area, 0),
           kernelsun_thread_label(area, 1));
    stop_unless(end_open_work(area, LENGTH), "the work that was brought back did not end");
    printf("ended: block 0 holds %u, block 1 holds %u\n", (unsigned)content_of(area, 0),
           (unsigned)content_of(area, 1));
    return content_of(area, 0) == 7 && content_of(area, 1) == 9 ? 0 : 1;
}
