/* The state, what is open and the wear. See show.h. */
#include "show.h"

#include <stdio.h>

#include "kernelsun_view.h"
#include "page.h"

/* From so many on, entries that follow one another are drawn together. */
enum { RUN_LEAST = 4 };

/* Prints a part of the state: beside the one before if it fits there whole, else on a new line. */
static void print_part(void)
{
    if (column() + 2 + gathered() > PAGE_WIDTH) {
        end_line();
    }
    go_to(column() == 0 ? STATE_AT : column() + 2);
    print_gathered(STATE_AT + 2);
}

static void show_holder(const char *what, uint32_t thread)
{
    if (thread == KERNELSUN_NONE) {
        add("%s -", what);
    } else {
        add("%s t%u", what, (unsigned)thread);
    }
    print_part();
}

/* Idle threads beside one another are drawn together. */
static void show_threads(const uint8_t *area)
{
    uint32_t end = kernelsun_t(area), run;
    for (uint32_t t = 0; t < end; t += run) {
        const char *gap = t == 0 ? "" : " ";
        for (run = 0; t + run < end && kernelsun_operation(area, t + run) == 0;) {
            run++;
        }
        if (run >= RUN_LEAST) {
            add("%st%u-t%u:idle", gap, (unsigned)t, (unsigned)(t + run - 1));
            continue;
        }
        add("%st%u:%s", gap, (unsigned)t, run > 0 ? "idle" : kernelsun_thread_label(area, t));
        run = 1;
    }
    print_part();
}

/* After its name, a part that has entries is printed; one that has none is a dash, or left out. */
static void end_entries(size_t name, int always)
{
    if (gathered() == name && !always) {
        forget();
        return;
    }
    if (gathered() == name) {
        add(" -");
    }
    print_part();
}

static size_t begin_entries(const char *name)
{
    add("%s", name);
    return gathered();
}

/* Threads that a step would leave where they are, each with the lock that it waits for. */
static void show_waits(const uint8_t *area)
{
    size_t name = begin_entries("waits");
    for (uint32_t t = 0; t < kernelsun_t(area); t++) {
        uint32_t lock = kernelsun_next_lock(area, t);
        if (kernelsun_waits_for(area, t) == 0) {
            continue;
        }
        if (lock == KERNELSUN_LOCK_H) {
            add(" t%u:H", (unsigned)t);
        } else {
            add(" t%u:%u", (unsigned)t, (unsigned)lock);
        }
    }
    end_entries(name, 0);
}

/* Those beside one another are drawn together. */
static void add_set(uint32_t threads)
{
    uint32_t run;
    for (uint32_t t = 0; kernelsun_bit(t) != 0; t += run) {
        for (run = 0; (threads & kernelsun_bit(t + run)) != 0;) {
            run++;
        }
        if (run >= RUN_LEAST) {
            add(" t%u-t%u", (unsigned)t, (unsigned)(t + run - 1));
            continue;
        }
        if (run > 0) {
            add(" t%u", (unsigned)t);
        }
        run = 1;
    }
}

/* Locks that are held, or blocks that are owned, by a writer or by readers. */
typedef uint32_t holders(const uint8_t *area, uint32_t index);

static void show_held(const char *what, const uint8_t *area, uint32_t count, holders *writer,
                      holders *readers)
{
    size_t name = begin_entries(what);
    for (uint32_t i = 0; i < count; i++) {
        if (writer(area, i) != KERNELSUN_NONE) {
            add(" %u:t%u", (unsigned)i, (unsigned)writer(area, i));
        } else if (readers(area, i) != 0) {
            add(" %u:read by", (unsigned)i);
            add_set(readers(area, i));
        }
    }
    end_entries(name, 0);
}

/* Numbers beside one another that are mapped to blocks beside one another are drawn together. */
static void show_map(const uint8_t *area)
{
    size_t name = begin_entries("map");
    uint32_t run;
    for (uint32_t n = 0; n < kernelsun_n(area); n += run) {
        uint32_t p = kernelsun_map(area, n);
        run = 1;
        if (p == KERNELSUN_NONE) {
            continue;
        }
        while (kernelsun_map(area, n + run) == p + run) {
            run++;
        }
        if (run >= RUN_LEAST) {
            add(" %u-%u>%u-%u", (unsigned)n, (unsigned)(n + run - 1), (unsigned)p,
                (unsigned)(p + run - 1));
            continue;
        }
        add(" %u>%u", (unsigned)n, (unsigned)p);
        run = 1;
    }
    end_entries(name, 1);
}

/* Headers that the map does not bear out: a block about to be mapped, or about to be freed. */
static void show_headers(const uint8_t *area)
{
    size_t name = begin_entries("header");
    for (uint32_t p = 0; p < kernelsun_p(area); p++) {
        uint32_t n = kernelsun_header(area, p);
        if (n != KERNELSUN_NONE && kernelsun_map(area, n) != p) {
            add(" %u:%u", (unsigned)p, (unsigned)n);
        }
    }
    end_entries(name, 0);
}

/* Worn blocks; those beside one another that are worn alike are drawn together. */
static void show_worn(const uint8_t *area)
{
    size_t name = begin_entries("wear");
    uint32_t run;
    for (uint32_t p = 0; p < kernelsun_p(area); p += run) {
        uint32_t wear = kernelsun_wear(area, p);
        run = 1;
        if (wear == 0) {
            continue;
        }
        while (kernelsun_wear(area, p + run) == wear) {
            run++;
        }
        if (run >= RUN_LEAST) {
            add(" %u-%u:%u", (unsigned)p, (unsigned)(p + run - 1), (unsigned)wear);
            continue;
        }
        add(" %u:%u", (unsigned)p, (unsigned)wear);
        run = 1;
    }
    end_entries(name, 1);
}

void show_state(const uint8_t *area)
{
    show_holder("H", kernelsun_lock_h(area));
    show_holder("headers", kernelsun_headers_owner(area));
    show_threads(area);
    show_waits(area);
    show_held("locks", area, kernelsun_n(area), kernelsun_lock_writer, kernelsun_lock_readers);
    show_held("owners", area, kernelsun_p(area), kernelsun_block_writer, kernelsun_block_readers);
    show_map(area);
    show_headers(area);
    show_worn(area);
    end_line();
}

/* ---- At the end ---- */

void show_open(const uint8_t *area, size_t len)
{
    size_t name = begin_entries("open:");
    for (uint32_t t = 0; len != 0 && t < kernelsun_t(area); t++) {
        if (kernelsun_operation(area, t) != 0) {
            add(" t%u:%s", (unsigned)t, kernelsun_thread_label(area, t));
        }
    }
    if (gathered() == name) {
        forget();
        return;
    }
    print_gathered(2);
    end_line();
}

void show_wear(const uint8_t *area, size_t len)
{
    uint32_t blocks, free_blocks = 0, least = KERNELSUN_WEAR_MOST, most = 0;
    uint64_t sum = 0;
    if (len == 0) {
        printf("wear: no store\n");
        return;
    }
    blocks = kernelsun_p(area);
    for (uint32_t p = 0; p < blocks; p++) {
        uint32_t wear = kernelsun_wear(area, p);
        free_blocks += kernelsun_header(area, p) == KERNELSUN_NONE;
        least = wear < least ? wear : least;
        most = wear > most ? wear : most;
        sum += wear;
    }
    printf("wear: %u blocks, %u free, least %u, most %u, sum %llu, mean %llu remainder %llu\n",
           (unsigned)blocks, (unsigned)free_blocks, (unsigned)least, (unsigned)most,
           (unsigned long long)sum, (unsigned long long)(sum / blocks),
           (unsigned long long)(sum % blocks));
}
