/*
 * See kit.h. A guarded room is a run of pages between two pages without any
 * access: a door that reads or writes beyond what lies there is stopped by the
 * processor on one side and found by the guard bytes on the other.
 */
#define _DEFAULT_SOURCE
#include "kit.h"

#include <stdio.h>
#include <stdlib.h>
#include <string.h>
#include <sys/mman.h>

enum { PAGE = 4096, ROOM_PAGES = 4, ROOM = PAGE * ROOM_PAGES, GUARD_BYTES = 64, GUARD = 0xa5 };

call call_format(uint32_t t, uint32_t n, uint32_t p, uint32_t d)
{
    call c = {CALL_FORMAT, {t, n, p, d}};
    return c;
}

call call_begin(uint32_t thread, uint32_t op, uint32_t n, uint32_t c_word)
{
    call c = {CALL_BEGIN, {thread, op, n, c_word}};
    return c;
}

call call_step(uint32_t thread)
{
    call c = {CALL_STEP, {thread, 0, 0, 0}};
    return c;
}

const kernelsun_sizes sizes_outside[SIZES_OUTSIDE] = {
    {0, 1, 2, 1},    {17, 1, 2, 1},          {1, 0, 2, 1},   {1, 257, 258, 1},
    {1, 1, 1, 1},    {1, 256, 256, 1},       {1, 1, 513, 1}, {1, 1, 2, 0},
    {1, 1, 2, 1001}, {1, 1, 2, 0xffffffffu}, {0, 0, 0, 0},
};

/* ---- The guarded rooms ---- */

static void allow(uint8_t *pages, size_t bytes, int access)
{
    if (mprotect(pages, bytes, access) != 0) {
        perror("no access to a guarded room");
        exit(2);
    }
}

static uint8_t *make_room(size_t bytes)
{
    uint8_t *pages = mmap(NULL, bytes + 2 * PAGE, PROT_NONE, MAP_PRIVATE | MAP_ANONYMOUS, -1, 0);
    if (pages == MAP_FAILED) {
        perror("no guarded room");
        exit(2);
    }
    allow(pages + PAGE, bytes, PROT_READ | PROT_WRITE);
    return pages + PAGE;
}

/* Of the area. */
static uint8_t *the_room(void)
{
    static uint8_t *room;
    if (room == NULL) {
        room = make_room(ROOM);
    }
    return room;
}

/* Of the tally. */
static uint8_t *the_page(void)
{
    static uint8_t *page;
    if (page == NULL) {
        page = make_room(PAGE);
    }
    return page;
}

static uint8_t *place_in(uint8_t *room, size_t len, unsigned place)
{
    if (place == PLACE_UPPER) {
        return room + ROOM - len;
    }
    if (place == PLACE_LOWER) {
        return room;
    }
    return room + GUARD_BYTES + (place - PLACE_ODD) + 1;
}

/* How many guard bytes there are between two addresses. */
static size_t guards(const uint8_t *from, const uint8_t *to)
{
    size_t there = (size_t)(to - from);
    return there < GUARD_BYTES ? there : GUARD_BYTES;
}

/* The call is NULL where it was add_area. */
static void check_guards(const uint8_t *from, size_t count, const call *c, const char *where)
{
    for (size_t i = 0; i < count; i++) {
        if (from[i] != GUARD) {
            printf("a byte %s was changed by ", where);
            if (c != NULL) {
                print_call(c);
            } else {
                printf("add_area");
            }
            printf("\n");
            exit(1);
        }
    }
}

static uint64_t make_call(const call *c, uint8_t *at, size_t len)
{
    const uint32_t *a = c->argument;
    switch (c->which) {
    case CALL_FORMAT: return format(at, len, a[0], a[1], a[2], a[3]);
    case CALL_BEGIN: return begin(at, len, a[0], a[1], a[2], a[3]);
    default: return step(at, len, a[0]);
    }
}

uint64_t through_door(const call *c, area *a)
{
    static unsigned turn;
    uint8_t *room = the_room(), *at = place_in(room, a->len, turn++ % PLACES);
    size_t before = guards(room, at), after = guards(at + a->len, room + ROOM);
    memset(at - before, GUARD, before);
    memset(at + a->len, GUARD, after);
    memcpy(at, a->bytes, a->len);
    uint64_t r = make_call(c, at, a->len);
    memcpy(a->bytes, at, a->len);
    check_guards(at - before, before, c, "before the area");
    check_guards(at + a->len, after, c, "after the area");
    return r;
}

const uint8_t *placed(const area *a, unsigned place)
{
    uint8_t *at = place_in(the_room(), a->len, place);
    memcpy(at, a->bytes, a->len);
    return at;
}

/* The places of the tally have the alignment that its type asks for, and one of them no more. */
static uint64_t add_guarded(tally *t, const uint8_t *area_at, size_t len, unsigned turn)
{
    static const size_t places[] = {0, GUARD_BYTES + sizeof t->sum, PAGE - sizeof *t};
    uint8_t *page = the_page(), *at = page + places[turn % (sizeof places / sizeof places[0])];
    size_t before = guards(page, at), after = guards(at + sizeof *t, page + PAGE);
    memset(at - before, GUARD, before);
    memset(at + sizeof *t, GUARD, after);
    memcpy(at, t, sizeof *t);
    uint64_t r = add_area((tally *)(void *)at, area_at, len);
    memcpy(t, at, sizeof *t);
    check_guards(at - before, before, NULL, "before the tally");
    check_guards(at + sizeof *t, after, NULL, "after the tally");
    return r;
}

uint64_t add_through_door(tally *t, const area *a)
{
    static unsigned turn;
    const uint8_t *at = placed(a, turn % PLACES);
    allow(the_room(), ROOM, PROT_READ);
    uint64_t r = add_guarded(t, at, a->len, turn++);
    allow(the_room(), ROOM, PROT_READ | PROT_WRITE);
    return r;
}

/* ---- Printing ---- */

void print_call(const call *c)
{
    const uint32_t *a = c->argument;
    switch (c->which) {
    case CALL_FORMAT:
        printf("format(t %u, n %u, p %u, d %u)", (unsigned)a[0], (unsigned)a[1], (unsigned)a[2],
               (unsigned)a[3]);
        break;
    case CALL_BEGIN:
        printf("begin(thread %u, op %u, n %u, c %u)", (unsigned)a[0], (unsigned)a[1],
               (unsigned)a[2], (unsigned)a[3]);
        break;
    default: printf("step(thread %u)", (unsigned)a[0]);
    }
}

void print_result(uint64_t r)
{
    printf("%u (%s) with %u", (unsigned)kernelsun_number(r), kernelsun_name(kernelsun_number(r)),
           (unsigned)kernelsun_value(r));
}

void print_tally(const tally *t)
{
    printf("areas %u, skipped %u, blocks %u, free %u, least %u, most %u, sum %llu",
           (unsigned)t->areas, (unsigned)t->skipped, (unsigned)t->blocks, (unsigned)t->free,
           (unsigned)t->least, (unsigned)t->most, (unsigned long long)t->sum);
}

static void print_record_word(const char *what, const char *const names[], size_t words,
                              size_t offset)
{
    printf("%s %u %s", what, (unsigned)(offset / words), names[offset % words]);
}

void print_word_name(const kernelsun_sizes *s, size_t index)
{
    static const char *const head[] = {"T", "N", "P", "D", "header lock", "headers' owner"};
    static const char *const thread[] = {"operation", "line", "n", "c", "p", "q", "h"};
    static const char *const block[] = {"header", "content", "wear", "owner"};
    if (index < KERNELSUN_HEAD_WORDS) {
        printf("%s", head[index]);
    } else if (index < kernelsun_at_map(s, 0)) {
        print_record_word("thread", thread, KERNELSUN_THREAD_WORDS, index - KERNELSUN_HEAD_WORDS);
    } else if (index < kernelsun_at_lock(s, 0)) {
        printf("map %u", (unsigned)(index - kernelsun_at_map(s, 0)));
    } else if (index < kernelsun_at_block(s, 0, 0)) {
        printf("block lock %u", (unsigned)(index - kernelsun_at_lock(s, 0)));
    } else {
        print_record_word("block", block, KERNELSUN_BLOCK_WORDS,
                          index - kernelsun_at_block(s, 0, 0));
    }
}

void print_differences(const area *before, const char *left_name, const area *left,
                       const char *right_name, const area *right)
{
    size_t words = left->len / BYTES_IN_WORD;
    kernelsun_sizes s = {0, 0, 0, 0};
    if (words >= KERNELSUN_HEAD_WORDS) {
        s = kernelsun_sizes_of(right->bytes);
    }
    for (size_t i = 0; i < words; i++) {
        uint32_t l = kernelsun_word(left->bytes, i), r = kernelsun_word(right->bytes, i);
        if (l != r) {
            printf("  word %u, ", (unsigned)i);
            print_word_name(&s, i);
            printf(": before %u, %s %u, %s %u\n", (unsigned)kernelsun_word(before->bytes, i),
                   left_name, (unsigned)l, right_name, (unsigned)r);
        }
    }
    for (size_t i = words * BYTES_IN_WORD; i < left->len; i++) {
        if (left->bytes[i] != right->bytes[i]) {
            printf("  byte %u: %s %u, %s %u\n", (unsigned)i, left_name, left->bytes[i], right_name,
                   right->bytes[i]);
        }
    }
}
