/*
 * Compares the door with the reference, call by call: number, value and every
 * byte of the area; and what kernelsun_view.h says of the area with whether a
 * step was blocked. Areas come from five sources: grown from fresh under random
 * schedules; well formed but made at random, with locks, owners, lines and
 * registers in all combinations; damaged in one word; of odd lengths; and any
 * of these with hostile arguments.
 *
 *     fuzz_door [SEED [CALLS [SECONDS]]]
 *
 * It fails at the first difference, if a line or an act was never met, and if
 * the time ran out before that many calls were made.
 */
#include <stdio.h>
#include <stdlib.h>
#include <string.h>

#include "coverage.h"
#include "fuzz.h"
#include "kit.h"
#include "reference.h"

static area now; /* what the next call is made on */

/* ---- One call on both sides ---- */

static uint64_t through_reference(const call *c, area *a)
{
    const uint32_t *x = c->argument;
    switch (c->which) {
    case CALL_FORMAT: return ref_format(a->bytes, a->len, x[0], x[1], x[2], x[3]);
    case CALL_BEGIN: return ref_begin(a->bytes, a->len, x[0], x[1], x[2], x[3]);
    default: return ref_step(a->bytes, a->len, x[0]);
    }
}

static void copy_area(area *to, const area *from)
{
    to->len = from->len;
    memcpy(to->bytes, from->bytes, from->len);
}

static void print_area(const area *a)
{
    kernelsun_sizes s = {0, 0, 0, 0};
    size_t words = a->len / BYTES_IN_WORD;
    if (words >= KERNELSUN_HEAD_WORDS) {
        s = kernelsun_sizes_of(a->bytes);
    }
    printf("area before, words that aren't 0:\n");
    for (size_t i = 0; i < words; i++) {
        if (kernelsun_word(a->bytes, i) != 0) {
            printf("  word %u, ", (unsigned)i);
            print_word_name(&s, i);
            printf(": %u\n", (unsigned)kernelsun_word(a->bytes, i));
        }
    }
}

static void fail(const char *why, const call *c, uint64_t door, uint64_t reference,
                 const area *before, const area *door_after, const area *reference_after)
{
    printf("FAILED: %s, at call %llu of seed %llu\ncall ", why, calls_made, seed);
    print_call(c);
    printf(" on %u bytes\n", (unsigned)before->len);
    print_area(before);
    printf("the door gave      ");
    print_result(door);
    printf("\nthe reference gave ");
    print_result(reference);
    printf("\nwords that differ:\n");
    print_differences(before, "door", door_after, "reference", reference_after);
    exit(1);
}

/* What the view says of the area before a begin or a step agrees with what the call gave. */
static int view_agrees(const call *c, uint32_t number, const area *before)
{
    if (c->which == CALL_FORMAT || number == KERNELSUN_SHAPE) {
        return 1;
    }
    return kernelsun_viewable(before->bytes, before->len) &&
           (c->which == CALL_BEGIN ||
            (kernelsun_waits_for(before->bytes, c->argument[0]) != 0) ==
                (number == KERNELSUN_BLOCKED));
}

/* Makes the call on both, compares, and leaves the area after it in `now`. */
static uint64_t compare(call c)
{
    static area before, reference_after;
    copy_area(&before, &now);
    copy_area(&reference_after, &now);
    uint64_t door = through_door(&c, &now);
    uint64_t reference = through_reference(&c, &reference_after);
    calls_made++;
    if (door != reference || memcmp(now.bytes, reference_after.bytes, now.len) != 0) {
        fail("door and reference differ", &c, door, reference, &before, &now, &reference_after);
    }
    if (!view_agrees(&c, kernelsun_number(door), &before)) {
        fail("the view says otherwise", &c, door, reference, &before, &now, &reference_after);
    }
    coverage_count(&c, door, &before, &now);
    return door;
}

/* ---- Sizes ---- */

static uint32_t some_distance(void)
{
    return chance_one_in(&dice, 4) ? chance_between(&dice, 1, KERNELSUN_DISTANCE_MOST)
                                   : chance_between(&dice, 1, 4);
}

/* Mostly small, since few words meet more combinations; sometimes of any size. */
static kernelsun_sizes some_sizes(void)
{
    kernelsun_sizes s = {chance_between(&dice, 1, 4), chance_between(&dice, 1, 4), 0,
                         some_distance()};
    uint32_t spare = 4;
    if (chance_one_in(&dice, 100)) {
        s.t = chance_between(&dice, 1, KERNELSUN_THREADS_MOST);
        s.n = chance_between(&dice, 1, KERNELSUN_LOGICAL_MOST);
        spare = KERNELSUN_PHYSICAL_MOST - s.n;
    } else if (chance_one_in(&dice, 500)) {
        s.t = KERNELSUN_THREADS_MOST;
        s.n = KERNELSUN_LOGICAL_MOST;
        s.p = KERNELSUN_PHYSICAL_MOST;
        return s;
    }
    s.p = s.n + chance_between(&dice, 1, spare);
    return s;
}

/* ---- Grown from fresh ---- */

static void fill_at_random(area *a, size_t len)
{
    a->len = len;
    for (size_t i = 0; i < len; i++) {
        a->bytes[i] = (uint8_t)chance_word(&dice);
    }
}

static void format_now(kernelsun_sizes s)
{
    fill_at_random(&now, KERNELSUN_LENGTH(s.t, s.n, s.p));
    compare(call_format(s.t, s.n, s.p, s.d));
}

static call some_begin(const kernelsun_sizes *s, uint32_t thread)
{
    uint32_t n = chance_below(&dice, s->n);
    uint32_t c = chance_one_in(&dice, 4) ? chance_hostile(&dice) : chance_word(&dice);
    return call_begin(thread, chance_between(&dice, KERNELSUN_WRITE, KERNELSUN_LEVEL), n, c);
}

/*
 * The atomic manager: what each number holds, and what each open read must give.
 * The manager does an operation where it takes its last lock (W2, R1, U2): from
 * there on it has its place. Levelling changes nothing here.
 */
static struct {
    uint32_t content[KERNELSUN_LOGICAL_MOST];
    uint32_t read[KERNELSUN_THREADS_MOST];
} manager;

static void manager_does(uint32_t thread, uint32_t op, uint32_t line, uint32_t n, uint32_t c)
{
    if (op == KERNELSUN_WRITE && line == 2) {
        manager.content[n] = c;
    } else if (op == KERNELSUN_UNMAP && line == 2) {
        manager.content[n] = 0;
    } else if (op == KERNELSUN_READ && line == 1) {
        manager.read[thread] = manager.content[n];
    }
}

/* A step in a grown store: never FAULT, and a read gives what the manager gives. */
static void step_grown(uint32_t thread)
{
    uint32_t op = kernelsun_operation(now.bytes, thread), line = kernelsun_line(now.bytes, thread);
    uint32_t n = kernelsun_register_n(now.bytes, thread);
    uint32_t content = kernelsun_register_c(now.bytes, thread);
    call c = call_step(thread);
    uint64_t r = compare(c);
    if (kernelsun_number(r) == KERNELSUN_FAULT) {
        fail("FAULT in a grown store", &c, r, r, &now, &now, &now);
    }
    if (kernelsun_number(r) == KERNELSUN_WENT) {
        manager_does(thread, op, line, n, content);
    }
    if (kernelsun_number(r) == KERNELSUN_FINISHED && op == KERNELSUN_READ &&
        kernelsun_value(r) != manager.read[thread]) {
        fail("a read doesn't give what the atomic manager gives", &c, r, r, &now, &now, &now);
    }
}

/* One entry of a random schedule. */
static void grow_once(const kernelsun_sizes *s)
{
    uint32_t thread = chance_below(&dice, s->t);
    int idle = kernelsun_operation(now.bytes, thread) == 0;
    if (idle != chance_one_in(&dice, 50)) {
        compare(some_begin(s, thread));
    } else {
        step_grown(thread);
    }
}

static void grow(uint32_t entries)
{
    kernelsun_sizes s = some_sizes();
    format_now(s);
    memset(&manager, 0, sizeof manager);
    for (uint32_t i = 0; i < entries; i++) {
        grow_once(&s);
    }
}

/* Steps all open threads in turn. Gives how many there were. */
static uint32_t step_all_open(const kernelsun_sizes *s)
{
    uint32_t open = 0;
    for (uint32_t thread = 0; thread < s->t; thread++) {
        if (kernelsun_operation(now.bytes, thread) != 0) {
            step_grown(thread);
            open++;
        }
    }
    return open;
}

/*
 * In a grown store, stepping all open threads in turn finishes all of them, as
 * the header promises. Some thread goes on in each round, so there are no more
 * rounds than lines.
 */
static void grow_and_finish(uint32_t entries)
{
    grow(entries);
    kernelsun_sizes s = kernelsun_sizes_of(now.bytes);
    uint32_t rounds = LINES_MOST * s.t;
    while (step_all_open(&s) != 0) {
        if (rounds-- == 0) {
            call c = call_step(0);
            fail("open threads don't finish", &c, 0, 0, &now, &now, &now);
        }
    }
}

/* ---- Made at random ---- */

/* H or the headers' owner: free, the thread that will step, or anyone. */
static uint32_t some_holder(const kernelsun_sizes *s, uint32_t thread)
{
    switch (chance_below(&dice, 5)) {
    case 0: case 1: return 0;
    case 2: case 3: return thread + 1;
    default: return chance_between(&dice, 0, s->t);
    }
}

/* Close to each other, so that there are ties and distances just met, or at an end. */
static uint32_t some_wear(const kernelsun_sizes *s, uint32_t around)
{
    switch (chance_below(&dice, 8)) {
    case 0: return KERNELSUN_WEAR_MOST;
    case 1: return chance_hostile(&dice);
    case 2: return around + s->d;
    default: return around + chance_below(&dice, 3);
    }
}

static uint32_t some_ground_of_wear(const kernelsun_sizes *s)
{
    switch (chance_below(&dice, 3)) {
    case 0: return KERNELSUN_WEAR_MOST - s->d - chance_below(&dice, 3);
    case 1: return KERNELSUN_WEAR_MOST - chance_below(&dice, 3);
    default: return chance_below(&dice, 3);
    }
}

/* Any line of any operation; L3 more often, since it has the most ways to go. */
static void put_line(uint32_t thread)
{
    uint32_t op = chance_between(&dice, KERNELSUN_WRITE, KERNELSUN_LEVEL);
    uint32_t line = chance_between(&dice, 1, kernelsun_last_line(op));
    if (chance_one_in(&dice, 8)) {
        op = KERNELSUN_LEVEL;
        line = 3;
    }
    put_word(now.bytes, kernelsun_at_thread(thread, KERNELSUN_THREAD_OPERATION), op);
    put_word(now.bytes, kernelsun_at_thread(thread, KERNELSUN_THREAD_LINE), line);
}

static void make_thread(const kernelsun_sizes *s, uint32_t thread, int open)
{
    for (size_t field = 0; field < KERNELSUN_THREAD_WORDS; field++) {
        put_word(now.bytes, kernelsun_at_thread(thread, field), 0);
    }
    if (!open) {
        return;
    }
    put_line(thread);
    put_word(now.bytes, kernelsun_at_thread(thread, KERNELSUN_THREAD_N), chance_below(&dice, s->n));
    put_word(now.bytes, kernelsun_at_thread(thread, KERNELSUN_THREAD_C), chance_hostile(&dice));
    put_word(now.bytes, kernelsun_at_thread(thread, KERNELSUN_THREAD_P), chance_below(&dice, s->p));
    put_word(now.bytes, kernelsun_at_thread(thread, KERNELSUN_THREAD_Q), chance_below(&dice, s->p));
    put_word(now.bytes, kernelsun_at_thread(thread, KERNELSUN_THREAD_H),
             chance_between(&dice, 0, s->n));
}

/* All blocks are free in one area of eight, and none is in another one. */
static void make_blocks(const kernelsun_sizes *s, uint32_t thread)
{
    uint32_t ground = some_ground_of_wear(s), kind = chance_below(&dice, 8);
    for (uint32_t p = 0; p < s->p; p++) {
        uint32_t used = kind == 0 ? 0 : kind == 1 ? 1 : chance_below(&dice, 2);
        uint32_t header = used ? chance_between(&dice, 1, s->n) : 0;
        put_word(now.bytes, kernelsun_at_block(s, p, KERNELSUN_BLOCK_HEADER), header);
        put_word(now.bytes, kernelsun_at_block(s, p, KERNELSUN_BLOCK_CONTENT),
                 chance_hostile(&dice));
        put_word(now.bytes, kernelsun_at_block(s, p, KERNELSUN_BLOCK_WEAR), some_wear(s, ground));
        put_word(now.bytes, kernelsun_at_block(s, p, KERNELSUN_BLOCK_OWNER),
                 some_holders(s->t, thread));
    }
}

/* A well-formed area in which that thread has open work. */
static void make_now(const kernelsun_sizes *s, uint32_t thread)
{
    now.len = KERNELSUN_LENGTH(s->t, s->n, s->p);
    put_word(now.bytes, KERNELSUN_AT_T, s->t);
    put_word(now.bytes, KERNELSUN_AT_N, s->n);
    put_word(now.bytes, KERNELSUN_AT_P, s->p);
    put_word(now.bytes, KERNELSUN_AT_D, s->d);
    put_word(now.bytes, KERNELSUN_AT_LOCK, some_holder(s, thread));
    put_word(now.bytes, KERNELSUN_AT_OWNER, some_holder(s, thread));
    for (uint32_t t = 0; t < s->t; t++) {
        make_thread(s, t, t == thread || chance_one_in(&dice, 2));
    }
    for (uint32_t n = 0; n < s->n; n++) {
        uint32_t entry = chance_one_in(&dice, 3) ? 0 : chance_between(&dice, 0, s->p);
        put_word(now.bytes, kernelsun_at_map(s, n), entry);
        put_word(now.bytes, kernelsun_at_lock(s, n), some_holders(s->t, thread));
    }
    make_blocks(s, thread);
}

/* The word of a block lock or of a block's owner. */
static size_t some_place_of_holders(const kernelsun_sizes *s)
{
    return chance_one_in(&dice, 2)
               ? kernelsun_at_lock(s, chance_below(&dice, s->n))
               : kernelsun_at_block(s, chance_below(&dice, s->p), KERNELSUN_BLOCK_OWNER);
}

/* In one area of forty, one of these words is malformed. */
static void step_made_areas(uint32_t count)
{
    kernelsun_sizes s = some_sizes();
    for (uint32_t i = 0; i < count; i++) {
        uint32_t thread = chance_below(&dice, s.t);
        make_now(&s, thread);
        if (chance_one_in(&dice, 40)) {
            put_word(now.bytes, some_place_of_holders(&s), some_malformed_holders(s.t));
        }
        while (kernelsun_number(compare(call_step(thread))) == KERNELSUN_WENT &&
               !chance_one_in(&dice, 3)) {
        }
        compare(call_step(chance_below(&dice, s.t)));
        compare(some_begin(&s, chance_below(&dice, s.t)));
    }
}

/* ---- Damage, odd lengths, hostile arguments ---- */

static void make_any(kernelsun_sizes *s)
{
    if (chance_one_in(&dice, 2)) {
        *s = some_sizes();
        make_now(s, chance_below(&dice, s->t));
    } else {
        grow(chance_below(&dice, 60));
        *s = kernelsun_sizes_of(now.bytes);
    }
}

static void call_all(const kernelsun_sizes *s)
{
    compare(call_step(chance_below(&dice, s->t)));
    compare(some_begin(s, chance_below(&dice, s->t)));
}

/* One word at a time; the area is put back so that damage doesn't add up. */
static void damage(uint32_t count)
{
    static area whole;
    kernelsun_sizes s;
    make_any(&s);
    copy_area(&whole, &now);
    for (uint32_t i = 0; i < count; i++) {
        size_t words = now.len / BYTES_IN_WORD;
        size_t word =
            chance_below(&dice, chance_one_in(&dice, 3) ? KERNELSUN_HEAD_WORDS : (uint32_t)words);
        uint32_t old = kernelsun_word(now.bytes, word);
        uint32_t near_by = old + chance_between(&dice, 0, 2) - 1;
        put_word(now.bytes, word, chance_one_in(&dice, 2) ? near_by : chance_hostile(&dice));
        call_all(&s);
        copy_area(&now, &whole);
    }
}

static size_t some_length(size_t exact)
{
    switch (chance_below(&dice, 4)) {
    case 0: return chance_below(&dice, 28);
    case 1: return exact + chance_below(&dice, 9);
    case 2: return exact - chance_below(&dice, 9);
    default: return chance_below(&dice, AREA_ROOM);
    }
}

static void odd_lengths(uint32_t count)
{
    static area whole;
    kernelsun_sizes s;
    make_any(&s);
    copy_area(&whole, &now);
    for (uint32_t i = 0; i < count; i++) {
        now.len = some_length(whole.len);
        call_all(&s);
        compare(call_format(s.t, s.n, s.p, s.d));
        copy_area(&now, &whole);
    }
}

static void hostile_arguments(uint32_t count)
{
    kernelsun_sizes s;
    make_any(&s);
    for (uint32_t i = 0; i < count; i++) {
        int good = chance_one_in(&dice, 2);
        uint32_t thread = good ? chance_below(&dice, s.t) : chance_hostile(&dice);
        compare(call_step(thread));
        compare(call_begin(thread, chance_hostile(&dice), chance_hostile(&dice),
                           chance_hostile(&dice)));
        compare(call_begin(chance_below(&dice, s.t), chance_between(&dice, 0, 5),
                           chance_between(&dice, s.n - 1, s.n + 1), chance_hostile(&dice)));
    }
}

/* Sizes of which one is at or beyond an edge, with their own length where there is room. */
static void hostile_formats(uint32_t count)
{
    for (uint32_t i = 0; i < count; i++) {
        kernelsun_sizes s = some_sizes();
        uint32_t *field[] = {&s.t, &s.n, &s.p, &s.d};
        *field[chance_below(&dice, 4)] = chance_hostile(&dice);
        size_t len = KERNELSUN_LENGTH(s.t, s.n, s.p);
        if (len > AREA_ROOM || chance_one_in(&dice, 4)) {
            len = chance_below(&dice, 400);
        }
        fill_at_random(&now, len);
        compare(call_format(s.t, s.n, s.p, s.d));
    }
}

/* ---- The run ---- */

static void one_round(void)
{
    switch (chance_below(&dice, 16)) {
    case 0: case 1: case 2: case 3: case 4: grow_and_finish(chance_below(&dice, 300)); break;
    case 5: damage(20); break;
    case 6: odd_lengths(5); break;
    case 7: hostile_arguments(20); break;
    case 8: hostile_formats(10); break;
    default: step_made_areas(20); break;
    }
}

int main(int argc, char **argv)
{
    static const fuzz_plan plan = {"fuzz_door", 1200000, one_round, coverage_is_whole};
    return fuzz(&plan, argc, argv);
}
