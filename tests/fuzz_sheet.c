/*
 * Compares add_area with the reference, call by call: number, value and each byte
 * of the tally. Areas are grown from fresh under random schedules, some with
 * headers, wear, block locks and block owners made at random, damaged in one word,
 * of odd lengths, or any bytes. Tallies are zeros, what the last call left, right
 * ones, often at a bound, ones with a field past its bound, or any words.
 *
 *     fuzz_sheet [SEED [CALLS [SECONDS]]]
 *
 * It fails at the first difference, if an outcome was never met, and if the time
 * ran out before that many calls were made.
 */
#include <stdio.h>
#include <stdlib.h>
#include <string.h>

#include "fuzz.h"
#include "kit.h"
#include "reference.h"

static area now;   /* what the next call adds */
static tally lent; /* and what to */

/* ---- The bounds of a tally, in the order in which document 02 names them ---- */

enum { OF_AREAS, OF_SKIPPED, OF_BLOCKS, OF_FREE, OF_SUM, BOUNDS };

static const char *const bound_names[BOUNDS] = {"areas", "skipped", "blocks", "free", "sum"};

static uint64_t value_of(const tally *t, int which)
{
    const uint64_t values[BOUNDS] = {t->areas, t->skipped, t->blocks, t->free, t->sum};
    return values[which];
}

/* The most that a field may be, by the fields before it, which are within theirs. */
static uint64_t bound_of(const tally *t, int which)
{
    switch (which) {
    case OF_AREAS: return 200;
    case OF_SKIPPED: return t->areas;
    case OF_BLOCKS: return 512 * (uint64_t)(t->areas - t->skipped);
    case OF_FREE: return t->blocks;
    default: return 4294967295u * (uint64_t)t->blocks;
    }
}

static void put_value(tally *t, int which, uint64_t value)
{
    uint32_t *const fields[] = {&t->areas, &t->skipped, &t->blocks, &t->free};
    if (which == OF_SUM) {
        t->sum = value;
    } else {
        *fields[which] = (uint32_t)value;
    }
}

/* The first field past its bound; BOUNDS where there is none. */
static int first_past(const tally *t)
{
    int which = 0;
    while (which < BOUNDS && value_of(t, which) <= bound_of(t, which)) {
        which++;
    }
    return which;
}

/* ---- What was met ---- */

enum {
    FULL_GOOD, FULL_MALFORMED, PAST_AT_200, MALFORMED, MALFORMED_FIRST, FIRST_BLOCKS, MORE_BLOCKS,
    OPEN_WORK, READ_BY_SOME, WRITTEN, LEAST_LOWERED, LEAST_STAYS, LEAST_EQUAL, MOST_RAISED,
    MOST_STAYS, MOST_EQUAL, GARBAGE_UNREAD, LARGEST_AREA, ACTS
};

static const char *const act_names[ACTS] = {
    "FULL, a well-formed area", "FULL, a malformed area", "TALLY with 200 areas", "malformed",
    "malformed before the first block", "first blocks", "more blocks", "open work",
    "a block with several readers", "a block with a writer",
    "least lowered", "least stays", "least equalled", "most raised", "most stays",
    "most equalled", "least and most not read, beyond the first blocks' own", "the largest area",
};

static unsigned long acts[ACTS];
static unsigned long past[BOUNDS], just_past[BOUNDS], just_within[BOUNDS];

/* The least and the most wear of an area that is well formed. */
static void wear_of_now(uint32_t *least, uint32_t *most)
{
    *least = *most = kernelsun_wear(now.bytes, 0);
    for (uint32_t p = 1; p < kernelsun_p(now.bytes); p++) {
        uint32_t wear = kernelsun_wear(now.bytes, p);
        *least = wear < *least ? wear : *least;
        *most = wear > *most ? wear : *most;
    }
}

static int has_open_work(void)
{
    int open = 0;
    for (uint32_t thread = 0; thread < kernelsun_t(now.bytes); thread++) {
        open |= kernelsun_operation(now.bytes, thread) != 0;
    }
    return open;
}

static void count_owners(void)
{
    for (uint32_t p = 0; p < kernelsun_p(now.bytes); p++) {
        uint32_t readers = kernelsun_block_readers(now.bytes, p);
        acts[READ_BY_SOME] += (readers & (readers - 1)) != 0;
        acts[WRITTEN] += kernelsun_block_writer(now.bytes, p) != KERNELSUN_NONE;
    }
}

static void count_good(const tally *before)
{
    uint32_t least, most;
    wear_of_now(&least, &most);
    count_owners();
    acts[OPEN_WORK] += has_open_work();
    acts[LARGEST_AREA] += now.len == KERNELSUN_LENGTH_MOST;
    if (before->blocks == 0) {
        acts[FIRST_BLOCKS]++;
        acts[GARBAGE_UNREAD] += before->least < least && before->most > most;
        return;
    }
    acts[MORE_BLOCKS]++;
    acts[LEAST_LOWERED] += least < before->least;
    acts[LEAST_STAYS] += least > before->least;
    acts[LEAST_EQUAL] += least == before->least;
    acts[MOST_RAISED] += most > before->most;
    acts[MOST_STAYS] += most < before->most;
    acts[MOST_EQUAL] += most == before->most;
}

static void count_went(const tally *before, const tally *after)
{
    if (after->skipped == before->skipped) {
        count_good(before);
    } else {
        acts[MALFORMED]++;
        acts[MALFORMED_FIRST] += before->blocks == 0;
    }
}

/* A tally of zeros shows whether the area that was not taken is well formed. */
static void count_full(void)
{
    tally other = {0};
    ref_add_area(&other, now.bytes, now.len);
    acts[other.skipped == 0 ? FULL_GOOD : FULL_MALFORMED]++;
}

static void count(const tally *before, const tally *after, uint32_t number)
{
    int which = first_past(before);
    if (number == KERNELSUN_TALLY && which < BOUNDS) {
        past[which]++;
        just_past[which] += value_of(before, which) == bound_of(before, which) + 1;
        acts[PAST_AT_200] += before->areas == 200;
        return;
    }
    for (int i = 0; i < BOUNDS; i++) {
        just_within[i] += value_of(before, i) == bound_of(before, i);
    }
    if (number == KERNELSUN_FULL) {
        count_full();
    } else {
        count_went(before, after);
    }
}

static int report_bounds(void)
{
    int whole = 1;
    for (int i = 0; i < BOUNDS; i++) {
        int met = past[i] != 0 && just_past[i] != 0 && just_within[i] != 0;
        printf("  %-7s TALLY first for it %lu, by one %lu, taken or FULL at its bound %lu%s\n",
               bound_names[i], past[i], just_past[i], just_within[i], met ? "" : "  NEVER MET");
        whole &= met;
    }
    return whole;
}

/* Prints what was met in short. Gives 0 if something never was, and names it. */
static int all_was_met(void)
{
    int bounds = report_bounds();
    return all_met("outcomes", act_names, acts, ACTS) && bounds;
}

/* ---- One call on both sides ---- */

static void print_line(const char *what, uint64_t r, const tally *t)
{
    printf("%s ", what);
    print_result(r);
    printf(": ");
    print_tally(t);
    printf("\n");
}

static void print_area(void)
{
    printf("the area has %u bytes; its words that aren't 0:\n", (unsigned)now.len);
    for (size_t i = 0; i < now.len / BYTES_IN_WORD; i++) {
        if (kernelsun_word(now.bytes, i) != 0) {
            printf("  word %u: %u\n", (unsigned)i, (unsigned)kernelsun_word(now.bytes, i));
        }
    }
}

/* Adds `now` to `lent` on both sides, compares, and leaves the tally after it in `lent`. */
static void compare(void)
{
    tally before = lent, reference_after = lent;
    uint64_t door = add_through_door(&lent, &now);
    uint64_t reference = ref_add_area(&reference_after, now.bytes, now.len);
    calls_made++;
    if (door != reference || memcmp(&lent, &reference_after, sizeof lent) != 0) {
        printf("FAILED: door and reference differ, at call %llu of seed %llu\n", calls_made, seed);
        printf("tally before: ");
        print_tally(&before);
        printf("\n");
        print_line("the door gave     ", door, &lent);
        print_line("the reference gave", reference, &reference_after);
        print_area();
        exit(1);
    }
    count(&before, &lent, kernelsun_number(door));
}

/* ---- Areas ---- */

static kernelsun_sizes some_sizes(void)
{
    kernelsun_sizes s = {chance_between(&dice, 1, 4), chance_between(&dice, 1, 4), 0,
                         chance_between(&dice, 1, 3)};
    uint32_t spare = 4;
    if (chance_one_in(&dice, 50)) {
        s.t = chance_between(&dice, 1, KERNELSUN_THREADS_MOST);
        s.n = chance_between(&dice, 1, KERNELSUN_LOGICAL_MOST);
        spare = KERNELSUN_PHYSICAL_MOST - s.n;
    } else if (chance_one_in(&dice, 200)) {
        kernelsun_sizes most = {KERNELSUN_THREADS_MOST, KERNELSUN_LOGICAL_MOST,
                                KERNELSUN_PHYSICAL_MOST, KERNELSUN_DISTANCE_MOST};
        return most;
    }
    s.p = s.n + chance_between(&dice, 1, spare);
    return s;
}

/* From fresh, through the door, under a random schedule. */
static void grow(uint32_t entries)
{
    kernelsun_sizes s = some_sizes();
    call c = call_format(s.t, s.n, s.p, s.d);
    now.len = KERNELSUN_LENGTH(s.t, s.n, s.p);
    through_door(&c, &now);
    for (uint32_t i = 0; i < entries; i++) {
        uint32_t thread = chance_below(&dice, s.t);
        c = call_step(thread);
        if (kernelsun_operation(now.bytes, thread) == 0) {
            c = call_begin(thread, chance_between(&dice, KERNELSUN_WRITE, KERNELSUN_LEVEL),
                           chance_below(&dice, s.n), chance_word(&dice));
        }
        through_door(&c, &now);
    }
}

/* Small, around a ground or anywhere. */
static uint32_t some_wear(uint32_t ground)
{
    switch (chance_below(&dice, 4)) {
    case 0: return chance_hostile(&dice);
    case 1: return chance_below(&dice, 5);
    default: return ground + chance_below(&dice, 5);
    }
}

/* Headers and wear made at random; in one area of eight all wear is the largest. */
static void wear_at_random(void)
{
    kernelsun_sizes s = kernelsun_sizes_of(now.bytes);
    uint32_t ground = chance_hostile(&dice);
    int largest = chance_one_in(&dice, 8);
    for (uint32_t p = 0; p < s.p; p++) {
        uint32_t header = chance_one_in(&dice, 2) ? 0 : chance_between(&dice, 1, s.n);
        put_word(now.bytes, kernelsun_at_block(&s, p, KERNELSUN_BLOCK_HEADER), header);
        put_word(now.bytes, kernelsun_at_block(&s, p, KERNELSUN_BLOCK_WEAR),
                 largest ? KERNELSUN_WEAR_MOST : some_wear(ground));
    }
}

/* Locks and owners made at random, in one of three areas one of them malformed. */
static void hold_at_random(void)
{
    kernelsun_sizes s = kernelsun_sizes_of(now.bytes);
    size_t bad = chance_one_in(&dice, 3) ? chance_below(&dice, s.n + s.p) : s.n + s.p;
    for (uint32_t i = 0; i < s.n + s.p; i++) {
        size_t word = i < s.n ? kernelsun_at_lock(&s, i)
                              : kernelsun_at_block(&s, i - s.n, KERNELSUN_BLOCK_OWNER);
        put_word(now.bytes, word,
                 i == bad ? some_malformed_holders(s.t)
                          : some_holders(s.t, chance_below(&dice, s.t)));
    }
}

static void damage(void)
{
    uint32_t words = (uint32_t)(now.len / BYTES_IN_WORD);
    size_t word = chance_below(&dice, chance_one_in(&dice, 3) ? KERNELSUN_HEAD_WORDS : words);
    uint32_t near_by = kernelsun_word(now.bytes, word) + chance_between(&dice, 0, 2) - 1;
    put_word(now.bytes, word, chance_one_in(&dice, 2) ? near_by : chance_hostile(&dice));
}

static void lengthen_or_shorten(void)
{
    switch (chance_below(&dice, 4)) {
    case 0: now.len = chance_below(&dice, 28); break;
    case 1: now.len += chance_below(&dice, 9); break;
    case 2: now.len -= chance_below(&dice, 9); break;
    default: now.len = chance_below(&dice, AREA_ROOM); break;
    }
}

static void fill_at_random(void)
{
    now.len = chance_below(&dice, 400);
    for (size_t i = 0; i < now.len; i++) {
        now.bytes[i] = (uint8_t)chance_word(&dice);
    }
}

static void make_area(void)
{
    grow(chance_below(&dice, 60));
    if (!chance_one_in(&dice, 3)) {
        wear_at_random();
    }
    switch (chance_below(&dice, 10)) {
    case 0: case 1: damage(); break;
    case 2: lengthen_or_shorten(); break;
    case 3: fill_at_random(); break;
    case 4: case 5: hold_at_random(); break;
    default: break;
    }
}

/* ---- Tallies ---- */

static uint64_t some_up_to(uint64_t most)
{
    uint64_t wide = (uint64_t)chance_word(&dice) << 32 | chance_word(&dice);
    switch (chance_below(&dice, 6)) {
    case 0: case 1: return most;
    case 2: return most == 0 ? 0 : most - 1;
    case 3: return 0;
    default: return wide % (most + 1);
    }
}

/* Some block's wear, or near it; or anything. */
static uint32_t some_extreme(void)
{
    if (!kernelsun_viewable(now.bytes, now.len) || chance_one_in(&dice, 3)) {
        return chance_hostile(&dice);
    }
    uint32_t p = chance_below(&dice, kernelsun_p(now.bytes));
    return kernelsun_wear(now.bytes, p) + chance_between(&dice, 0, 2) - 1;
}

static void lend_right(void)
{
    for (int which = 0; which < BOUNDS; which++) {
        put_value(&lent, which, some_up_to(bound_of(&lent, which)));
    }
    lent.least = some_extreme();
    lent.most = some_extreme();
}

/* One field past its bound: by one, by a power of two or anywhere. */
static void lend_past(void)
{
    lend_right();
    int which = (int)chance_below(&dice, BOUNDS);
    uint64_t by = chance_one_in(&dice, 2)   ? 1
                  : chance_one_in(&dice, 2) ? (uint64_t)1 << chance_below(&dice, 64)
                                            : chance_hostile(&dice);
    put_value(&lent, which, bound_of(&lent, which) + by);
}

static void lend_any(void)
{
    lent.areas = chance_hostile(&dice);
    lent.skipped = chance_hostile(&dice);
    lent.blocks = chance_hostile(&dice);
    lent.free = chance_hostile(&dice);
    lent.least = chance_hostile(&dice);
    lent.most = chance_hostile(&dice);
    lent.sum = (uint64_t)chance_hostile(&dice) << 32 | chance_hostile(&dice);
}

/* In five of twelve the tally stays as the last call left it. */
static void lend(void)
{
    switch (chance_below(&dice, 12)) {
    case 0: memset(&lent, 0, sizeof lent); break;
    case 1: case 2: case 3: lend_right(); break;
    case 4: case 5: lend_past(); break;
    case 6: lend_any(); break;
    default: break;
    }
}

/* ---- The run ---- */

static void one_round(void)
{
    make_area();
    for (int i = 0; i < 8; i++) {
        lend();
        compare();
    }
}

int main(int argc, char **argv)
{
    static const fuzz_plan plan = {"fuzz_sheet", 400000, one_round, all_was_met};
    return fuzz(&plan, argc, argv);
}
