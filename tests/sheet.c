/*
 * The wear sheet by fixed expectations: what each area adds, areas that are
 * skipped, the largest figures, lent records at and past each bound, each refusal
 * and their order, areas in every order, and areas with open work.
 *
 * Expectations are written from document 02, §2. Nothing here is computed by the
 * reference. A tally is written as areas, skipped, blocks, free, least, most and
 * sum.
 */
#include "expect.h"

#include <string.h>

#define COUNT(array) (sizeof(array) / sizeof((array)[0]))
#define MOST 0xffffffffu

static const tally zeros;

/* ---- Adding ---- */

static void expect_tally(const tally *found, const tally *wanted)
{
    expect_equal("areas", found->areas, wanted->areas);
    expect_equal("skipped", found->skipped, wanted->skipped);
    expect_equal("blocks", found->blocks, wanted->blocks);
    expect_equal("free", found->free, wanted->free);
    expect_equal("least", found->least, wanted->least);
    expect_equal("most", found->most, wanted->most);
    expect_equal("high word of sum", (uint32_t)(found->sum >> 32), (uint32_t)(wanted->sum >> 32));
    expect_equal("low word of sum", (uint32_t)found->sum, (uint32_t)wanted->sum);
}

static void expect_answer(uint64_t r, uint32_t number)
{
    expect_equal("number", kernelsun_number(r), number);
    expect_equal("value", kernelsun_value(r), 0);
}

static void expect_added(tally *t, const area *a, tally wanted)
{
    expect_answer(add_through_door(t, a), KERNELSUN_WENT);
    expect_tally(t, &wanted);
}

static void expect_skipped(tally *t, const area *a)
{
    tally wanted = *t;
    wanted.areas++;
    wanted.skipped++;
    expect_added(t, a, wanted);
}

static void expect_refused(const tally *t, const area *a, uint32_t number)
{
    tally after = *t;
    expect_answer(add_through_door(&after, a), number);
    expect_tally(&after, t);
}

/* The tally of that area alone. */
static void expect_alone(const area *a, tally wanted)
{
    tally t = zeros;
    expect_added(&t, a, wanted);
}

/* ---- Areas ---- */

static void put_block(area *a, uint32_t p, uint32_t header, uint32_t wear)
{
    kernelsun_sizes s = kernelsun_sizes_of(a->bytes);
    put_word(a->bytes, kernelsun_at_block(&s, p, KERNELSUN_BLOCK_HEADER), header);
    put_word(a->bytes, kernelsun_at_block(&s, p, KERNELSUN_BLOCK_WEAR), wear);
}

/* Two blocks, of which the second is free. */
static void make_two(area *a, uint32_t first, uint32_t second)
{
    make_fresh(a, 1, 1, 2, 1);
    put_block(a, 0, 1, first);
    put_block(a, 1, 0, second);
}

/* The most that a block lock or a block's owner may be with t threads. */
static uint32_t last_writer(uint32_t t)
{
    return 65536 * t;
}

/* No block worn and all free, and each word that isn't to be counted at its most. */
static void make_busy(area *a, kernelsun_sizes s)
{
    make_fresh(a, s.t, s.n, s.p, s.d);
    const edit head[] = {{KERNELSUN_AT_LOCK, s.t}, {KERNELSUN_AT_OWNER, s.t}};
    apply(a, head, COUNT(head));
    for (uint32_t thread = 0; thread < s.t; thread++) {
        const edit record[] = {
            {kernelsun_at_thread(thread, KERNELSUN_THREAD_OPERATION), KERNELSUN_LEVEL},
            {kernelsun_at_thread(thread, KERNELSUN_THREAD_LINE), LINES_MOST},
            {kernelsun_at_thread(thread, KERNELSUN_THREAD_N), s.n - 1},
            {kernelsun_at_thread(thread, KERNELSUN_THREAD_C), MOST},
            {kernelsun_at_thread(thread, KERNELSUN_THREAD_P), s.p - 1},
            {kernelsun_at_thread(thread, KERNELSUN_THREAD_Q), s.p - 1},
            {kernelsun_at_thread(thread, KERNELSUN_THREAD_H), s.n}};
        apply(a, record, COUNT(record));
    }
    for (uint32_t n = 0; n < s.n; n++) {
        const edit number[] = {{kernelsun_at_map(&s, n), s.p},
                               {kernelsun_at_lock(&s, n), last_writer(s.t)}};
        apply(a, number, COUNT(number));
    }
    for (uint32_t p = 0; p < s.p; p++) {
        const edit block[] = {{kernelsun_at_block(&s, p, KERNELSUN_BLOCK_CONTENT), MOST},
                              {kernelsun_at_block(&s, p, KERNELSUN_BLOCK_OWNER), last_writer(s.t)}};
        apply(a, block, COUNT(block));
    }
}

/* ---- Well-formed areas ---- */

static void check_smallest(void)
{
    static area a;
    tally t = zeros;
    about("the smallest area");
    make_fresh(&a, 1, 1, 2, 1);
    expect_added(&t, &a, (tally){1, 0, 2, 2, 0, 0, 0});
    put_block(&a, 0, 1, 7);
    expect_added(&t, &a, (tally){2, 0, 4, 3, 0, 7, 7});
    put_block(&a, 1, 0, 3);
    expect_added(&t, &a, (tally){3, 0, 6, 4, 0, 7, 17});
    expect_alone(&a, (tally){1, 0, 2, 1, 3, 7, 10});
    put_block(&a, 1, 1, MOST);
    expect_alone(&a, (tally){1, 0, 2, 0, 7, MOST, 4294967302u});
}

static void check_largest(void)
{
    static area a;
    tally t = zeros;
    about("the largest area");
    make_fresh(&a, 16, 256, 512, 1000);
    expect_added(&t, &a, (tally){1, 0, 512, 512, 0, 0, 0});
    for (uint32_t p = 0; p < 512; p++) {
        put_block(&a, p, p < 256 ? p + 1 : 0, 1000 + p);
    }
    expect_added(&t, &a, (tally){2, 0, 1024, 768, 0, 1511, 642816});
    expect_alone(&a, (tally){1, 0, 512, 256, 1000, 1511, 642816});
    put_block(&a, 0, 0, 4);
    put_block(&a, 511, 256, MOST);
    expect_alone(&a, (tally){1, 0, 512, 256, 4, MOST, 4295607604u});
}

static void check_both(void)
{
    static area small, large;
    tally t = zeros;
    about("the smallest and the largest area in one tally");
    make_two(&small, 9, 2);
    make_fresh(&large, 16, 256, 512, 1000);
    put_block(&large, 300, 256, 1);
    expect_added(&t, &small, (tally){1, 0, 2, 1, 2, 9, 11});
    expect_added(&t, &large, (tally){2, 0, 514, 512, 0, 9, 12});
}

/* One block in use and worn, at each place in turn, and nothing else counts. */
static void check_each_block(void)
{
    static const kernelsun_sizes sizes[] = {
        {1, 1, 2, 1}, {16, 1, 2, 1000}, {3, 2, 4, 2}, {1, 256, 257, 1}, {15, 7, 512, 3}};
    static area a;
    about("each block of an area by itself");
    for (size_t i = 0; i < COUNT(sizes); i++) {
        uint32_t blocks = sizes[i].p;
        for (uint32_t p = 0; p < blocks; p++) {
            make_busy(&a, sizes[i]);
            put_block(&a, p, sizes[i].n, 5);
            expect_alone(&a, (tally){1, 0, blocks, blocks - 1, 0, 5, 5});
        }
    }
}

/* ---- Malformed areas ---- */

/* Skipped in a tally of zeros and in one that has seen blocks. */
static void expect_malformed(const area *a)
{
    tally t = zeros, seen = {7, 1, 600, 20, 4, 9, 3000};
    expect_skipped(&t, a);
    expect_skipped(&seen, a);
}

static void check_lengths(void)
{
    static const size_t wrong[] = {0,   1,   15,   16,    23,    24,    116,   119,
                                   121, 124, 4096, 10711, 10712, 10713, 10716, 15999};
    static const size_t wrong_for_longest[] = {0, 23, 24, 10708, 10711, 10713, 10716, 15999};
    static area a;
    about("lengths that aren't exact");
    for (size_t i = 0; i < COUNT(wrong); i++) {
        make_fresh(&a, 2, 1, 2, 1);
        expect_equal("length for T=2, N=1, P=2", (uint32_t)a.len, 120);
        a.len = wrong[i];
        expect_malformed(&a);
    }
    for (size_t i = 0; i < COUNT(wrong_for_longest); i++) {
        make_fresh(&a, 16, 256, 512, 1000);
        a.len = wrong_for_longest[i];
        expect_malformed(&a);
    }
}

static void check_no_stores(void)
{
    static const size_t lengths[] = {0, 1, 4, 24, 92, 120, 10712, 15999};
    static const uint8_t bytes[] = {0, 1, 0x5a, 0xff};
    static area a;
    about("bytes that are no store");
    for (size_t i = 0; i < COUNT(lengths); i++) {
        for (size_t j = 0; j < COUNT(bytes); j++) {
            fill(&a, lengths[i], bytes[j]);
            expect_malformed(&a);
        }
    }
}

static void check_sizes_outside(void)
{
    static area a;
    about("sizes outside the limits in an area of exact length");
    for (size_t i = 0; i < SIZES_OUTSIDE; i++) {
        const kernelsun_sizes *bad = &sizes_outside[i];
        make_fresh(&a, bad->t, bad->n, bad->p, bad->d);
        expect_malformed(&a);
    }
}

/* A word is counted at its most and makes the area malformed past it. */
static void expect_word_limit(size_t word, uint32_t most)
{
    static area a;
    make_busy(&a, (kernelsun_sizes){3, 2, 4, 2});
    put_word(a.bytes, word, most);
    tally t = zeros;
    expect_answer(add_through_door(&t, &a), KERNELSUN_WENT);
    expect_equal("skipped", t.skipped, 0);
    expect_equal("blocks", t.blocks, 4);
    put_word(a.bytes, word, most + 1);
    expect_malformed(&a);
    put_word(a.bytes, word, MOST);
    expect_malformed(&a);
}

/* A block lock or a block's owner: the last writer, all readers, a writer that there isn't. */
static void expect_holders_limit(size_t word, uint32_t t)
{
    static area a;
    expect_word_limit(word, last_writer(t));
    expect_word_limit(word, ((uint32_t)1 << t) - 1);
    make_busy(&a, (kernelsun_sizes){3, 2, 4, 2});
    put_word(a.bytes, word, last_writer(t + 1));
    expect_malformed(&a);
}

static void check_words(void)
{
    kernelsun_sizes s = {3, 2, 4, 2};
    about("words at their most and past it");
    expect_word_limit(KERNELSUN_AT_LOCK, s.t);
    expect_word_limit(KERNELSUN_AT_OWNER, s.t);
    expect_word_limit(kernelsun_at_thread(2, KERNELSUN_THREAD_OPERATION), KERNELSUN_LEVEL);
    expect_word_limit(kernelsun_at_thread(0, KERNELSUN_THREAD_LINE), LINES_MOST);
    expect_word_limit(kernelsun_at_thread(1, KERNELSUN_THREAD_N), s.n - 1);
    expect_word_limit(kernelsun_at_thread(1, KERNELSUN_THREAD_P), s.p - 1);
    expect_word_limit(kernelsun_at_thread(2, KERNELSUN_THREAD_Q), s.p - 1);
    expect_word_limit(kernelsun_at_thread(2, KERNELSUN_THREAD_H), s.n);
    expect_word_limit(kernelsun_at_map(&s, s.n - 1), s.p);
    for (uint32_t n = 0; n < s.n; n++) {
        expect_holders_limit(kernelsun_at_lock(&s, n), s.t);
    }
    for (uint32_t p = 0; p < s.p; p++) {
        expect_word_limit(kernelsun_at_block(&s, p, KERNELSUN_BLOCK_HEADER), s.n);
        expect_holders_limit(kernelsun_at_block(&s, p, KERNELSUN_BLOCK_OWNER), s.t);
    }
    static area a;
    about("an idle record that isn't seven zeros");
    make_fresh(&a, s.t, s.n, s.p, s.d);
    put_word(a.bytes, kernelsun_at_thread(1, KERNELSUN_THREAD_C), 1);
    expect_malformed(&a);
}

/* ---- No blocks seen ---- */

/* What stands in least and most is kept by a malformed area and not read by the first good one. */
static void check_unread(void)
{
    static const uint32_t words[] = {0, 1, 4, 5, 9, 10, 77, MOST - 1, MOST};
    static area bad, good;
    fill(&bad, 92, 0xff);
    make_two(&good, 9, 4);
    about("least and most before the first block");
    for (size_t i = 0; i < COUNT(words); i++) {
        for (size_t j = 0; j < COUNT(words); j++) {
            tally t = {0, 0, 0, 0, words[i], words[j], 0};
            expect_added(&t, &bad, (tally){1, 1, 0, 0, words[i], words[j], 0});
            expect_added(&t, &good, (tally){2, 1, 2, 1, 4, 9, 13});
            expect_added(&t, &bad, (tally){3, 2, 2, 1, 4, 9, 13});
        }
    }
}

/* From then on they are: each bound stays, or gives way to a wear beyond it. */
static void check_extremes(void)
{
    static area a;
    tally t = {1, 0, 2, 1, 4, 9, 13};
    about("least and most after the first block");
    make_two(&a, 9, 4);
    expect_added(&t, &a, (tally){2, 0, 4, 2, 4, 9, 26});
    make_two(&a, 5, 8);
    expect_added(&t, &a, (tally){3, 0, 6, 3, 4, 9, 39});
    make_two(&a, 3, 9);
    expect_added(&t, &a, (tally){4, 0, 8, 4, 3, 9, 51});
    make_two(&a, 4, 10);
    expect_added(&t, &a, (tally){5, 0, 10, 5, 3, 10, 65});
    make_two(&a, MOST, 0);
    expect_added(&t, &a, (tally){6, 0, 12, 6, 0, MOST, 4294967360u});
}

/* ---- 200 areas ---- */

static void check_most_wear(void)
{
    static area a;
    tally t = zeros;
    about("the largest wear in each block of 200 areas");
    make_fresh(&a, 16, 256, 512, 1000);
    for (uint32_t p = 0; p < 512; p++) {
        put_block(&a, p, 256, MOST);
    }
    for (uint32_t i = 1; i <= 200; i++) {
        expect_added(&t, &a, (tally){i, 0, 512 * i, 0, MOST, MOST, 2199023255040u * i});
    }
    expect_tally(&t, &(tally){200, 0, 102400, 0, MOST, MOST, 439804651008000u});
    expect_refused(&t, &a, KERNELSUN_FULL);
}

static void check_all_skipped(void)
{
    static area bad, good;
    tally t = {0, 0, 0, 0, 5, 3, 0};
    about("200 malformed areas, and then a good one");
    fill(&bad, 1, 0);
    make_two(&good, 1, 2);
    for (uint32_t i = 1; i <= 200; i++) {
        expect_added(&t, &bad, (tally){i, i, 0, 0, 5, 3, 0});
    }
    expect_refused(&t, &good, KERNELSUN_FULL);
    expect_refused(&t, &bad, KERNELSUN_FULL);
}

static void check_last_place(void)
{
    static area a;
    tally t = {199, 100, 50, 10, 2, 5, 200};
    about("the 200th area is taken, malformed or not, and the 201st refused");
    make_two(&a, 6, 1);
    tally other = t;
    expect_added(&t, &a, (tally){200, 100, 52, 11, 1, 6, 207});
    expect_refused(&t, &a, KERNELSUN_FULL);
    a.len--;
    expect_refused(&t, &a, KERNELSUN_FULL);
    expect_skipped(&other, &a);
    expect_refused(&other, &a, KERNELSUN_FULL);
    a.len++;
    expect_refused(&other, &a, KERNELSUN_FULL);
}

/* ---- Lent records ---- */

typedef struct {
    const char *what;
    uint32_t number;
    tally lent;
} record;

#define WENT KERNELSUN_WENT
#define TALLY KERNELSUN_TALLY
#define FULL KERNELSUN_FULL
#define SUM_MOST UINT64_MAX

static const record records[] = {
    {"199 areas", WENT, {199, 0, 0, 0, 0, 0, 0}},
    {"200 areas", FULL, {200, 0, 0, 0, 0, 0, 0}},
    {"201 areas", TALLY, {201, 0, 0, 0, 0, 0, 0}},
    {"201 areas, all skipped", TALLY, {201, 201, 0, 0, 0, 0, 0}},
    {"201 areas, all blocks seen", TALLY, {201, 0, 102912, 0, 0, 0, 0}},
    {"256 areas", TALLY, {256, 0, 0, 0, 0, 0, 0}},
    {"2^31 areas", TALLY, {0x80000000u, 0, 0, 0, 0, 0, 0}},
    {"the most areas", TALLY, {MOST, 0, 0, 0, 0, 0, 0}},
    {"the most areas, all skipped", TALLY, {MOST, MOST, 0, 0, 0, 0, 0}},

    {"all of five skipped", WENT, {5, 5, 0, 0, 0, 0, 0}},
    {"six of five skipped", TALLY, {5, 6, 0, 0, 0, 0, 0}},
    {"one of none skipped", TALLY, {0, 1, 0, 0, 0, 0, 0}},
    {"one of none skipped, and a block", TALLY, {0, 1, 1, 0, 0, 0, 0}},
    {"all of 199 skipped", WENT, {199, 199, 0, 0, 0, 0, 0}},
    {"200 of 199 skipped", TALLY, {199, 200, 0, 0, 0, 0, 0}},
    {"all of 200 skipped", FULL, {200, 200, 0, 0, 0, 0, 0}},
    {"201 of 200 skipped", TALLY, {200, 201, 0, 0, 0, 0, 0}},
    {"the most skipped of none", TALLY, {0, MOST, 0, 0, 0, 0, 0}},
    {"the most skipped of none, and the blocks of one", TALLY, {0, MOST, 512, 0, 0, 0, 0}},
    {"the most skipped of 200", TALLY, {200, MOST, 0, 0, 0, 0, 0}},

    {"no area and no block", WENT, {0, 0, 0, 0, 0, 0, 0}},
    {"no area and a block", TALLY, {0, 0, 1, 0, 0, 0, 0}},
    {"an area and its blocks", WENT, {1, 0, 512, 0, 0, 0, 0}},
    {"an area and a block too many", TALLY, {1, 0, 513, 0, 0, 0, 0}},
    {"two areas of three and their blocks", WENT, {3, 1, 1024, 0, 0, 0, 0}},
    {"two areas of three and a block too many", TALLY, {3, 1, 1025, 0, 0, 0, 0}},
    {"only skipped areas and a block", TALLY, {7, 7, 1, 0, 0, 0, 0}},
    {"199 areas and their blocks", WENT, {199, 0, 101888, 0, 0, 0, 0}},
    {"199 areas and a block too many", TALLY, {199, 0, 101889, 0, 0, 0, 0}},
    {"200 areas and their blocks", FULL, {200, 0, 102400, 0, 0, 0, 0}},
    {"200 areas and a block too many", TALLY, {200, 0, 102401, 0, 0, 0, 0}},
    {"an area and the most blocks", TALLY, {1, 0, MOST, 0, 0, 0, 0}},
    {"199 areas and the most blocks", TALLY, {199, 0, MOST, 0, 0, 0, 0}},
    {"an area and 2^31 blocks", TALLY, {1, 0, 0x80000000u, 0, 0, 0, 0}},

    {"all blocks free", WENT, {2, 0, 600, 600, 0, 0, 0}},
    {"one more free than there are", TALLY, {2, 0, 600, 601, 0, 0, 0}},
    {"no block and one free", TALLY, {2, 0, 0, 1, 0, 0, 0}},
    {"all of the most blocks free", WENT, {199, 0, 101888, 101888, 0, 0, 0}},
    {"one more free than the most blocks", TALLY, {199, 0, 101888, 101889, 0, 0, 0}},
    {"the most free", TALLY, {199, 0, 101888, MOST, 0, 0, 0}},
    {"200 areas, all blocks free", FULL, {200, 0, 102400, 102400, 0, 0, 0}},
    {"200 areas, one more free", TALLY, {200, 0, 102400, 102401, 0, 0, 0}},

    {"no block and wear", TALLY, {0, 0, 0, 0, 0, 0, 1}},
    {"no block and wear in the high word", TALLY, {0, 0, 0, 0, 0, 0, 4294967296u}},
    {"no block of four areas and wear", TALLY, {4, 1, 0, 0, 0, 0, 1}},
    {"only skipped areas and wear", TALLY, {4, 4, 0, 0, 0, 0, 1}},
    {"a block and its largest wear", WENT, {1, 0, 1, 0, 0, 0, 4294967295u}},
    {"a block and one more", TALLY, {1, 0, 1, 0, 0, 0, 4294967296u}},
    {"two blocks and 2^32", WENT, {1, 0, 2, 0, 0, 0, 4294967296u}},
    {"two blocks and their largest wear", WENT, {1, 0, 2, 0, 0, 0, 8589934590u}},
    {"two blocks and one more", TALLY, {1, 0, 2, 0, 0, 0, 8589934591u}},
    {"199 areas and their largest wear", WENT, {199, 0, 101888, 0, 0, 0, 437605627752960u}},
    {"199 areas and one more", TALLY, {199, 0, 101888, 0, 0, 0, 437605627752961u}},
    {"200 areas and their largest wear", FULL, {200, 0, 102400, 0, 0, 0, 439804651008000u}},
    {"200 areas and one more", TALLY, {200, 0, 102400, 0, 0, 0, 439804651008001u}},
    {"the largest sum", TALLY, {199, 0, 101888, 0, 0, 0, SUM_MOST}},
    {"the largest sum and no block", TALLY, {0, 0, 0, 0, 0, 0, SUM_MOST}},
    {"2^63", TALLY, {199, 0, 101888, 0, 0, 0, (uint64_t)1 << 63}},
    {"200 areas and the largest sum", TALLY, {200, 0, 102400, 0, 0, 0, SUM_MOST}},

    {"the largest word in each", TALLY, {MOST, MOST, MOST, MOST, MOST, MOST, SUM_MOST}},
    {"each but areas and skipped too large", TALLY, {1, 0, MOST, MOST, 0, 0, SUM_MOST}},
    {"least beyond most", WENT, {1, 0, 2, 0, 9, 3, 12}},
    {"least and most that the sum forbids", WENT, {1, 0, 2, 0, 50, 60, 0}},
    {"the largest least and most", WENT, {1, 0, 2, 0, MOST, MOST, 0}},
};

/* After an area of wear 9 and 4, of which the second block is free. */
static tally with_two(tally t)
{
    int first = t.blocks == 0;
    t.areas++;
    t.blocks += 2;
    t.free++;
    t.least = first || t.least > 4 ? 4 : t.least;
    t.most = first || t.most < 9 ? 9 : t.most;
    t.sum += 13;
    return t;
}

/* Refused with any area; or taken, and what was added shows in each figure. */
static void check_records(void)
{
    static area good, bad, empty;
    make_two(&good, 9, 4);
    make_two(&bad, 9, 4);
    put_word(bad.bytes, KERNELSUN_AT_LOCK, 2);
    fill(&empty, 0, 0);
    for (size_t i = 0; i < COUNT(records); i++) {
        const record *r = &records[i];
        about(r->what);
        if (r->number != WENT) {
            expect_refused(&r->lent, &good, r->number);
            expect_refused(&r->lent, &bad, r->number);
            expect_refused(&r->lent, &empty, r->number);
            continue;
        }
        tally with_good = r->lent, with_bad = r->lent, with_empty = r->lent;
        expect_added(&with_good, &good, with_two(r->lent));
        expect_skipped(&with_bad, &bad);
        expect_skipped(&with_empty, &empty);
    }
}

/* ---- Every order ---- */

enum { SHELF = 6 };

static area shelf[SHELF];

static void fill_shelf(void)
{
    make_two(&shelf[0], 9, 4);
    make_fresh(&shelf[1], 2, 3, 5, 1);
    make_busy(&shelf[2], (kernelsun_sizes){3, 2, 4, 2});
    put_block(&shelf[2], 3, 2, MOST);
    make_two(&shelf[3], 0, 30);
    fill(&shelf[4], 92, 0x5a);
    make_two(&shelf[5], 9, 4);
    shelf[5].len++;
}

/* Adds those that are left in each order, and gives how many orders there were. */
static uint32_t add_in_each_order(const tally *t, unsigned left)
{
    uint32_t orders = 0;
    if (left == 0) {
        expect_tally(t, &(tally){6, 2, 13, 10, 0, MOST, 4294967338u});
        return 1;
    }
    for (unsigned i = 0; i < SHELF; i++) {
        if ((left & 1u << i) != 0) {
            tally next = *t;
            expect_answer(add_through_door(&next, &shelf[i]), KERNELSUN_WENT);
            orders += add_in_each_order(&next, left & ~(1u << i));
        }
    }
    return orders;
}

static void check_orders(void)
{
    about("four areas and two malformed ones in each order");
    fill_shelf();
    expect_equal("orders", add_in_each_order(&zeros, (1u << SHELF) - 1), 720);
}

/* ---- Open work ---- */

/* The steps by which a header is written, a block freed and one worn; 0 where none is. */
typedef struct {
    uint32_t op, n, steps, takes, frees, wears;
    uint32_t most; /* the most wear, from the wearing step on */
} course;

/* In a store with D=2 and three blocks, of which the last is never worn. */
static const course courses[] = {
    {KERNELSUN_WRITE, 0, 16, 7, 0, 0, 0},   {KERNELSUN_WRITE, 1, 16, 7, 0, 0, 0},
    {KERNELSUN_WRITE, 0, 8, 0, 0, 3, 1},    {KERNELSUN_UNMAP, 0, 11, 0, 7, 7, 2},
    {KERNELSUN_LEVEL, 0, 18, 10, 13, 13, 2}, {KERNELSUN_READ, 1, 6, 0, 0, 0, 2},
};

/* The figures before an operation, after its begin and after each of its steps. */
static void follow(area *a, const course *c, tally *figures)
{
    expect_alone(a, *figures);
    expect_begins(a, 0, c->op, c->n, 7);
    expect_alone(a, *figures);
    call next = call_step(0);
    for (uint32_t taken = 1; taken <= c->steps; taken++) {
        uint64_t r = through_door(&next, a);
        expect_equal("number", kernelsun_number(r),
                     taken == c->steps ? KERNELSUN_FINISHED : KERNELSUN_WENT);
        figures->free -= taken == c->takes;
        figures->free += taken == c->frees;
        figures->sum += taken == c->wears;
        figures->most = taken == c->wears ? c->most : figures->most;
        expect_alone(a, *figures);
    }
}

static void check_each_line(void)
{
    static area a;
    tally figures = {1, 0, 3, 3, 0, 0, 0};
    about("an area after each line of its operations");
    call fresh = call_format(1, 2, 3, 2);
    fill(&a, KERNELSUN_LENGTH(1, 2, 3), 0xff);
    expect_equal("format", kernelsun_number(through_door(&fresh, &a)), KERNELSUN_WENT);
    for (size_t i = 0; i < COUNT(courses); i++) {
        follow(&a, &courses[i], &figures);
    }
    expect_tally(&figures, &(tally){1, 0, 3, 2, 0, 2, 3});
}

/* Four threads with open work, one of which is blocked, beside an idle store. */
static void check_open_work(void)
{
    static area open, idle;
    tally t = zeros;
    about("open work of several threads");
    make_fresh(&open, 4, 3, 6, 1);
    whole(&open, 0, KERNELSUN_WRITE, 0, 1);
    whole(&open, 0, KERNELSUN_WRITE, 0, 2);
    expect_begins(&open, 0, KERNELSUN_WRITE, 1, 3);
    expect_begins(&open, 1, KERNELSUN_READ, 0, 0);
    expect_begins(&open, 2, KERNELSUN_UNMAP, 0, 0);
    expect_begins(&open, 3, KERNELSUN_LEVEL, 0, 0);
    expect_steps(&open, 1, 3, KERNELSUN_WENT);
    expect_steps(&open, 0, 8, KERNELSUN_WENT);
    expect_steps(&open, 2, 1, KERNELSUN_BLOCKED);
    expect_added(&t, &open, (tally){1, 0, 6, 4, 0, 1, 1});
    make_fresh(&idle, 1, 1, 2, 1);
    expect_added(&t, &idle, (tally){2, 0, 8, 6, 0, 1, 1});
}

/* ---- Only read ---- */

/* In memory that could be written, at each place: each byte of the area is as it was. */
static void expect_kept(const area *a)
{
    for (unsigned place = 0; place < PLACES; place++) {
        tally t = zeros;
        const uint8_t *at = placed(a, place);
        expect_answer(add_area(&t, at, a->len), KERNELSUN_WENT);
        expect_equal("areas", t.areas, 1);
        expect_equal("bytes that were changed", memcmp(at, a->bytes, a->len) != 0, 0);
    }
}

static void check_kept(void)
{
    static area a;
    about("the area is as it was");
    fill_shelf();
    for (size_t i = 0; i < SHELF; i++) {
        expect_kept(&shelf[i]);
    }
    make_busy(&a, (kernelsun_sizes){16, 256, 512, 1000});
    expect_kept(&a);
}

/* A store as a program may carry it: constant bytes. */
static void check_constant(void)
{
    static const uint8_t stored[KERNELSUN_LENGTH(1, 1, 2)] = {
        [0] = 1, [4] = 1, [8] = 2, [12] = 1, [52] = 1, [60] = 1, [68] = 3, [84] = 1, [85] = 2,
    };
    tally t = zeros;
    about("constant bytes");
    expect_answer(add_area(&t, stored, sizeof stored), KERNELSUN_WENT);
    expect_tally(&t, &(tally){1, 0, 2, 1, 3, 513, 516});
}

int main(void)
{
    check_smallest();
    check_largest();
    check_both();
    check_each_block();
    check_lengths();
    check_no_stores();
    check_sizes_outside();
    check_words();
    check_unread();
    check_extremes();
    check_most_wear();
    check_all_skipped();
    check_last_place();
    check_records();
    check_orders();
    check_each_line();
    check_open_work();
    check_kept();
    check_constant();
    return all_met("sheet");
}
