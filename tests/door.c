/*
 * The door by fixed expectations: limits and fresh areas, shape and length,
 * each refusal and their order, the largest word in each argument, the cases
 * of document 01's "Checked by hand", interleavings that the document names, and
 * readers beside readers, from document 02. The single lines are in door_lines.c.
 *
 * Expectations are written from the documents. Nothing here is computed by the
 * reference.
 */
#include "expect.h"

#define COUNT(array) (sizeof(array) / sizeof((array)[0]))
#define MOST 0xffffffffu

/* ---- format ---- */

static void expect_format(size_t len, kernelsun_sizes s, uint32_t number)
{
    static area a, after;
    fill(&a, len, 0x5a);
    after = a;
    if (number == KERNELSUN_WENT) {
        make_fresh(&after, s.t, s.n, s.p, s.d);
    }
    expect_area(&a, call_format(s.t, s.n, s.p, s.d), number, 0, &after);
}

static void check_limits_accepted(void)
{
    static const kernelsun_sizes good[] = {
        {1, 1, 2, 1},       {16, 1, 2, 1},     {2, 1, 2, 1},    {1, 256, 257, 1},
        {1, 256, 512, 1},   {1, 1, 512, 1},    {1, 1, 2, 1000}, {16, 256, 512, 1000},
        {3, 255, 256, 999}, {15, 2, 511, 500},
    };
    about("format within the limits gives a fresh area");
    for (size_t i = 0; i < COUNT(good); i++) {
        expect_format(KERNELSUN_LENGTH(good[i].t, good[i].n, good[i].p), good[i], KERNELSUN_WENT);
    }
}

static void check_limits_refused(void)
{
    static const kernelsun_sizes bad[] = {
        {0, 1, 2, 1},     {17, 1, 2, 1},      {MOST, 1, 2, 1},   {1, 0, 2, 1},
        {1, 0, 1, 1},     {1, 257, 258, 1},   {1, 257, 512, 1},  {1, MOST, 2, 1},
        {1, MOST, 0, 1},  {1, 1, 0, 1},       {1, 1, 1, 1},      {1, 256, 256, 1},
        {1, 1, 513, 1},   {1, 256, 513, 1},   {1, 1, MOST, 1},   {1, 1, 2, 0},
        {1, 1, 2, 1001},  {1, 1, 2, MOST},    {MOST, MOST, MOST, MOST},
        {0, 0, 0, 0},     {0x40000001u, 1, 2, 1},
    };
    about("format outside the limits, at its own length and at others");
    for (size_t i = 0; i < COUNT(bad); i++) {
        size_t own = KERNELSUN_LENGTH(bad[i].t, bad[i].n, bad[i].p);
        if (own <= AREA_ROOM) {
            expect_format(own, bad[i], KERNELSUN_LIMITS);
        }
        expect_format(0, bad[i], KERNELSUN_LIMITS);
        expect_format(KERNELSUN_LENGTH(1, 1, 2), bad[i], KERNELSUN_LIMITS);
        expect_format(KERNELSUN_LENGTH_MOST, bad[i], KERNELSUN_LIMITS);
    }
}

/* ---- length ---- */

/* Lengths that no area with the sizes 2, 1, 2 has; its own is 120. */
static const size_t wrong_for_120[] = {0,   1,   15,   16,    23,    24,    116,   119,
                                       121, 124, 4096, 10711, 10712, 10713, 10716, 15999};

static void expect_length_refused(area *a, size_t len)
{
    a->len = len;
    expect_refusal(a, call_begin(0, KERNELSUN_READ, 0, 0), KERNELSUN_SHAPE);
    expect_refusal(a, call_step(0), KERNELSUN_SHAPE);
    expect_refusal(a, call_begin(MOST, MOST, MOST, MOST), KERNELSUN_SHAPE);
    expect_refusal(a, call_step(MOST), KERNELSUN_SHAPE);
}

static void check_lengths(void)
{
    static area a;
    about("an area whose length isn't exact");
    expect_equal("length for T=2, N=1, P=2", KERNELSUN_LENGTH(2, 1, 2), 120);
    for (size_t i = 0; i < COUNT(wrong_for_120); i++) {
        make_fresh(&a, 2, 1, 2, 1);
        expect_length_refused(&a, wrong_for_120[i]);
        kernelsun_sizes s = {2, 1, 2, 1};
        expect_format(wrong_for_120[i], s, KERNELSUN_SHAPE);
    }
}

static void check_longest(void)
{
    static area a;
    static const size_t wrong[] = {0, 23, 10708, 10711, 10713, 10716, 15999};
    about("the longest area, 10,712 bytes, and lengths about it");
    expect_equal("longest area", KERNELSUN_LENGTH_MOST, 10712);
    for (size_t i = 0; i < COUNT(wrong); i++) {
        make_fresh(&a, 16, 256, 512, 1000);
        expect_length_refused(&a, wrong[i]);
        kernelsun_sizes s = {16, 256, 512, 1000};
        expect_format(wrong[i], s, KERNELSUN_SHAPE);
    }
    make_fresh(&a, 16, 256, 512, 1000);
    expect_refusal(&a, call_step(15), KERNELSUN_IDLE);
    expect_refusal(&a, call_step(16), KERNELSUN_THREAD);
    expect_refusal(&a, call_begin(16, KERNELSUN_READ, 0, 0), KERNELSUN_THREAD);
}

/* ---- shape ---- */

/* Three threads: 0 idle, 1 with an open level, 2 idle. Two and four blocks. */
static void make_with_open_level(area *a)
{
    make_fresh(a, 3, 2, 4, 2);
    put_word(a->bytes, kernelsun_at_thread(1, KERNELSUN_THREAD_OPERATION), KERNELSUN_LEVEL);
    put_word(a->bytes, kernelsun_at_thread(1, KERNELSUN_THREAD_LINE), 1);
}

/* Well formed shows in what comes after SHAPE in the order of refusals. */
static void expect_shape(area *a, int good)
{
    expect_refusal(a, call_step(0), good ? KERNELSUN_IDLE : KERNELSUN_SHAPE);
    expect_refusal(a, call_begin(1, MOST, MOST, MOST), good ? KERNELSUN_BUSY : KERNELSUN_SHAPE);
    expect_refusal(a, call_step(3), good ? KERNELSUN_THREAD : KERNELSUN_SHAPE);
}

static void expect_word_limit(size_t word, uint32_t most)
{
    static area a;
    make_with_open_level(&a);
    put_word(a.bytes, word, most);
    expect_shape(&a, 1);
    if (most != MOST) {
        put_word(a.bytes, word, most + 1);
        expect_shape(&a, 0);
        put_word(a.bytes, word, MOST);
        expect_shape(&a, 0);
    }
}

static void check_word_limits(void)
{
    kernelsun_sizes s = {3, 2, 4, 2};
    about("each word at its most and one more");
    expect_word_limit(KERNELSUN_AT_LOCK, s.t);
    expect_word_limit(KERNELSUN_AT_OWNER, s.t);
    expect_word_limit(kernelsun_at_thread(1, KERNELSUN_THREAD_OPERATION), KERNELSUN_LEVEL);
    expect_word_limit(kernelsun_at_thread(1, KERNELSUN_THREAD_N), s.n - 1);
    expect_word_limit(kernelsun_at_thread(1, KERNELSUN_THREAD_C), MOST);
    expect_word_limit(kernelsun_at_thread(1, KERNELSUN_THREAD_P), s.p - 1);
    expect_word_limit(kernelsun_at_thread(1, KERNELSUN_THREAD_Q), s.p - 1);
    expect_word_limit(kernelsun_at_thread(1, KERNELSUN_THREAD_H), s.n);
    for (uint32_t n = 0; n < s.n; n++) {
        expect_word_limit(kernelsun_at_map(&s, n), s.p);
    }
    for (uint32_t p = 0; p < s.p; p++) {
        expect_word_limit(kernelsun_at_block(&s, p, KERNELSUN_BLOCK_HEADER), s.n);
        expect_word_limit(kernelsun_at_block(&s, p, KERNELSUN_BLOCK_CONTENT), MOST);
        expect_word_limit(kernelsun_at_block(&s, p, KERNELSUN_BLOCK_WEAR), MOST);
    }
}

/* A word of a block lock or of a block's owner, and whether it is well formed with t threads. */
typedef struct {
    uint32_t t, word;
    int good;
} holders;

static const holders some_holders[] = {
    /* Nobody, all readers that there are, one more; the last writer, one more. */
    {1, 0, 1}, {1, 1, 1}, {1, 2, 0}, {1, 65536, 1}, {1, 131072, 0},
    {3, 0, 1}, {3, 7, 1}, {3, 8, 0}, {3, 196608, 1}, {3, 262144, 0},
    {16, 0, 1}, {16, 65535, 1}, {16, 1048576, 1}, {16, 1114112, 0},
    /* Some readers; one that there isn't, alone and beside others. */
    {1, 3, 0}, {1, 32768, 0}, {1, 65535, 0}, {3, 1, 1}, {3, 4, 1}, {3, 6, 1}, {3, 9, 0}, {3, 15, 0},
    {3, 16, 0}, {3, 32768, 0}, {3, 65535, 0}, {15, 32767, 1}, {15, 16384, 1}, {15, 32768, 0},
    {15, 32769, 0}, {16, 1, 1}, {16, 32768, 1}, {16, 32767, 1},
    /* Other writers, and writers that there aren't. */
    {3, 65536, 1}, {3, 131072, 1}, {15, 983040, 1}, {15, 1048576, 0}, {16, 65536, 1},
    {16, 983040, 1}, {16, 2097152, 0}, {16, 0x80000000u, 0}, {3, 0x80000000u, 0},
    {1, 0xffff0000u, 0}, {16, 0xffff0000u, 0},
    /* Readers beside a writer. */
    {1, 65537, 0}, {1, 131071, 0}, {3, 65537, 0}, {3, 65543, 0}, {3, 131073, 0}, {3, 131074, 0},
    {3, 196615, 0}, {16, 65537, 0}, {16, 65538, 0}, {16, 98304, 0}, {16, 131071, 0},
    {16, 1048577, 0}, {16, 1081344, 0}, {16, 1114111, 0}, {1, MOST, 0}, {3, MOST, 0}, {16, MOST, 0},
};

/* What each call makes of it. A begin that is well formed so far is refused for its operation. */
static void expect_holders(size_t word, const holders *h)
{
    static area a, fresh;
    tally t = {0, 0, 0, 0, 0, 0, 0};
    make_fresh(&a, h->t, 2, 4, 2);
    fresh = a;
    put_word(a.bytes, word, h->word);
    expect_refusal(&a, call_step(0), h->good ? KERNELSUN_IDLE : KERNELSUN_SHAPE);
    expect_refusal(&a, call_step(h->t), h->good ? KERNELSUN_THREAD : KERNELSUN_SHAPE);
    expect_refusal(&a, call_begin(0, 0, 0, 0), h->good ? KERNELSUN_OPERATION : KERNELSUN_SHAPE);
    expect_equal("add_area", kernelsun_number(add_through_door(&t, &a)), KERNELSUN_WENT);
    expect_equal("skipped", t.skipped, !h->good);
    expect_equal("blocks", t.blocks, h->good ? 4 : 0);
    expect_area(&a, call_format(h->t, 2, 4, 2), KERNELSUN_WENT, 0, &fresh);
}

static void check_holders(void)
{
    about("readers, a writer or nobody in block locks and owners, each below T");
    for (size_t i = 0; i < COUNT(some_holders); i++) {
        kernelsun_sizes s = {some_holders[i].t, 2, 4, 2};
        for (uint32_t n = 0; n < s.n; n++) {
            expect_holders(kernelsun_at_lock(&s, n), &some_holders[i]);
        }
        for (uint32_t p = 0; p < s.p; p++) {
            expect_holders(kernelsun_at_block(&s, p, KERNELSUN_BLOCK_OWNER), &some_holders[i]);
        }
    }
}

static void check_line_limits(void)
{
    static const uint32_t last[] = {0, 16, 6, 11, 18};
    static area a;
    about("a line that its operation has");
    for (uint32_t op = KERNELSUN_WRITE; op <= KERNELSUN_LEVEL; op++) {
        make_with_open_level(&a);
        put_word(a.bytes, kernelsun_at_thread(1, KERNELSUN_THREAD_OPERATION), op);
        const edit lines[] = {{0, 0}, {1, 1}, {1, last[op]}, {0, last[op] + 1}, {0, MOST}};
        for (size_t i = 0; i < COUNT(lines); i++) {
            put_word(a.bytes, kernelsun_at_thread(1, KERNELSUN_THREAD_LINE), lines[i].value);
            expect_shape(&a, lines[i].word == 1);
        }
    }
}

static void check_idle_records(void)
{
    static area a;
    about("an idle record is seven zeros");
    for (size_t field = KERNELSUN_THREAD_LINE; field < KERNELSUN_THREAD_WORDS; field++) {
        for (uint32_t thread = 0; thread < 3; thread += 2) {
            make_with_open_level(&a);
            put_word(a.bytes, kernelsun_at_thread(thread, field), 1);
            expect_shape(&a, 0);
        }
    }
}

/* Areas of all zeros but for sizes outside the limits, each of the exact length. */
static void check_sizes_outside(void)
{
    static area a;
    about("sizes outside the limits in an area of exact length");
    for (size_t i = 0; i < SIZES_OUTSIDE; i++) {
        const kernelsun_sizes *bad = &sizes_outside[i];
        make_fresh(&a, bad->t, bad->n, bad->p, bad->d);
        expect_refusal(&a, call_step(0), KERNELSUN_SHAPE);
        expect_refusal(&a, call_begin(0, KERNELSUN_LEVEL, 0, 0), KERNELSUN_SHAPE);
    }
}

/* Sizes that are too large for the length, some of them only if 32 bits wrap. */
static void check_sizes_against_length(void)
{
    static const edit wrong[] = {
        {KERNELSUN_AT_T, 1},           {KERNELSUN_AT_T, 3},           {KERNELSUN_AT_T, 0x40000002u},
        {KERNELSUN_AT_T, MOST},        {KERNELSUN_AT_N, 2},           {KERNELSUN_AT_N, 0x80000001u},
        {KERNELSUN_AT_N, MOST},        {KERNELSUN_AT_P, 3},           {KERNELSUN_AT_P, 512},
        {KERNELSUN_AT_P, 0x40000002u}, {KERNELSUN_AT_P, 0x10000002u}, {KERNELSUN_AT_P, MOST},
    };
    static area a;
    about("sizes that don't agree with the length");
    for (size_t i = 0; i < COUNT(wrong); i++) {
        make_fresh(&a, 2, 1, 2, 1);
        apply(&a, &wrong[i], 1);
        expect_refusal(&a, call_step(0), KERNELSUN_SHAPE);
        expect_refusal(&a, call_begin(0, KERNELSUN_LEVEL, 0, 0), KERNELSUN_SHAPE);
    }
}

/* ---- refusals and their order ---- */

static void check_begin_order(void)
{
    static area a;
    about("the order of what begin refuses");
    make_with_open_level(&a);
    put_word(a.bytes, KERNELSUN_AT_LOCK, 4);
    expect_refusal(&a, call_begin(3, 0, 2, 0), KERNELSUN_SHAPE);
    expect_refusal(&a, call_begin(1, 0, 2, 0), KERNELSUN_SHAPE);
    make_with_open_level(&a);
    expect_refusal(&a, call_begin(3, 0, 2, 0), KERNELSUN_THREAD);
    expect_refusal(&a, call_begin(MOST, KERNELSUN_READ, 0, 0), KERNELSUN_THREAD);
    expect_refusal(&a, call_begin(1, 0, 2, 0), KERNELSUN_BUSY);
    expect_refusal(&a, call_begin(1, KERNELSUN_READ, 0, 0), KERNELSUN_BUSY);
    static const uint32_t no_operation[] = {0, 5, 6, 255, 256, 257, 0x80000001u, MOST};
    for (size_t i = 0; i < COUNT(no_operation); i++) {
        expect_refusal(&a, call_begin(0, no_operation[i], 2, 0), KERNELSUN_OPERATION);
        expect_refusal(&a, call_begin(0, no_operation[i], 0, 0), KERNELSUN_OPERATION);
    }
    for (uint32_t op = KERNELSUN_WRITE; op <= KERNELSUN_UNMAP; op++) {
        expect_refusal(&a, call_begin(0, op, 2, 1), KERNELSUN_LOGICAL);
        expect_refusal(&a, call_begin(0, op, 0x80000000u, 1), KERNELSUN_LOGICAL);
        expect_refusal(&a, call_begin(2, op, MOST, MOST), KERNELSUN_LOGICAL);
    }
}

static void check_step_order(void)
{
    static area a;
    about("the order of what step refuses");
    make_with_open_level(&a);
    put_word(a.bytes, kernelsun_at_thread(0, KERNELSUN_THREAD_C), 1);
    expect_refusal(&a, call_step(3), KERNELSUN_SHAPE);
    expect_refusal(&a, call_step(1), KERNELSUN_SHAPE);
    make_with_open_level(&a);
    expect_refusal(&a, call_step(3), KERNELSUN_THREAD);
    expect_refusal(&a, call_step(256), KERNELSUN_THREAD);
    expect_refusal(&a, call_step(MOST), KERNELSUN_THREAD);
    expect_refusal(&a, call_step(0), KERNELSUN_IDLE);
    expect_refusal(&a, call_step(2), KERNELSUN_IDLE);
    put_word(a.bytes, KERNELSUN_AT_LOCK, 3);
    expect_refusal(&a, call_step(1), KERNELSUN_BLOCKED);
    put_word(a.bytes, KERNELSUN_AT_LOCK, 2);
    expect_refusal(&a, call_step(1), KERNELSUN_BLOCKED);
    put_word(a.bytes, kernelsun_at_thread(1, KERNELSUN_THREAD_LINE), 2);
    put_word(a.bytes, KERNELSUN_AT_OWNER, 1);
    expect_refusal(&a, call_step(1), KERNELSUN_FAULT);
}

/* What begin writes: operation and first line, and n and c where the operation has them. */
static void expect_begun(uint32_t op, uint32_t n, uint32_t c, uint32_t kept_n, uint32_t kept_c)
{
    static area a;
    for (uint32_t thread = 0; thread < 3; thread += 2) {
        const edit record[] = {{kernelsun_at_thread(thread, KERNELSUN_THREAD_OPERATION), op},
                               {kernelsun_at_thread(thread, KERNELSUN_THREAD_LINE), 1},
                               {kernelsun_at_thread(thread, KERNELSUN_THREAD_N), kept_n},
                               {kernelsun_at_thread(thread, KERNELSUN_THREAD_C), kept_c}};
        make_with_open_level(&a);
        expect_changes(&a, call_begin(thread, op, n, c), KERNELSUN_WENT, 0, record, COUNT(record));
    }
}

static void check_begun(void)
{
    about("what begin writes");
    expect_begun(KERNELSUN_WRITE, 1, 7, 1, 7);
    expect_begun(KERNELSUN_WRITE, 0, MOST, 0, MOST);
    expect_begun(KERNELSUN_WRITE, 1, 0, 1, 0);
    expect_begun(KERNELSUN_READ, 1, MOST, 1, 0);
    expect_begun(KERNELSUN_UNMAP, 1, MOST, 1, 0);
    expect_begun(KERNELSUN_LEVEL, 1, 7, 0, 0);
    about("levelling takes any logical number");
    expect_begun(KERNELSUN_LEVEL, 999, 0, 0, 0);
    expect_begun(KERNELSUN_LEVEL, MOST, MOST, 0, 0);
}

/* ---- whole operations ---- */

static void expect_whole(area *a, uint32_t op, uint32_t n, uint32_t c, uint32_t steps,
                         uint32_t value)
{
    run r = whole(a, 0, op, n, c);
    expect_equal("steps", r.steps, steps);
    expect_equal("value", r.value, value);
}

static void expect_words(const area *a, const uint32_t *words, size_t count)
{
    expect_equal("words in the area", (uint32_t)(a->len / BYTES_IN_WORD), (uint32_t)count);
    for (size_t i = 0; i < count; i++) {
        if (kernelsun_word(a->bytes, i) != words[i]) {
            kernelsun_sizes s = kernelsun_sizes_of(a->bytes);
            print_word_name(&s, i);
            expect_equal(" isn't as expected", kernelsun_word(a->bytes, i), words[i]);
        }
    }
}

static void check_step_counts(void)
{
    static area a;
    make_fresh(&a, 2, 1, 2, 1);
    about("read on fresh");
    expect_whole(&a, KERNELSUN_READ, 0, 9, 3, 0);
    about("level on fresh");
    expect_whole(&a, KERNELSUN_LEVEL, 0, 0, 7, 0);
    about("unmap of an unmapped number");
    expect_whole(&a, KERNELSUN_UNMAP, 0, 0, 5, 0);
    about("first write, and what it left");
    expect_whole(&a, KERNELSUN_WRITE, 0, 5, 16, 0);
    static const uint32_t written[30] = {2, 1, 2, 1, [20] = 1, [22] = 1, 5};
    expect_words(&a, written, COUNT(written));
    about("second write of a number, and what it left");
    expect_whole(&a, KERNELSUN_WRITE, 0, MOST, 8, 0);
    static const uint32_t rewritten[30] = {2, 1, 2, 1, [20] = 1, [22] = 1, MOST, 1};
    expect_words(&a, rewritten, COUNT(rewritten));
    about("read of a mapped number");
    expect_whole(&a, KERNELSUN_READ, 0, 0, 6, MOST);
    about("unmap of a mapped number, and what it left");
    expect_whole(&a, KERNELSUN_UNMAP, 0, 0, 11, 0);
    static const uint32_t unmapped[30] = {2, 1, 2, 1, [23] = MOST, 2};
    expect_words(&a, unmapped, COUNT(unmapped));
    about("a written 0");
    expect_whole(&a, KERNELSUN_WRITE, 0, 0, 16, 0);
    expect_whole(&a, KERNELSUN_READ, 0, 0, 6, 0);
}

/* The levelling case of "Checked by hand", up to the first level. */
static void make_levelling_case(area *a, uint32_t t, uint32_t d)
{
    make_fresh(a, t, 2, 3, d);
    expect_whole(a, KERNELSUN_WRITE, 0, 7, 16, 0);
    expect_whole(a, KERNELSUN_WRITE, 1, 9, 16, 0);
    expect_whole(a, KERNELSUN_UNMAP, 0, 0, 11, 0);
    expect_whole(a, KERNELSUN_WRITE, 0, 8, 16, 0);
    expect_whole(a, KERNELSUN_UNMAP, 0, 0, 11, 0);
}

static void check_levelling_case(void)
{
    static area a;
    about("the levelling case with D=2");
    make_levelling_case(&a, 1, 2);
    static const uint32_t before[29] = {1, 2, 3, 2, [14] = 2, [18] = 8, 2, 0, 2, 9};
    expect_words(&a, before, COUNT(before));
    expect_whole(&a, KERNELSUN_LEVEL, 0, 0, 18, 1);
    static const uint32_t after[29] = {1, 2, 3, 2, [14] = 1, [17] = 2, 9, 2, 0, 0, 9, 1};
    expect_words(&a, after, COUNT(after));
    expect_whole(&a, KERNELSUN_READ, 1, 0, 6, 9);
    expect_whole(&a, KERNELSUN_READ, 0, 0, 3, 0);
    about("a second level has nothing to move");
    expect_whole(&a, KERNELSUN_LEVEL, 999, 0, 7, 0);
    expect_words(&a, after, COUNT(after));
    about("the levelling case with D=3 has nothing to move");
    make_levelling_case(&a, 1, 3);
    expect_whole(&a, KERNELSUN_LEVEL, 0, 0, 7, 0);
}

/* Numbers 0 and 1 on blocks 0 and 1, rewritten so often each; then number 0 is unmapped. */
static void make_rewritten(area *a, uint32_t d, uint32_t first, uint32_t second)
{
    make_fresh(a, 1, 2, 3, d);
    expect_whole(a, KERNELSUN_WRITE, 0, 7, 16, 0);
    expect_whole(a, KERNELSUN_WRITE, 1, 9, 16, 0);
    for (uint32_t i = 0; i < first; i++) {
        expect_whole(a, KERNELSUN_WRITE, 0, i, 8, 0);
    }
    for (uint32_t i = 0; i < second; i++) {
        expect_whole(a, KERNELSUN_WRITE, 1, i, 8, 0);
    }
    expect_whole(a, KERNELSUN_UNMAP, 0, 0, 11, 0);
}

/* Rewriting number 0 brings levelling to move number 1 there; rewriting number 1 keeps it off. */
static void check_rewritten(uint32_t d, uint32_t first, uint32_t second)
{
    static area a;
    int moves = first + 1 >= second + d;
    make_rewritten(&a, d, first, second);
    expect_equal("wear of 0", kernelsun_wear(a.bytes, 0), first + 1);
    expect_equal("wear of 1", kernelsun_wear(a.bytes, 1), second);
    expect_whole(&a, KERNELSUN_LEVEL, 0, 0, moves ? 18 : 7, moves ? 1 : 0);
    expect_equal("block of 1", kernelsun_map(a.bytes, 1), moves ? 0 : 1);
    expect_whole(&a, KERNELSUN_READ, 1, 0, 6, second == 0 ? 9 : second - 1);
}

static void check_rewrites(void)
{
    about("numbers rewritten until levelling moves one");
    for (uint32_t d = 1; d <= 3; d++) {
        for (uint32_t first = 0; first <= 5; first++) {
            for (uint32_t second = 0; second <= 3; second++) {
                check_rewritten(d, first, second);
            }
        }
    }
}

/* ---- choosing ---- */

enum { CHOICE_BLOCKS = 4 };

typedef struct {
    const char *what;
    uint32_t d;
    uint32_t header[CHOICE_BLOCKS], wear[CHOICE_BLOCKS];
    uint32_t from, to;
} choice;

static const choice choices[] = {
    {"nothing mapped, no wear", 1, {0, 0, 0, 0}, {0, 0, 0, 0}, 0, 0},
    {"nothing mapped, tie of most", 1, {0, 0, 0, 0}, {1, 3, 3, 2}, 1, 1},
    {"nothing mapped, most at the end", 1, {0, 0, 0, 0}, {1, 3, 3, 4}, 3, 3},
    {"ties on both sides", 5, {1, 2, 0, 0}, {4, 4, 9, 9}, 0, 2},
    {"ties on both sides, mapped last", 5, {0, 0, 1, 2}, {9, 9, 4, 4}, 2, 0},
    {"one short of the distance", 6, {1, 2, 0, 0}, {4, 4, 9, 9}, 2, 2},
    {"least mapped isn't the first", 2, {1, 2, 3, 0}, {5, 6, 1, 3}, 2, 3},
    {"most free isn't the first", 2, {0, 1, 0, 2}, {3, 9, 4, 2}, 3, 2},
    {"free blocks less worn", 1, {1, 0, 2, 0}, {8, 1, 9, 7}, 3, 3},
    {"largest distance met", 1000, {1, 0, 0, 0}, {7, 1006, 1007, 0}, 0, 2},
    {"largest distance missed", 1000, {1, 0, 0, 0}, {7, 1006, 1006, 0}, 1, 1},
    {"both at most wear", 1, {1, 0, 0, 0}, {MOST, MOST, 0, 0}, 1, 1},
    {"sum is the largest word", 5, {1, 0, 0, 0}, {MOST - 5, MOST, 0, 0}, 0, 1},
    {"sum is one more than that", 6, {1, 0, 0, 0}, {MOST - 5, MOST, 0, 0}, 1, 1},
    {"sum far beyond 32 bits", 1000, {1, 2, 0, 0}, {MOST, MOST, 2000, 3000}, 3, 3},
    {"least against most", 1, {1, 2, 0, 0}, {MOST, 0, 0, MOST}, 1, 3},
};

static void check_choices(void)
{
    static area a;
    kernelsun_sizes s = {1, 3, CHOICE_BLOCKS, 0};
    for (size_t i = 0; i < COUNT(choices); i++) {
        const choice *c = &choices[i];
        about(c->what);
        make_fresh(&a, s.t, s.n, s.p, c->d);
        const edit at[] = {{KERNELSUN_AT_OWNER, 1},
                           {kernelsun_at_thread(0, KERNELSUN_THREAD_OPERATION), KERNELSUN_LEVEL},
                           {kernelsun_at_thread(0, KERNELSUN_THREAD_LINE), 3}};
        apply(&a, at, COUNT(at));
        for (uint32_t p = 0; p < CHOICE_BLOCKS; p++) {
            put_word(a.bytes, kernelsun_at_block(&s, p, KERNELSUN_BLOCK_HEADER), c->header[p]);
            put_word(a.bytes, kernelsun_at_block(&s, p, KERNELSUN_BLOCK_WEAR), c->wear[p]);
        }
        const edit chosen[] = {{kernelsun_at_thread(0, KERNELSUN_THREAD_LINE), 4},
                               {kernelsun_at_thread(0, KERNELSUN_THREAD_P), c->from},
                               {kernelsun_at_thread(0, KERNELSUN_THREAD_Q), c->to}};
        expect_changes(&a, call_step(0), KERNELSUN_WENT, 0, chosen, COUNT(chosen));
    }
}

/* ---- interleavings ---- */

static void check_second_reader_goes(void)
{
    static area a;
    about("the document's nine-line example, where the second reader goes too");
    make_fresh(&a, 2, 1, 2, 1);
    expect_begins(&a, 0, KERNELSUN_READ, 0, 9);
    expect_begins(&a, 1, KERNELSUN_READ, 0, 0);
    expect_steps(&a, 0, 1, KERNELSUN_WENT);
    expect_steps(&a, 1, 1, KERNELSUN_WENT);
    expect_steps(&a, 0, 1, KERNELSUN_WENT);
    expect_steps(&a, 0, 1, KERNELSUN_FINISHED);
    expect_steps(&a, 1, 1, KERNELSUN_WENT);
    expect_refusal(&a, call_step(0), KERNELSUN_IDLE);
}

/* H is held from W1 to W12, so the second writer's block is another one. */
static void check_second_writer_waits(void)
{
    static area a;
    about("two writers that open new blocks at once");
    make_fresh(&a, 2, 2, 3, 1);
    expect_begins(&a, 0, KERNELSUN_WRITE, 0, 70);
    expect_begins(&a, 1, KERNELSUN_WRITE, 1, 90);
    for (uint32_t line = 1; line < 12; line++) {
        expect_steps(&a, 0, 1, KERNELSUN_WENT);
        expect_refusal(&a, call_step(1), KERNELSUN_BLOCKED);
    }
    expect_steps(&a, 0, 1, KERNELSUN_WENT);
    for (uint32_t line = 1; line < 4; line++) {
        expect_steps(&a, 1, 1, KERNELSUN_WENT);
        expect_steps(&a, 0, 1, KERNELSUN_WENT);
    }
    expect_steps(&a, 0, 1, KERNELSUN_FINISHED);
    expect_steps(&a, 1, 12, KERNELSUN_WENT);
    expect_steps(&a, 1, 1, KERNELSUN_FINISHED);
    static const uint32_t both[36] = {2, 2, 3, 1, [20] = 1, 2, [24] = 1, 70, 0, 0, 2, 90};
    expect_words(&a, both, COUNT(both));
}

static void check_read_before_unmap_finishes(void)
{
    static area a;
    about("a read between U10 and U11 finishes with empty");
    make_fresh(&a, 2, 1, 2, 1);
    expect_whole(&a, KERNELSUN_WRITE, 0, 5, 16, 0);
    expect_begins(&a, 1, KERNELSUN_UNMAP, 0, 0);
    expect_steps(&a, 1, 9, KERNELSUN_WENT);
    expect_begins(&a, 0, KERNELSUN_READ, 0, 0);
    expect_refusal(&a, call_step(0), KERNELSUN_BLOCKED);
    expect_steps(&a, 1, 1, KERNELSUN_WENT);
    expect_steps(&a, 0, 2, KERNELSUN_WENT);
    expect_steps(&a, 0, 1, KERNELSUN_FINISHED);
    expect_steps(&a, 1, 1, KERNELSUN_FINISHED);
}

/* ---- readers beside readers ---- */

static uint32_t lock_word(const area *a, uint32_t n)
{
    return kernelsun_of_lock(a->bytes, n);
}

static uint32_t owner_word(const area *a, uint32_t p)
{
    return kernelsun_of_block(a->bytes, p, KERNELSUN_BLOCK_OWNER);
}

/* A step that goes on: to that line, with one word more that changes. */
static void expect_goes(area *a, uint32_t thread, uint32_t next, size_t word, uint32_t value)
{
    const edit changes[] = {{kernelsun_at_thread(thread, KERNELSUN_THREAD_LINE), next},
                            {word, value}};
    expect_changes(a, call_step(thread), KERNELSUN_WENT, 0, changes, COUNT(changes));
}

/* The last step of a read, after which these are left at the number's lock. */
static void expect_read(area *a, uint32_t thread, uint32_t value, size_t lock, uint32_t left)
{
    edit changes[KERNELSUN_THREAD_WORDS + 1] = {{lock, left}};
    for (size_t field = 0; field < KERNELSUN_THREAD_WORDS; field++) {
        changes[field + 1].word = kernelsun_at_thread(thread, field);
    }
    expect_changes(a, call_step(thread), KERNELSUN_FINISHED, value, changes, COUNT(changes));
}

/* Threads 0 and 2 read number 1, which is on block 0 with content 77. */
static void check_two_readers(void)
{
    static area a;
    kernelsun_sizes s = {3, 2, 3, 1};
    size_t lock = kernelsun_at_lock(&s, 1);
    size_t owner = kernelsun_at_block(&s, 0, KERNELSUN_BLOCK_OWNER);
    about("two readers of one number, both past R3");
    make_fresh(&a, s.t, s.n, s.p, s.d);
    expect_whole(&a, KERNELSUN_WRITE, 1, 77, 16, 0);
    expect_begins(&a, 0, KERNELSUN_READ, 1, 0);
    expect_begins(&a, 2, KERNELSUN_READ, 1, 0);
    expect_goes(&a, 0, 2, lock, 1);
    expect_goes(&a, 2, 2, lock, 5);
    expect_goes(&a, 2, 3, kernelsun_at_thread(2, KERNELSUN_THREAD_P), 0);
    expect_goes(&a, 2, 4, owner, 4);
    expect_goes(&a, 0, 3, kernelsun_at_thread(0, KERNELSUN_THREAD_P), 0);
    expect_goes(&a, 0, 4, owner, 5);
    expect_goes(&a, 0, 5, kernelsun_at_thread(0, KERNELSUN_THREAD_C), 77);
    expect_goes(&a, 2, 5, kernelsun_at_thread(2, KERNELSUN_THREAD_C), 77);
    expect_goes(&a, 2, 6, owner, 1);
    expect_goes(&a, 0, 6, owner, 0);
    expect_read(&a, 0, 77, lock, 4);
    expect_read(&a, 2, 77, lock, 0);
}

/* Each thread once, in an order that depends on an odd number. */
static uint32_t mixed(uint32_t turn, uint32_t odd)
{
    return (odd * turn + 3) % 16;
}

/* Number 2 is on block 0 with content 440. Each step is expected with each byte after it. */
static void check_sixteen_readers(void)
{
    static area a;
    kernelsun_sizes s = {16, 3, 5, 1};
    size_t lock = kernelsun_at_lock(&s, 2);
    size_t owner = kernelsun_at_block(&s, 0, KERNELSUN_BLOCK_OWNER);
    uint32_t at_lock = 0, at_block = 0;
    about("sixteen readers of one number at once, in mixed orders");
    make_fresh(&a, s.t, s.n, s.p, s.d);
    expect_whole(&a, KERNELSUN_WRITE, 2, 440, 16, 0);
    for (uint32_t turn = 0; turn < 16; turn++) {
        expect_begins(&a, turn, KERNELSUN_READ, 2, 0);
    }
    for (uint32_t turn = 0; turn < 16; turn++) {
        uint32_t thread = mixed(turn, 7);
        expect_goes(&a, thread, 2, lock, at_lock += 1u << thread);
        expect_goes(&a, thread, 3, kernelsun_at_thread(thread, KERNELSUN_THREAD_P), 0);
    }
    for (uint32_t turn = 0; turn < 16; turn++) {
        uint32_t thread = mixed(turn, 5);
        expect_goes(&a, thread, 4, owner, at_block += 1u << thread);
    }
    expect_equal("readers at the lock", lock_word(&a, 2), 65535);
    expect_equal("readers of the block", owner_word(&a, 0), 65535);
    for (uint32_t turn = 0; turn < 16; turn++) {
        uint32_t thread = mixed(turn, 11);
        expect_goes(&a, thread, 5, kernelsun_at_thread(thread, KERNELSUN_THREAD_C), 440);
        expect_goes(&a, thread, 6, owner, at_block -= 1u << thread);
        if (turn % 2 == 0) {
            expect_read(&a, thread, 440, lock, at_lock -= 1u << thread);
        }
    }
    expect_equal("readers of the block", owner_word(&a, 0), 0);
    for (uint32_t turn = 16; turn-- > 0;) {
        if (turn % 2 == 1) {
            uint32_t thread = mixed(turn, 11);
            expect_read(&a, thread, 440, lock, at_lock -= 1u << thread);
        }
    }
    expect_equal("readers at the lock", lock_word(&a, 2), 0);
}

static void expect_finishes(area *a, uint32_t thread, uint32_t value)
{
    call c = call_step(thread);
    uint64_t given = through_door(&c, a);
    expect_equal("number at the end", kernelsun_number(given), KERNELSUN_FINISHED);
    expect_equal("value at the end", kernelsun_value(given), value);
}

/*
 * Threads 0 and 1 read number n from R1 up to R6, line by line. Before each line and
 * after the last thread 2 tries the line that takes the same lock to write. Then
 * the two finish, the one before the other.
 */
static void expect_waits_for_both(area *a, uint32_t n, uint32_t value, uint32_t first)
{
    uint32_t second = 1 - first;
    for (uint32_t line = 2; line <= 6; line++) {
        expect_refusal(a, call_step(2), KERNELSUN_BLOCKED);
        expect_steps(a, first, line < 6, KERNELSUN_WENT);
        expect_refusal(a, call_step(2), KERNELSUN_BLOCKED);
        expect_steps(a, second, line < 6, KERNELSUN_WENT);
    }
    expect_equal("both", lock_word(a, n), 3);
    expect_finishes(a, first, value);
    expect_equal("the second", lock_word(a, n), 1u << second);
    expect_refusal(a, call_step(2), KERNELSUN_BLOCKED);
    expect_finishes(a, second, value);
    expect_equal("nobody", lock_word(a, n), 0);
    expect_steps(a, 2, 1, KERNELSUN_WENT);
    expect_equal("the writer", lock_word(a, n), 196608);
}

/* Threads 0 and 1 have done R1 of number n. */
static void make_two_read(area *a, uint32_t n)
{
    for (uint32_t thread = 0; thread < 2; thread++) {
        expect_begins(a, thread, KERNELSUN_READ, n, 0);
        expect_steps(a, thread, 1, KERNELSUN_WENT);
    }
}

/* Number 0 holds 5. A third read waits for the writer, until that has released the lock. */
static void check_writer_waits(uint32_t op, uint32_t first)
{
    static area a;
    int unmaps = op == KERNELSUN_UNMAP;
    make_fresh(&a, 3, 1, 2, 1);
    expect_whole(&a, KERNELSUN_WRITE, 0, 5, 16, 0);
    make_two_read(&a, 0);
    expect_begins(&a, 2, op, 0, 9);
    expect_steps(&a, 2, 1, KERNELSUN_WENT);
    expect_waits_for_both(&a, 0, 5, first);
    expect_begins(&a, first, KERNELSUN_READ, 0, 0);
    for (uint32_t line = 0; line < (unmaps ? 7 : 5); line++) {
        expect_refusal(&a, call_step(first), KERNELSUN_BLOCKED);
        expect_steps(&a, 2, 1, KERNELSUN_WENT);
    }
    expect_refusal(&a, call_step(first), KERNELSUN_BLOCKED);
    expect_steps(&a, 2, 1, unmaps ? KERNELSUN_WENT : KERNELSUN_FINISHED);
    expect_steps(&a, first, unmaps ? 2 : 5, KERNELSUN_WENT);
    expect_finishes(&a, first, unmaps ? 0 : 9);
}

static void check_writers_wait(void)
{
    about("a writer waits until the last of two readers has left");
    for (uint32_t first = 0; first < 2; first++) {
        check_writer_waits(KERNELSUN_WRITE, first);
        check_writer_waits(KERNELSUN_UNMAP, first);
    }
}

/* A leveller at L6 waits for the readers of the number that it wants to move. */
static void check_leveller_waits(void)
{
    static area a;
    about("a leveller waits at L6 for readers, and a reader for the leveller");
    for (uint32_t first = 0; first < 2; first++) {
        make_levelling_case(&a, 3, 2);
        make_two_read(&a, 1);
        expect_begins(&a, 2, KERNELSUN_LEVEL, 0, 0);
        expect_steps(&a, 2, 5, KERNELSUN_WENT);
        expect_waits_for_both(&a, 1, 9, first);
        expect_begins(&a, 0, KERNELSUN_READ, 1, 0);
        expect_refusal(&a, call_step(0), KERNELSUN_BLOCKED);
        expect_steps(&a, 2, 10, KERNELSUN_WENT);
        expect_steps(&a, 0, 5, KERNELSUN_WENT);
        expect_finishes(&a, 0, 9);
        expect_steps(&a, 2, 1, KERNELSUN_WENT);
        expect_finishes(&a, 2, 1);
    }
}

/* ---- who is at a lock or a block, made by hand ---- */

enum { BY_ITSELF, BY_ANOTHER, READ_BY_ITSELF, READ_BY_ANOTHER, READ_BY_BOTH, READ_BY_ALL };

typedef struct {
    const char *what;
    uint32_t op, line;
    int held;
    uint32_t number;
} held_row;

#define WENT KERNELSUN_WENT
#define BLOCKED KERNELSUN_BLOCKED
#define FAULT KERNELSUN_FAULT
#define W KERNELSUN_WRITE
#define R KERNELSUN_READ
#define U KERNELSUN_UNMAP
#define L KERNELSUN_LEVEL

static const held_row held_rows[] = {
    {"R1 beside another reader", R, 1, READ_BY_ANOTHER, WENT},
    {"R1 with itself among the readers", R, 1, READ_BY_ITSELF, BLOCKED},
    {"R1 with itself and all others among the readers", R, 1, READ_BY_ALL, BLOCKED},
    {"R1 by the writer", R, 1, BY_ITSELF, BLOCKED},
    {"R1 beside a writer", R, 1, BY_ANOTHER, BLOCKED},
    {"R3 beside another reader", R, 3, READ_BY_ANOTHER, WENT},
    {"R3 with itself among the readers", R, 3, READ_BY_ITSELF, FAULT},
    {"R3 with itself and all others among the readers", R, 3, READ_BY_ALL, FAULT},
    {"R3 by the writer", R, 3, BY_ITSELF, FAULT},
    {"R3 beside a writer", R, 3, BY_ANOTHER, FAULT},

    {"R5 by the writer", R, 5, BY_ITSELF, FAULT},
    {"R6 by the writer", R, 6, BY_ITSELF, FAULT},
    {"R5 by no reader", R, 5, READ_BY_ANOTHER, FAULT},
    {"R6 by no reader", R, 6, READ_BY_ANOTHER, FAULT},
    {"W9 by a reader", W, 9, READ_BY_ITSELF, FAULT},
    {"W15 by a reader", W, 15, READ_BY_ITSELF, FAULT},
    {"W16 by a reader", W, 16, READ_BY_ITSELF, FAULT},
    {"U8 by a reader", U, 8, READ_BY_ITSELF, FAULT},
    {"U10 by a reader", U, 10, READ_BY_ITSELF, FAULT},
    {"L14 by a reader", L, 14, READ_BY_ITSELF, FAULT},
    {"L15 by a reader", L, 15, READ_BY_ITSELF, FAULT},
    {"L16 by a reader", L, 16, READ_BY_ITSELF, FAULT},

    {"W2 by a reader", W, 2, READ_BY_ITSELF, BLOCKED},
    {"U2 by a reader", U, 2, READ_BY_ITSELF, BLOCKED},
    {"L6 by a reader", L, 6, READ_BY_ITSELF, BLOCKED},
    {"L6 beside another reader", L, 6, READ_BY_ANOTHER, BLOCKED},
    {"L6 by the writer", L, 6, BY_ITSELF, BLOCKED},

    {"R4 by a reader", R, 4, READ_BY_ITSELF, WENT},
    {"R4 by one of two readers", R, 4, READ_BY_BOTH, WENT},
    {"R4 by the writer", R, 4, BY_ITSELF, WENT},
    {"R4 beside another reader", R, 4, READ_BY_ANOTHER, FAULT},
    {"R4 beside a writer", R, 4, BY_ANOTHER, FAULT},
    {"L8 by a reader", L, 8, READ_BY_ITSELF, WENT},
    {"L8 by one of two readers", L, 8, READ_BY_BOTH, WENT},
    {"L8 by the writer", L, 8, BY_ITSELF, WENT},
    {"L8 beside another reader", L, 8, READ_BY_ANOTHER, FAULT},
    {"L8 beside a writer", L, 8, BY_ANOTHER, FAULT},
    {"W7 by a reader", W, 7, READ_BY_ITSELF, FAULT},
    {"W8 by a reader", W, 8, READ_BY_ITSELF, FAULT},
    {"W14 by a reader", W, 14, READ_BY_ITSELF, FAULT},
    {"U7 by a reader", U, 7, READ_BY_ITSELF, FAULT},
    {"L10 by a reader", L, 10, READ_BY_ITSELF, FAULT},
    {"L11 by a reader", L, 11, READ_BY_ITSELF, FAULT},
    {"L13 by a reader", L, 13, READ_BY_ITSELF, FAULT},
};

static uint32_t held_word(int held, uint32_t thread, uint32_t other)
{
    switch (held) {
    case BY_ITSELF: return 65536 * (thread + 1);
    case BY_ANOTHER: return 65536 * (other + 1);
    case READ_BY_ITSELF: return 1u << thread;
    case READ_BY_ANOTHER: return 1u << other;
    case READ_BY_BOTH: return 1u << thread | 1u << other;
    default: return 65535;
    }
}

/* The thread owns the headers; number 1 and blocks 2 and 3, which it names, are held alike. */
static void check_held_row(const held_row *r, uint32_t thread, uint32_t other)
{
    static area a;
    kernelsun_sizes s = {16, 2, 4, 2};
    uint32_t word = held_word(r->held, thread, other);
    const edit made[] = {{KERNELSUN_AT_OWNER, thread + 1},
                         {kernelsun_at_thread(thread, KERNELSUN_THREAD_OPERATION), r->op},
                         {kernelsun_at_thread(thread, KERNELSUN_THREAD_LINE), r->line},
                         {kernelsun_at_thread(thread, KERNELSUN_THREAD_N), 1},
                         {kernelsun_at_thread(thread, KERNELSUN_THREAD_P), 2},
                         {kernelsun_at_thread(thread, KERNELSUN_THREAD_Q), 3},
                         {kernelsun_at_lock(&s, 1), word},
                         {kernelsun_at_block(&s, 2, KERNELSUN_BLOCK_OWNER), word},
                         {kernelsun_at_block(&s, 2, KERNELSUN_BLOCK_HEADER), 2},
                         {kernelsun_at_block(&s, 3, KERNELSUN_BLOCK_OWNER), word},
                         {kernelsun_at_block(&s, 3, KERNELSUN_BLOCK_HEADER), 1}};
    make_fresh(&a, s.t, s.n, s.p, s.d);
    apply(&a, made, COUNT(made));
    if (r->number == WENT) {
        expect_steps(&a, thread, 1, WENT);
    } else {
        expect_refusal(&a, call_step(thread), r->number);
    }
}

static void check_held_rows(void)
{
    static const uint32_t threads[] = {0, 1, 7, 14, 15};
    for (size_t i = 0; i < COUNT(held_rows); i++) {
        about(held_rows[i].what);
        for (size_t j = 0; j < COUNT(threads); j++) {
            for (size_t k = 0; k < COUNT(threads); k++) {
                if (j != k) {
                    check_held_row(&held_rows[i], threads[j], threads[k]);
                }
            }
        }
    }
}

/* ---- the largest store ---- */

static void check_largest_store(void)
{
    static area a;
    kernelsun_sizes s = {16, 256, 512, 1000};
    about("the largest store: its last thread, numbers and blocks");
    make_fresh(&a, s.t, s.n, s.p, s.d);
    for (uint32_t n = 256; n-- > 0;) {
        run r = whole(&a, 15, KERNELSUN_WRITE, n, n * 3 + 1);
        expect_equal("steps", r.steps, 16);
    }
    for (uint32_t n = 0; n < 256; n++) {
        expect_equal("map", kernelsun_map(a.bytes, n), 255 - n);
        expect_equal("value", whole(&a, 7, KERNELSUN_READ, n, 0).value, n * 3 + 1);
    }
    put_word(a.bytes, kernelsun_at_block(&s, 511, KERNELSUN_BLOCK_WEAR), 1000);
    expect_equal("level", whole(&a, 15, KERNELSUN_LEVEL, 0, 0).value, 1);
    expect_equal("map of 255", kernelsun_map(a.bytes, 255), 511);
    expect_equal("value of 255", whole(&a, 0, KERNELSUN_READ, 255, 0).value, 766);
    expect_equal("wear of 0", kernelsun_wear(a.bytes, 0), 1);
    expect_equal("steps of a rewrite", whole(&a, 15, KERNELSUN_WRITE, 255, 8).steps, 8);
    expect_equal("wear of 511", kernelsun_wear(a.bytes, 511), 1001);
}

static void check_format_and_shape(void)
{
    check_limits_accepted();
    check_limits_refused();
    check_lengths();
    check_longest();
    check_word_limits();
    check_holders();
    check_line_limits();
    check_idle_records();
    check_sizes_outside();
    check_sizes_against_length();
}

int main(void)
{
    check_format_and_shape();
    check_begin_order();
    check_step_order();
    check_begun();
    check_step_counts();
    check_levelling_case();
    check_rewrites();
    check_choices();
    check_second_reader_goes();
    check_second_writer_waits();
    check_read_before_unmap_finishes();
    check_two_readers();
    check_sixteen_readers();
    check_writers_wait();
    check_leveller_waits();
    check_held_rows();
    check_largest_store();
    return all_met("door");
}
