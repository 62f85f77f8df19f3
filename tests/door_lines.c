/*
 * Each of the 51 lines by itself, on areas made by hand: what it changes when
 * its needs are met, and that it gives FAULT (a take: BLOCKED) and changes
 * nothing when one of them isn't. The table of lines below is to be laid beside
 * document 01, "The lines", with W3 as document 02, §1, has it, and the table of
 * words beside §3. Both were written from there and not computed.
 *
 * The base area holds no lock and no owner. A row's needs are put in place and
 * nothing more, so a line that asks for more than the document says fails too.
 * Each need is then tried with each word that a well-formed area may have there.
 */
#include "expect.h"

#define COUNT(array) (sizeof(array) / sizeof((array)[0]))
#define MOST 0xffffffffu

/* Three threads of which thread 1 steps, two logical and four physical blocks. */
enum { T = 3, N = 2, P = 4, D = 2, STEPPER = 1 };

/* H and the headers' owner when they are thread 1's. */
enum { MINE = 2 };

/* The words of that area, and the registers of thread 1. */
enum {
    LOCK_H = 4,
    HEADERS = 5,
    OP = 13,
    LINE,
    REG_N,
    REG_C,
    REG_P,
    REG_Q,
    REG_H,
    MAP0 = 27,
    MAP1,
    LOCK0,
    LOCK1,
    HEADER0 = 31, CONTENT0, WEAR0, OWNER0,
    HEADER1, CONTENT1, WEAR1, OWNER1,
    HEADER2, CONTENT2, WEAR2, OWNER2,
    HEADER3, CONTENT3, WEAR3, OWNER3
};

/* Thread 1 has n = 1, c = 77, p = 2, q = 3, h = 2 (number 1). */
static const edit base[] = {
    {REG_N, 1},   {REG_C, 77},     {REG_P, 2},  {REG_Q, 3},     {REG_H, 2},     {MAP0, 1},
    {MAP1, 3},    {HEADER0, 1},    {WEAR0, 5},  {CONTENT0, 50}, {CONTENT1, 51}, {WEAR1, 6},
    {HEADER2, 2}, {CONTENT2, 52},  {WEAR2, 1},  {CONTENT3, 53}, {WEAR3, 9},
};

typedef enum {
    NO_NEED,
    /* Of a block lock or of a block's owner: rows of the table of words. */
    TO_READ,      /* this thread may come to read it: else BLOCKED for a lock */
    TO_WRITE,     /* and to write it */
    DONE_READING, /* it reads it, and stops */
    DONE_WRITING, /* it writes it, and stops */
    READING,      /* it reads or writes it, and goes on */
    WRITING,      /* it writes it, and goes on */
    OF_WORDS,
    FREE_LOCK = OF_WORDS, /* H, to take it: else BLOCKED, by itself included */
    NO_OWNER,             /* the headers, to own them */
    HELD,                 /* by this thread, H or the headers */
    USED,                 /* a header that isn't free */
    FREE_BLOCK            /* some block with a free header */
} need_kind;

/*
 * The words that a block lock or a block's owner may have with three threads:
 * nobody's, each set of readers, each writer's. Under each of them what it is after
 * a line of thread 1 with that need, or that the need isn't met.
 */
enum { WORDS = 11, BY0 = 65536, BY1 = 131072, BY2 = 196608 };

static const uint32_t words[WORDS] = {0, 1, 2, 3, 4, 5, 6, 7, BY0, BY1, BY2};

#define NOT MOST

static const uint32_t words_after[OF_WORDS][WORDS] = {
    /*             nobody    0    1  0,1    2  0,2  1,2  all  BY0  BY1  BY2 */
    [TO_READ] =      {  2,   3, NOT, NOT,   6,   7, NOT, NOT, NOT, NOT, NOT},
    [TO_WRITE] =     {BY1, NOT, NOT, NOT, NOT, NOT, NOT, NOT, NOT, NOT, NOT},
    [DONE_READING] = {NOT, NOT,   0,   1, NOT, NOT,   4,   5, NOT, NOT, NOT},
    [DONE_WRITING] = {NOT, NOT, NOT, NOT, NOT, NOT, NOT, NOT, NOT,   0, NOT},
    [READING] =      {NOT, NOT,   2,   3, NOT, NOT,   6,   7, NOT, BY1, NOT},
    [WRITING] =      {NOT, NOT, NOT, NOT, NOT, NOT, NOT, NOT, NOT, BY1, NOT},
};

typedef struct {
    need_kind kind;
    size_t word;
} need;

enum { NEEDS_MOST = 2, EDITS_MOST = 4 };

/* Unused edits have word 0, which is T and is never edited. */
typedef struct {
    uint32_t op, line;
    const char *what;
    need needs[NEEDS_MOST];
    edit setup[EDITS_MOST];
    uint32_t next;  /* the line that follows, 0 for finish */
    uint32_t value; /* the finishing value */
    edit changes[EDITS_MOST];
} row;

static const row rows[] = {
    {1, 1, "W1", {{FREE_LOCK, LOCK_H}}, {{0, 0}}, 2, 0, {{LOCK_H, MINE}}},
    {1, 2, "W2", {{TO_WRITE, LOCK1}}, {{0, 0}}, 3, 0, {{0, 0}}},
    {1, 3, "W3 mapped", {{NO_NEED, 0}}, {{REG_P, 0}}, 12, 0, {{REG_P, 2}, {WEAR2, 2}}},
    {1, 3, "W3 block in p already", {{NO_NEED, 0}}, {{0, 0}}, 12, 0, {{WEAR2, 2}}},
    {1, 3, "W3 another number's block", {{NO_NEED, 0}}, {{MAP1, 1}}, 12, 0,
     {{REG_P, 0}, {WEAR0, 6}}},
    {1, 3, "W3 free block", {{NO_NEED, 0}}, {{MAP1, 2}}, 12, 0, {{REG_P, 1}, {WEAR1, 7}}},
    {1, 3, "W3 last block", {{NO_NEED, 0}}, {{MAP1, 4}}, 12, 0, {{REG_P, 3}, {WEAR3, 10}}},
    {1, 3, "W3 up to most wear", {{NO_NEED, 0}}, {{WEAR2, MOST - 1}}, 12, 0, {{WEAR2, MOST}}},
    {1, 3, "W3 at most wear", {{NO_NEED, 0}}, {{WEAR2, MOST}}, 12, 0, {{0, 0}}},
    {1, 3, "W3 unmapped", {{NO_NEED, 0}}, {{MAP1, 0}}, 4, 0, {{0, 0}}},
    {1, 4, "W4", {{NO_OWNER, HEADERS}}, {{0, 0}}, 5, 0, {{HEADERS, MINE}}},
    {1, 5, "W5", {{HELD, HEADERS}, {FREE_BLOCK, 0}}, {{0, 0}}, 6, 0, {{REG_P, 1}}},
    {1, 5, "W5 last block", {{HELD, HEADERS}}, {{HEADER1, 1}}, 6, 0, {{REG_P, 3}}},
    {1, 5, "W5 first block, owned", {{HELD, HEADERS}}, {{HEADER0, 0}, {OWNER0, BY0}}, 6, 0,
     {{REG_P, 0}}},
    {1, 6, "W6", {{TO_WRITE, OWNER2}}, {{0, 0}}, 7, 0, {{0, 0}}},
    {1, 7, "W7", {{HELD, HEADERS}, {WRITING, OWNER2}}, {{HEADER2, 0}}, 8, 0, {{HEADER2, 2}}},
    {1, 7, "W7 used block", {{HELD, HEADERS}, {WRITING, OWNER2}}, {{HEADER2, 1}}, 8, 0,
     {{HEADER2, 2}}},
    {1, 8, "W8", {{WRITING, OWNER2}, {USED, HEADER2}}, {{0, 0}}, 9, 0, {{CONTENT2, 0}}},
    {1, 9, "W9", {{DONE_WRITING, OWNER2}}, {{0, 0}}, 10, 0, {{0, 0}}},
    {1, 10, "W10", {{NO_NEED, 0}}, {{MAP1, 0}}, 11, 0, {{MAP1, 3}}},
    {1, 11, "W11", {{HELD, HEADERS}}, {{0, 0}}, 12, 0, {{HEADERS, 0}}},
    {1, 12, "W12", {{HELD, LOCK_H}}, {{0, 0}}, 13, 0, {{LOCK_H, 0}}},
    {1, 13, "W13", {{TO_WRITE, OWNER2}}, {{0, 0}}, 14, 0, {{0, 0}}},
    {1, 14, "W14", {{WRITING, OWNER2}, {USED, HEADER2}}, {{0, 0}}, 15, 0, {{CONTENT2, 77}}},
    {1, 15, "W15", {{DONE_WRITING, OWNER2}}, {{0, 0}}, 16, 0, {{0, 0}}},
    {1, 16, "W16", {{DONE_WRITING, LOCK1}}, {{0, 0}}, 0, 0, {{0, 0}}},

    {2, 1, "R1", {{TO_READ, LOCK1}}, {{0, 0}}, 2, 0, {{0, 0}}},
    {2, 2, "R2 unmapped", {{NO_NEED, 0}}, {{MAP1, 0}}, 6, 0, {{REG_C, 0}}},
    {2, 2, "R2 mapped", {{NO_NEED, 0}}, {{MAP1, 1}}, 3, 0, {{REG_P, 0}}},
    {2, 3, "R3", {{TO_READ, OWNER2}}, {{0, 0}}, 4, 0, {{0, 0}}},
    {2, 4, "R4", {{READING, OWNER2}, {USED, HEADER2}}, {{0, 0}}, 5, 0, {{REG_C, 52}}},
    {2, 5, "R5", {{DONE_READING, OWNER2}}, {{0, 0}}, 6, 0, {{0, 0}}},
    {2, 6, "R6", {{DONE_READING, LOCK1}}, {{0, 0}}, 0, 77, {{0, 0}}},
    {2, 6, "R6 with the largest word", {{DONE_READING, LOCK1}}, {{REG_C, MOST}}, 0, MOST, {{0, 0}}},

    {3, 1, "U1", {{FREE_LOCK, LOCK_H}}, {{0, 0}}, 2, 0, {{LOCK_H, MINE}}},
    {3, 2, "U2", {{TO_WRITE, LOCK1}}, {{0, 0}}, 3, 0, {{0, 0}}},
    {3, 3, "U3 unmapped", {{NO_NEED, 0}}, {{MAP1, 0}}, 10, 0, {{0, 0}}},
    {3, 3, "U3 mapped", {{NO_NEED, 0}}, {{MAP1, 1}}, 4, 0, {{REG_P, 0}}},
    {3, 4, "U4", {{NO_OWNER, HEADERS}}, {{0, 0}}, 5, 0, {{HEADERS, MINE}}},
    {3, 5, "U5", {{TO_WRITE, OWNER2}}, {{0, 0}}, 6, 0, {{0, 0}}},
    {3, 6, "U6", {{NO_NEED, 0}}, {{0, 0}}, 7, 0, {{MAP1, 0}}},
    {3, 7, "U7", {{HELD, HEADERS}, {WRITING, OWNER2}}, {{0, 0}}, 8, 0, {{HEADER2, 0}, {WEAR2, 2}}},
    {3, 7, "U7 free block", {{HELD, HEADERS}, {WRITING, OWNER2}}, {{HEADER2, 0}}, 8, 0,
     {{WEAR2, 2}}},
    {3, 7, "U7 up to most wear", {{HELD, HEADERS}, {WRITING, OWNER2}}, {{WEAR2, MOST - 1}}, 8, 0,
     {{HEADER2, 0}, {WEAR2, MOST}}},
    {3, 7, "U7 at most wear", {{HELD, HEADERS}, {WRITING, OWNER2}}, {{WEAR2, MOST}}, 8, 0,
     {{HEADER2, 0}}},
    {3, 8, "U8", {{DONE_WRITING, OWNER2}}, {{0, 0}}, 9, 0, {{0, 0}}},
    {3, 9, "U9", {{HELD, HEADERS}}, {{0, 0}}, 10, 0, {{HEADERS, 0}}},
    {3, 10, "U10", {{DONE_WRITING, LOCK1}}, {{0, 0}}, 11, 0, {{0, 0}}},
    {3, 11, "U11", {{HELD, LOCK_H}}, {{0, 0}}, 0, 0, {{LOCK_H, 0}}},

    {4, 1, "L1", {{FREE_LOCK, LOCK_H}}, {{0, 0}}, 2, 0, {{LOCK_H, MINE}}},
    {4, 2, "L2", {{NO_OWNER, HEADERS}}, {{0, 0}}, 3, 0, {{HEADERS, MINE}}},
    {4, 3, "L3", {{HELD, HEADERS}, {FREE_BLOCK, 0}}, {{REG_P, 1}, {REG_Q, 1}}, 4, 0,
     {{REG_P, 2}, {REG_Q, 3}}},
    {4, 4, "L4", {{HELD, HEADERS}}, {{HEADER2, 1}}, 5, 0, {{REG_H, 1}}},
    {4, 4, "L4 free block, owned", {{HELD, HEADERS}}, {{HEADER2, 0}, {OWNER2, 1}}, 5, 0,
     {{REG_H, 0}}},
    {4, 5, "L5 free", {{NO_NEED, 0}}, {{REG_H, 0}}, 17, 0, {{0, 0}}},
    {4, 5, "L5 not free", {{NO_NEED, 0}}, {{REG_H, 1}}, 6, 0, {{REG_N, 0}}},
    {4, 6, "L6", {{TO_WRITE, LOCK1}}, {{0, 0}}, 7, 0, {{0, 0}}},
    {4, 7, "L7", {{TO_WRITE, OWNER2}}, {{0, 0}}, 8, 0, {{0, 0}}},
    {4, 8, "L8", {{READING, OWNER2}, {USED, HEADER2}}, {{0, 0}}, 9, 0, {{REG_C, 52}}},
    {4, 9, "L9", {{TO_WRITE, OWNER3}}, {{0, 0}}, 10, 0, {{0, 0}}},
    {4, 10, "L10", {{HELD, HEADERS}, {WRITING, OWNER3}}, {{0, 0}}, 11, 0, {{HEADER3, 2}}},
    {4, 10, "L10 with h free", {{HELD, HEADERS}, {WRITING, OWNER3}},
     {{REG_H, 0}, {HEADER3, 1}}, 11, 0,
     {{HEADER3, 0}}},
    {4, 11, "L11", {{WRITING, OWNER3}, {USED, HEADER3}}, {{HEADER3, 2}}, 12, 0, {{CONTENT3, 77}}},
    {4, 12, "L12", {{NO_NEED, 0}}, {{0, 0}}, 13, 0, {{MAP1, 4}}},
    {4, 13, "L13", {{HELD, HEADERS}, {WRITING, OWNER2}}, {{0, 0}}, 14, 0,
     {{HEADER2, 0}, {WEAR2, 2}}},
    {4, 13, "L13 up to most wear", {{HELD, HEADERS}, {WRITING, OWNER2}}, {{WEAR2, MOST - 1}}, 14, 0,
     {{HEADER2, 0}, {WEAR2, MOST}}},
    {4, 13, "L13 at most wear", {{HELD, HEADERS}, {WRITING, OWNER2}}, {{WEAR2, MOST}}, 14, 0,
     {{HEADER2, 0}}},
    {4, 14, "L14", {{DONE_WRITING, OWNER3}}, {{0, 0}}, 15, 0, {{0, 0}}},
    {4, 15, "L15", {{DONE_WRITING, OWNER2}}, {{0, 0}}, 16, 0, {{0, 0}}},
    {4, 16, "L16", {{DONE_WRITING, LOCK1}}, {{0, 0}}, 17, 0, {{0, 0}}},
    {4, 17, "L17", {{HELD, HEADERS}}, {{0, 0}}, 18, 0, {{HEADERS, 0}}},
    {4, 18, "L18 moved", {{HELD, LOCK_H}}, {{0, 0}}, 0, 1, {{LOCK_H, 0}}},
    {4, 18, "L18 nothing moved", {{HELD, LOCK_H}}, {{REG_H, 0}}, 0, 0, {{LOCK_H, 0}}},
};

static void apply_used(area *a, const edit edits[EDITS_MOST])
{
    for (size_t i = 0; i < EDITS_MOST && edits[i].word != 0; i++) {
        apply(a, &edits[i], 1);
    }
}

static int is_of_words(need_kind kind)
{
    return kind > NO_NEED && kind < OF_WORDS;
}

static uint32_t word_after(need_kind kind, uint32_t word)
{
    size_t i = 0;
    while (words[i] != word) {
        i++;
    }
    return words_after[kind][i];
}

/* The first word with which the need is met. */
static uint32_t met_word(need_kind kind)
{
    size_t i = 0;
    while (words_after[kind][i] == NOT) {
        i++;
    }
    return words[i];
}

/* The area in which the row's line goes. */
static void make_ready(area *a, const row *r)
{
    make_fresh(a, T, N, P, D);
    apply(a, base, COUNT(base));
    const edit at[] = {{OP, r->op}, {LINE, r->line}};
    apply(a, at, COUNT(at));
    apply_used(a, r->setup);
    for (size_t i = 0; i < NEEDS_MOST; i++) {
        const need *n = &r->needs[i];
        if (n->kind == HELD) {
            put_word(a->bytes, n->word, MINE);
        } else if (is_of_words(n->kind)) {
            put_word(a->bytes, n->word, met_word(n->kind));
        }
    }
}

/* What the line makes of the words that its needs are about. */
static void follow_needs(area *after, const row *r)
{
    for (size_t i = 0; i < NEEDS_MOST; i++) {
        const need *n = &r->needs[i];
        if (is_of_words(n->kind)) {
            put_word(after->bytes, n->word,
                     word_after(n->kind, kernelsun_word(after->bytes, n->word)));
        }
    }
}

static void check_goes_from(area *a, const row *r)
{
    static area after;
    after = *a;
    apply_used(&after, r->changes);
    follow_needs(&after, r);
    if (r->next != 0) {
        put_word(after.bytes, LINE, r->next);
        expect_area(a, call_step(STEPPER), KERNELSUN_WENT, 0, &after);
        return;
    }
    for (size_t word = OP; word <= REG_H; word++) {
        put_word(after.bytes, word, 0);
    }
    expect_area(a, call_step(STEPPER), KERNELSUN_FINISHED, r->value, &after);
}

static void check_goes(const row *r)
{
    static area a;
    make_ready(&a, r);
    check_goes_from(&a, r);
}

static void check_refused_with(const row *r, uint32_t number, size_t word, uint32_t value)
{
    static area a;
    make_ready(&a, r);
    put_word(a.bytes, word, value);
    expect_refusal(&a, call_step(STEPPER), number);
}

static void check_no_free_block(const row *r)
{
    static const edit all_used[] = {{HEADER0, 1}, {HEADER1, 2}, {HEADER2, 2}, {HEADER3, 1}};
    static area a;
    make_ready(&a, r);
    apply(&a, all_used, COUNT(all_used));
    expect_refusal(&a, call_step(STEPPER), KERNELSUN_FAULT);
}

/* H or the headers: 0 is free, 1 to 3 the three threads. */
static void check_plain_need(const row *r, const need *n)
{
    for (uint32_t value = 0; value <= T; value++) {
        if (n->kind == FREE_LOCK && value != 0) {
            check_refused_with(r, KERNELSUN_BLOCKED, n->word, value);
        }
        if (n->kind == NO_OWNER && value != 0) {
            check_refused_with(r, KERNELSUN_FAULT, n->word, value);
        }
        if (n->kind == HELD && value != MINE) {
            check_refused_with(r, KERNELSUN_FAULT, n->word, value);
        }
    }
}

/* A block lock or a block's owner, with each word. Only a lock is waited for, to come to it. */
static void check_need_of_words(const row *r, const need *n)
{
    static area a;
    int waits = n->word == LOCK1 && (n->kind == TO_READ || n->kind == TO_WRITE);
    for (size_t i = 0; i < WORDS; i++) {
        if (word_after(n->kind, words[i]) == NOT) {
            check_refused_with(r, waits ? KERNELSUN_BLOCKED : KERNELSUN_FAULT, n->word, words[i]);
        } else {
            make_ready(&a, r);
            put_word(a.bytes, n->word, words[i]);
            check_goes_from(&a, r);
        }
    }
}

/* Breaks one need in each way that there is. */
static void check_need(const row *r, const need *n)
{
    switch (n->kind) {
    case NO_NEED: break;
    case FREE_LOCK:
    case NO_OWNER:
    case HELD: check_plain_need(r, n); break;
    case USED: check_refused_with(r, KERNELSUN_FAULT, n->word, 0); break;
    case FREE_BLOCK: check_no_free_block(r); break;
    default: check_need_of_words(r, n);
    }
}

/* Guards the table itself: 51 lines, none left out. */
static void check_table_is_whole(void)
{
    uint32_t lines = 0;
    about("the table has a row for each line");
    for (uint32_t op = KERNELSUN_WRITE; op <= KERNELSUN_LEVEL; op++) {
        for (uint32_t line = 1; line <= kernelsun_last_line(op); line++) {
            size_t i = 0;
            while (i < COUNT(rows) && (rows[i].op != op || rows[i].line != line)) {
                i++;
            }
            lines += i < COUNT(rows);
        }
    }
    expect_equal("lines", lines, 51);
}

int main(void)
{
    check_table_is_whole();
    for (size_t i = 0; i < COUNT(rows); i++) {
        about(rows[i].what);
        check_goes(&rows[i]);
        for (size_t k = 0; k < NEEDS_MOST; k++) {
            check_need(&rows[i], &rows[i].needs[k]);
        }
    }
    return all_met("door_lines");
}
