/*
 * Measures a step through the door against the C versions, in ns a call, and
 * checks that all of them do the same.
 *
 * A figure is made of many runs. A run does the same calls on the same bytes
 * for each version, one version after the other, so that what else the machine
 * does meets all of them alike. Out of the runs the least time and the median
 * are printed: the least is the better guess at the work itself, and the median
 * shows how noisy the machine was.
 *
 * In the mix, operations are opened by writing the four words of begin into the
 * record, in the same way for all versions, so that only steps are measured.
 */
#define _POSIX_C_SOURCE 199309L
#include <stdio.h>
#include <stdlib.h>
#include <string.h>
#include <time.h>

#include "filled.h"
#include "kernelsun_view.h"
#include "mix.h"
#include "plain.h"
#include "put_word.h"

/* Odd, so that there is a median. */
enum { RUNS = 201 };

/* A run of the mix has about ten times as many calls, well under a slice of the scheduler. */
enum { OPERATIONS_A_RUN = 200 };

enum { CALLS_A_RUN = 2000 };

/* Before measuring, each logical block has been used about this often. */
enum { ROUNDS_OF_GROWTH = 8 };

enum { LINE_OF_CHOOSING = 3 };

typedef uint64_t step_call(uint8_t *area, size_t len, uint32_t thread);

enum { DOOR, PLAIN, PLAIN_O3, FILLED, VERSIONS };

static step_call *const versions[VERSIONS] = {step, plain_step, plain_o3_step, filled_step};

static void stop_unless(int good, const char *what)
{
    if (!good) {
        printf("FAILED: %s\n", what);
        exit(1);
    }
}

/* ---- What is run ---- */

typedef struct {
    uint64_t calls, sum; /* of all results, so that two versions can be compared */
} tally;

typedef struct work work;

struct work {
    const char *name;
    tally (*run)(const work *w, step_call *call, uint8_t *area);
    kernelsun_sizes s;
    size_t len;
    uint8_t start[KERNELSUN_LENGTH_MOST]; /* what each run starts from */
    operation mix[OPERATIONS_A_RUN];
};

static void open_operation(uint8_t *area, uint32_t thread, const operation *o)
{
    put_word(area, kernelsun_at_thread(thread, KERNELSUN_THREAD_OPERATION), o->op);
    put_word(area, kernelsun_at_thread(thread, KERNELSUN_THREAD_LINE), 1);
    put_word(area, kernelsun_at_thread(thread, KERNELSUN_THREAD_N), o->n);
    put_word(area, kernelsun_at_thread(thread, KERNELSUN_THREAD_C), o->c);
}

static tally run_mix(const work *w, step_call *call, uint8_t *area)
{
    tally done = {0, 0};
    for (size_t k = 0; k < OPERATIONS_A_RUN; k++) {
        uint32_t thread = mix_thread(&w->s, k);
        uint64_t r;
        open_operation(area, thread, &w->mix[k]);
        do {
            r = call(area, w->len, thread);
            done.calls++;
            done.sum += r;
        } while (kernelsun_number(r) == KERNELSUN_WENT);
    }
    return done;
}

static tally run_same_step(const work *w, step_call *call, uint8_t *area)
{
    tally done = {CALLS_A_RUN, 0};
    for (size_t k = 0; k < CALLS_A_RUN; k++) {
        done.sum += call(area, w->len, 0);
    }
    return done;
}

/* The line is put back before each call; a step at L3 changes nothing else that it looks at. */
static tally run_choosing(const work *w, step_call *call, uint8_t *area)
{
    tally done = {CALLS_A_RUN, 0};
    for (size_t k = 0; k < CALLS_A_RUN; k++) {
        put_word(area, kernelsun_at_thread(0, KERNELSUN_THREAD_LINE), LINE_OF_CHOOSING);
        done.sum += call(area, w->len, 0);
    }
    return done;
}

/* ---- Where it starts ---- */

static void do_whole(uint8_t *area, size_t len, uint32_t thread, const operation *o)
{
    uint64_t r = plain_begin(area, len, thread, o->op, o->n, o->c);
    while (kernelsun_number(r) == KERNELSUN_WENT) {
        r = plain_step(area, len, thread);
    }
    stop_unless(kernelsun_number(r) == KERNELSUN_FINISHED, "an operation doesn't finish");
}

/* A store grown by the mix, with all threads idle, and operations to do next. */
static void make_mix(work *w, const mix_area *a)
{
    chance dice = chance_from(MIX_SEED);
    w->name = a->name;
    w->run = run_mix;
    w->s = a->s;
    w->len = KERNELSUN_LENGTH(a->s.t, a->s.n, a->s.p);
    uint64_t r = plain_format(w->start, w->len, a->s.t, a->s.n, a->s.p, a->s.d);
    stop_unless(kernelsun_number(r) == KERNELSUN_WENT, "an area isn't formatted");
    for (size_t k = 0; k < (size_t)ROUNDS_OF_GROWTH * a->s.n; k++) {
        operation o = mix_next(&dice, &a->s);
        do_whole(w->start, w->len, mix_thread(&a->s, k), &o);
    }
    for (size_t k = 0; k < OPERATIONS_A_RUN; k++) {
        w->mix[k] = mix_next(&dice, &a->s);
    }
}

static void make_idle(work *w, const mix_area *a)
{
    make_mix(w, a);
    w->name = "largest, idle refused";
    w->run = run_same_step;
}

static void make_choosing(work *w, const mix_area *a)
{
    make_mix(w, a);
    w->name = "largest, choosing (L3)";
    w->run = run_choosing;
    uint64_t r = plain_begin(w->start, w->len, 0, KERNELSUN_LEVEL, 0, 0);
    while (kernelsun_number(r) == KERNELSUN_WENT &&
           kernelsun_line(w->start, 0) < LINE_OF_CHOOSING) {
        r = plain_step(w->start, w->len, 0);
    }
    stop_unless(kernelsun_number(r) == KERNELSUN_WENT, "a levelling doesn't come as far as L3");
}

/* ---- The same numbers, values and bytes, call by call ---- */

static uint64_t areas_compared;
static uint8_t each[VERSIONS][KERNELSUN_LENGTH_MOST];

static void compare(size_t len, const uint64_t r[VERSIONS])
{
    for (int v = 0; v < VERSIONS; v++) {
        stop_unless(r[v] == r[PLAIN], "the versions give different results");
        stop_unless(memcmp(each[v], each[PLAIN], len) == 0, "the versions leave different bytes");
    }
    areas_compared++;
}

/* The C versions share one begin. */
static void begin_in_each(const work *w, uint32_t thread, const operation *o)
{
    uint64_t r[VERSIONS] = {begin(each[DOOR], w->len, thread, o->op, o->n, o->c)};
    for (int v = PLAIN; v < VERSIONS; v++) {
        r[v] = plain_begin(each[v], w->len, thread, o->op, o->n, o->c);
    }
    compare(w->len, r);
}

static uint64_t step_in_each(const work *w, uint32_t thread)
{
    uint64_t r[VERSIONS];
    for (int v = 0; v < VERSIONS; v++) {
        r[v] = versions[v](each[v], w->len, thread);
    }
    compare(w->len, r);
    return r[PLAIN];
}

/* The mix, each operation followed by a step that is refused as idle. */
static void compare_mix(const work *w)
{
    for (int v = 0; v < VERSIONS; v++) {
        memcpy(each[v], w->start, w->len);
    }
    for (size_t k = 0; k < OPERATIONS_A_RUN; k++) {
        uint32_t thread = mix_thread(&w->s, k);
        uint64_t r;
        begin_in_each(w, thread, &w->mix[k]);
        do {
            r = step_in_each(w, thread);
        } while (kernelsun_number(r) == KERNELSUN_WENT);
        stop_unless(kernelsun_number(r) == KERNELSUN_FINISHED, "an operation doesn't finish");
        r = step_in_each(w, thread);
        stop_unless(kernelsun_number(r) == KERNELSUN_IDLE, "an idle thread isn't refused");
    }
}

/* ---- Measuring ---- */

typedef struct {
    uint64_t calls, sum;                /* of the first run, */
    uint8_t end[KERNELSUN_LENGTH_MOST]; /* with the bytes that it left */
    double ns[VERSIONS][RUNS];          /* a call, in rising order once measured */
} figure;

static double now_in_ns(void)
{
    struct timespec t;
    clock_gettime(CLOCK_MONOTONIC, &t);
    return (double)t.tv_sec * 1e9 + (double)t.tv_nsec;
}

static int by_size(const void *a, const void *b)
{
    double x = *(const double *)a, y = *(const double *)b;
    return (x > y) - (x < y);
}

/* One run of a version. The area is the same for all, so that its place in memory is too. */
static tally timed(const work *w, step_call *call, uint8_t *area, double *ns)
{
    memcpy(area, w->start, w->len);
    double start = now_in_ns();
    tally done = w->run(w, call, area);
    *ns = (now_in_ns() - start) / (double)done.calls;
    return done;
}

/* Each run of each version must end as the first one did. */
static void check_end(const work *w, const uint8_t *area, tally done, figure *f)
{
    if (f->calls == 0) {
        memcpy(f->end, area, w->len);
        f->calls = done.calls;
        f->sum = done.sum;
    }
    stop_unless(done.calls == f->calls && done.sum == f->sum,
                "the versions give different results");
    stop_unless(memcmp(area, f->end, w->len) == 0, "the versions leave different bytes");
    areas_compared++;
}

static void measure_run(const work *w, figure *f, int run)
{
    static uint8_t area[KERNELSUN_LENGTH_MOST];
    for (int v = 0; v < VERSIONS; v++) {
        tally done = timed(w, versions[v], area, &f->ns[v][run]);
        check_end(w, area, done, f);
    }
}

/* The works take turns, so that a slow moment of the machine falls on all of them. */
static void measure(const work *works, figure *figures, int count)
{
    for (int run = 0; run < RUNS; run++) {
        for (int i = 0; i < count; i++) {
            measure_run(&works[i], &figures[i], run);
        }
    }
    for (int i = 0; i < count; i++) {
        for (int v = 0; v < VERSIONS; v++) {
            qsort(figures[i].ns[v], RUNS, sizeof figures[i].ns[v][0], by_size);
        }
    }
}

static uint64_t step_that_does_nothing(uint8_t *area, size_t len, uint32_t thread)
{
    (void)area, (void)len, (void)thread;
    return 0;
}

/* The store's zeros alone. What the assembler might read can't be left out by the compiler. */
static uint64_t step_that_only_fills(uint8_t *area, size_t len, uint32_t thread)
{
    uint8_t store[KERNELSUN_LENGTH_MOST];
    memset(store, 0, sizeof store);
    __asm__ volatile("" : : "r"(store) : "memory");
    return step_that_does_nothing(area, len, thread);
}

/* What a call costs that is none of the versions. */
static double least_of(const work *w, step_call *call)
{
    static uint8_t area[KERNELSUN_LENGTH_MOST];
    double least = 0;
    for (int run = 0; run < RUNS; run++) {
        double ns;
        timed(w, call, area, &ns);
        least = run == 0 || ns < least ? ns : least;
    }
    return least;
}

/* ---- The report ---- */

enum { FIGURE_IDLE = MIX_AREAS, FIGURE_CHOOSING, FIGURES };

/* Room for three sizes as text. */
enum { TEXT_MOST = 40 };

static work works[FIGURES];
static figure figures[FIGURES];

static void print_row(const work *w, const figure *f, int rank)
{
    char t_n_p[TEXT_MOST];
    snprintf(t_n_p, sizeof t_n_p, "%u, %u, %u", (unsigned)w->s.t, (unsigned)w->s.n,
             (unsigned)w->s.p);
    printf("| %-22s | %-12s |", w->name, t_n_p);
    for (int v = 0; v < VERSIONS; v++) {
        printf(" %9.1f |", f->ns[v][rank]);
    }
    for (int v = PLAIN; v < VERSIONS; v++) {
        printf(" %11.2f |", f->ns[DOOR][rank] / f->ns[v][rank]);
    }
    printf("\n");
}

/* A table that also a Markdown page takes. */
static void print_table(const char *what, int rank)
{
    printf("ns a step, %s of %d runs:\n\n", what, RUNS);
    printf("| area                   | T, N, P      |      door |     plain | plain -O3 |"
           "    filled |  door/plain |    door/-O3 | door/filled |\n");
    printf("|------------------------|--------------|----------:|----------:|----------:|"
           "----------:|------------:|------------:|------------:|\n");
    for (int i = 0; i < FIGURES; i++) {
        print_row(&works[i], &figures[i], rank);
    }
    printf("\n");
}

int main(void)
{
    for (int i = 0; i < MIX_AREAS; i++) {
        make_mix(&works[i], &mix_areas[i]);
        compare_mix(&works[i]);
    }
    make_idle(&works[FIGURE_IDLE], &mix_areas[MIX_LARGEST]);
    make_choosing(&works[FIGURE_CHOOSING], &mix_areas[MIX_LARGEST]);
    measure(works, figures, FIGURES);
    printf("A run is %d calls, or the steps of %d operations (%u on the largest area).\n\n",
           CALLS_A_RUN, OPERATIONS_A_RUN, (unsigned)figures[MIX_LARGEST].calls);
    print_table("least", 0);
    print_table("median", RUNS / 2);
    printf("The loop around a call is part of each figure: %.1f ns. Filling %u bytes with zeros, by\n"
           "itself and with that loop: %.1f ns, the least of as many runs.\n",
           least_of(&works[FIGURE_IDLE], step_that_does_nothing), (unsigned)KERNELSUN_LENGTH_MOST,
           least_of(&works[FIGURE_IDLE], step_that_only_fills));
    printf("All versions gave the same results and left the same bytes: %llu areas compared.\n",
           (unsigned long long)areas_compared);
    return 0;
}
