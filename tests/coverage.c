/* See coverage.h. It looks at areas only; it knows nothing of either machine. */
#include "coverage.h"

#include <stdio.h>

#include "fuzz.h"

enum { NUMBERS = KERNELSUN_LIMITS + 1 };

static unsigned long by_call[CALLS][NUMBERS];
static unsigned long by_line[KERNELSUN_LEVEL + 1][LINES_MOST + 1][NUMBERS];

/* Who is at a block lock or a block, seen from the thread that steps. */
enum {
    NOBODY, WRITES_IT, READS_IT_ALONE, READS_IT_TOO, OTHERS_READ, ANOTHER_WRITES, HOLDERS
};

static const char *const holders_names[HOLDERS] = {
    "nobody", "itself as the writer", "itself as the only reader", "itself and other readers",
    "other readers", "another writer",
};

static unsigned long by_holders[KERNELSUN_LEVEL + 1][LINES_MOST + 1][HOLDERS];

enum {
    W3_MAPPED, W3_STAYS, W3_UNMAPPED, W5_BEYOND_FIRST, R2_MAPPED, R2_UNMAPPED, R6_NOT_0, U3_MAPPED,
    U3_UNMAPPED, U7_STAYS, L5_FREE, L5_USED, L13_STAYS, L18_MOVED, L18_NOTHING, L3_MOVES,
    L3_NOTHING_MAPPED, L3_TOO_NEAR, L3_JUST_ENOUGH, L3_TIE_OF_FROM, L3_TIE_OF_TO, L3_BEYOND,
    H_BY_ITSELF, H_BY_ANOTHER, NO_FREE_BLOCK, READER_PAST_T, WRITER_PAST_T, READERS_AND_WRITER, ACTS
};

static const char *const act_names[ACTS] = {
    "W3 mapped", "W3 wear stays at most", "W3 unmapped", "W5 beyond the first block", "R2 mapped",
    "R2 unmapped", "R6 with a value that isn't 0", "U3 mapped", "U3 unmapped",
    "U7 wear stays at most", "L5 free", "L5 not free", "L13 wear stays at most", "L18 moved",
    "L18 nothing moved", "L3 moves", "L3 nothing mapped", "L3 too near", "L3 just far enough",
    "L3 tie of from", "L3 tie of to", "L3 sum beyond 32 bits", "blocked for H by itself",
    "blocked for H by another", "FAULT for want of a free block", "SHAPE for a reader not below T",
    "SHAPE for a writer not below T", "SHAPE for readers beside a writer",
};

static unsigned long acts[ACTS];

/* ---- Counting ---- */

typedef struct {
    const area *before, *after;
    kernelsun_sizes s;
    uint32_t thread, op, line, number, value;
} met;

static int is_at(const met *m, uint32_t op, uint32_t line)
{
    return m->op == op && m->line == line;
}

static int has_jumped(const met *m)
{
    return kernelsun_line(m->after->bytes, m->thread) != m->line + 1;
}

static void count_branches(const met *m)
{
    const uint8_t *after = m->after->bytes;
    int jumped = has_jumped(m);
    if (is_at(m, KERNELSUN_WRITE, 3)) {
        acts[jumped ? W3_MAPPED : W3_UNMAPPED]++;
    } else if (is_at(m, KERNELSUN_READ, 2)) {
        acts[jumped ? R2_UNMAPPED : R2_MAPPED]++;
    } else if (is_at(m, KERNELSUN_UNMAP, 3)) {
        acts[jumped ? U3_UNMAPPED : U3_MAPPED]++;
    } else if (is_at(m, KERNELSUN_LEVEL, 5)) {
        acts[jumped ? L5_FREE : L5_USED]++;
    } else if (is_at(m, KERNELSUN_WRITE, 5)) {
        acts[W5_BEYOND_FIRST] += kernelsun_register_p(after, m->thread) != 0;
    }
}

/* p after the step is the block that is worn, since W3 sets it and the others keep it. */
static void count_wear(const met *m)
{
    const uint8_t *before = m->before->bytes;
    uint32_t p = kernelsun_register_p(m->after->bytes, m->thread);
    if (kernelsun_wear(before, p) == KERNELSUN_WEAR_MOST) {
        acts[W3_STAYS] += is_at(m, KERNELSUN_WRITE, 3) && has_jumped(m);
        acts[U7_STAYS] += is_at(m, KERNELSUN_UNMAP, 7);
        acts[L13_STAYS] += is_at(m, KERNELSUN_LEVEL, 13);
    }
}

static void count_finish(const met *m)
{
    if (m->op == KERNELSUN_READ) {
        acts[R6_NOT_0] += m->value != 0;
    }
    if (m->op == KERNELSUN_LEVEL) {
        acts[m->value != 0 ? L18_MOVED : L18_NOTHING]++;
    }
}

/* How many blocks of one kind have the wear of the chosen one. */
static uint32_t alike(const met *m, uint32_t chosen, int used)
{
    uint32_t count = 0;
    const uint8_t *bytes = m->before->bytes;
    for (uint32_t p = 0; p < m->s.p; p++) {
        int is_used = kernelsun_header(bytes, p) != KERNELSUN_NONE;
        count += is_used == used && kernelsun_wear(bytes, p) == kernelsun_wear(bytes, chosen);
    }
    return count;
}

static void count_chosen(const met *m, uint32_t from, uint32_t to)
{
    const uint8_t *bytes = m->before->bytes;
    uint64_t wear_from = kernelsun_wear(bytes, from), wear_to = kernelsun_wear(bytes, to);
    acts[L3_MOVES]++;
    acts[L3_JUST_ENOUGH] += wear_to == wear_from + m->s.d;
    acts[L3_TIE_OF_FROM] += alike(m, from, 1) > 1;
    acts[L3_TIE_OF_TO] += alike(m, to, 0) > 1;
}

/* "from" became "to": nothing is mapped, or the least mapped wear is too near. */
static void count_nothing_to_move(const met *m)
{
    const uint8_t *bytes = m->before->bytes;
    uint64_t least = UINT64_MAX;
    for (uint32_t p = 0; p < m->s.p; p++) {
        uint64_t wear = kernelsun_wear(bytes, p);
        if (kernelsun_header(bytes, p) != KERNELSUN_NONE && wear < least) {
            least = wear;
        }
    }
    if (least == UINT64_MAX) {
        acts[L3_NOTHING_MAPPED]++;
        return;
    }
    acts[L3_TOO_NEAR]++;
    acts[L3_BEYOND] += least + m->s.d > KERNELSUN_WEAR_MOST;
}

static void count_choice(const met *m)
{
    uint32_t from = kernelsun_register_p(m->after->bytes, m->thread);
    uint32_t to = kernelsun_register_q(m->after->bytes, m->thread);
    if (from != to) {
        count_chosen(m, from, to);
    } else {
        count_nothing_to_move(m);
    }
}

/* For H. Who is waited for at a block lock, count_holders() counts. */
static void count_blocked(const met *m)
{
    const uint8_t *before = m->before->bytes;
    if (kernelsun_next_lock(before, m->thread) == KERNELSUN_LOCK_H) {
        acts[kernelsun_lock_h(before) == m->thread ? H_BY_ITSELF : H_BY_ANOTHER]++;
    }
}

/* Of each line, whether it looks at n's lock, at the owner of p or of q, or at none of them. */
static char looks_at(uint32_t op, uint32_t line)
{
    static const char *const kinds[KERNELSUN_LEVEL + 1] = {"", "-n---pppp---pppn", "n-pppn",
                                                           "-n--p-pp-n-", "-----nppqqq-pqpn--"};
    return kinds[op][line - 1];
}

static int kind_of_holders(uint32_t word, uint32_t thread)
{
    uint32_t readers = word % KERNELSUN_READER_SETS, itself = kernelsun_bit(thread);
    if (word >= KERNELSUN_READER_SETS) {
        return word == kernelsun_writing(thread) ? WRITES_IT : ANOTHER_WRITES;
    }
    if ((readers & itself) != 0) {
        return readers == itself ? READS_IT_ALONE : READS_IT_TOO;
    }
    return readers == 0 ? NOBODY : OTHERS_READ;
}

static void count_holders(const met *m)
{
    const uint8_t *before = m->before->bytes;
    uint32_t p = kernelsun_register_p(before, m->thread), word;
    switch (looks_at(m->op, m->line)) {
    case 'n': word = kernelsun_of_lock(before, kernelsun_register_n(before, m->thread)); break;
    case 'q': p = kernelsun_register_q(before, m->thread); /* fall through */
    case 'p': word = kernelsun_of_block(before, p, KERNELSUN_BLOCK_OWNER); break;
    default: return;
    }
    by_holders[m->op][m->line][kind_of_holders(word, m->thread)]++;
}

static void count_malformed_word(uint32_t word, uint32_t t)
{
    uint32_t readers = word % KERNELSUN_READER_SETS, writer = word / KERNELSUN_READER_SETS;
    acts[READER_PAST_T] += writer == 0 && readers >> t != 0;
    acts[WRITER_PAST_T] += readers == 0 && writer > t;
    acts[READERS_AND_WRITER] += readers != 0 && writer != 0;
}

/* Of an area that was refused, though its sizes are right. */
static void count_malformed(const area *a)
{
    if (!kernelsun_viewable(a->bytes, a->len)) {
        return;
    }
    kernelsun_sizes s = kernelsun_sizes_of(a->bytes);
    for (uint32_t n = 0; n < s.n; n++) {
        count_malformed_word(kernelsun_of_lock(a->bytes, n), s.t);
    }
    for (uint32_t p = 0; p < s.p; p++) {
        count_malformed_word(kernelsun_of_block(a->bytes, p, KERNELSUN_BLOCK_OWNER), s.t);
    }
}

/* W5 and L3 with the headers owned can only fail for want of a free block. */
static void count_fault(const met *m)
{
    if (is_at(m, KERNELSUN_WRITE, 5) || is_at(m, KERNELSUN_LEVEL, 3)) {
        acts[NO_FREE_BLOCK] += kernelsun_headers_owner(m->before->bytes) == m->thread;
    }
}

static void count_acts(const met *m)
{
    switch (m->number) {
    case KERNELSUN_BLOCKED: count_blocked(m); break;
    case KERNELSUN_FAULT: count_fault(m); break;
    case KERNELSUN_FINISHED: count_finish(m); break;
    case KERNELSUN_WENT:
        count_branches(m);
        count_wear(m);
        if (is_at(m, KERNELSUN_LEVEL, 3)) {
            count_choice(m);
        }
        break;
    default: break;
    }
}

/* The numbers that a step gives when it came as far as its line. */
static int is_of_line(uint32_t number)
{
    return number == KERNELSUN_WENT || number == KERNELSUN_FINISHED ||
           number == KERNELSUN_BLOCKED || number == KERNELSUN_FAULT;
}

void coverage_count(const call *c, uint64_t r, const area *before, const area *after)
{
    uint32_t number = kernelsun_number(r);
    if (number >= NUMBERS) {
        return;
    }
    by_call[c->which][number]++;
    if (c->which != CALL_FORMAT && number == KERNELSUN_SHAPE) {
        count_malformed(before);
    }
    if (c->which != CALL_STEP || !is_of_line(number)) {
        return;
    }
    met m = {before,
             after,
             kernelsun_sizes_of(before->bytes),
             c->argument[0],
             0,
             0,
             number,
             kernelsun_value(r)};
    m.op = kernelsun_operation(before->bytes, m.thread);
    m.line = kernelsun_line(before->bytes, m.thread);
    by_line[m.op][m.line][number]++;
    count_holders(&m);
    count_acts(&m);
}

/* ---- Reporting ---- */

/* Lines by what they can give besides going on: nothing, BLOCKED or FAULT. */
static uint32_t refusal_of(uint32_t op, uint32_t line)
{
    static const char *const kinds[KERNELSUN_LEVEL + 1] = {"", "bb-ffffff-ffffff", "b-ffff",
                                                           "bb-ff-fffff", "bfff-bfffff-ffffff"};
    char kind = kinds[op][line - 1];
    return kind == 'b' ? KERNELSUN_BLOCKED : kind == 'f' ? KERNELSUN_FAULT : KERNELSUN_WENT;
}

static uint32_t going_of(uint32_t op, uint32_t line)
{
    return line == kernelsun_last_line(op) ? KERNELSUN_FINISHED : KERNELSUN_WENT;
}

typedef struct {
    unsigned long count;
    uint32_t line;
} least;

static void keep_least(least *l, unsigned long count, uint32_t line)
{
    if (l->line == 0 || count < l->count) {
        l->count = count;
        l->line = line;
    }
}

static int report_least(uint32_t op, const char *what, least l)
{
    printf(", %s %lu (%s)", what, l.count, kernelsun_label(op, l.line));
    return l.count != 0;
}

static int report_operation(uint32_t op)
{
    least going = {0, 0}, blocked = {0, 0}, fault = {0, 0};
    for (uint32_t line = 1; line <= kernelsun_last_line(op); line++) {
        uint32_t refusal = refusal_of(op, line);
        keep_least(&going, by_line[op][line][going_of(op, line)], line);
        if (refusal != KERNELSUN_WENT) {
            keep_least(refusal == KERNELSUN_BLOCKED ? &blocked : &fault,
                       by_line[op][line][refusal], line);
        }
    }
    printf("  %-5s least met of its %2u lines", kernelsun_operation_name(op),
           (unsigned)kernelsun_last_line(op));
    int whole = report_least(op, "going on", going);
    whole &= report_least(op, "BLOCKED", blocked);
    whole &= report_least(op, "FAULT", fault);
    printf("%s\n", whole ? "" : "  NEVER MET");
    return whole;
}

/* Each line that looks at such a word has met each kind there. */
static int report_holders(void)
{
    unsigned lines = 0, rarest_kind = 0;
    uint32_t rarest_op = KERNELSUN_READ, rarest_line = 1;
    int whole = 1;
    for (uint32_t op = KERNELSUN_WRITE; op <= KERNELSUN_LEVEL; op++) {
        for (uint32_t line = 1; line <= kernelsun_last_line(op); line++) {
            lines += looks_at(op, line) != '-';
            for (unsigned kind = 0; looks_at(op, line) != '-' && kind < HOLDERS; kind++) {
                unsigned long times = by_holders[op][line][kind];
                if (times < by_holders[rarest_op][rarest_line][rarest_kind]) {
                    rarest_op = op, rarest_line = line, rarest_kind = kind;
                }
                if (times == 0) {
                    printf("  NEVER MET: %s with %s\n", kernelsun_label(op, line),
                           holders_names[kind]);
                    whole = 0;
                }
            }
        }
    }
    printf("  %u lines at a block lock or owner with each of %u kinds of holders, rarest: "
           "%s with %s, %lu times\n",
           lines, (unsigned)HOLDERS, kernelsun_label(rarest_op, rarest_line),
           holders_names[rarest_kind], by_holders[rarest_op][rarest_line][rarest_kind]);
    return whole;
}

static int report_call(int which, const char *name, const uint32_t *numbers, size_t count)
{
    int whole = 1;
    printf("  %-6s", name);
    for (size_t i = 0; i < count; i++) {
        unsigned long met_times = by_call[which][numbers[i]];
        printf(" %s %lu%s", kernelsun_name(numbers[i]), met_times, met_times ? "" : " NEVER MET");
        whole &= met_times != 0;
    }
    printf("\n");
    return whole;
}

static int report_calls(void)
{
    static const uint32_t of_format[] = {KERNELSUN_WENT, KERNELSUN_LIMITS, KERNELSUN_SHAPE};
    static const uint32_t of_begin[] = {KERNELSUN_WENT, KERNELSUN_SHAPE,     KERNELSUN_THREAD,
                                        KERNELSUN_BUSY, KERNELSUN_OPERATION, KERNELSUN_LOGICAL};
    static const uint32_t of_step[] = {KERNELSUN_WENT,   KERNELSUN_FINISHED, KERNELSUN_BLOCKED,
                                       KERNELSUN_FAULT,  KERNELSUN_SHAPE,    KERNELSUN_THREAD,
                                       KERNELSUN_IDLE};
    int whole = report_call(CALL_FORMAT, "format", of_format, 3);
    whole &= report_call(CALL_BEGIN, "begin", of_begin, 6);
    whole &= report_call(CALL_STEP, "step", of_step, 7);
    return whole;
}

int coverage_is_whole(void)
{
    int whole = report_calls();
    for (uint32_t op = KERNELSUN_WRITE; op <= KERNELSUN_LEVEL; op++) {
        whole &= report_operation(op);
    }
    whole &= report_holders();
    whole &= all_met("acts", act_names, acts, ACTS);
    return whole;
}
