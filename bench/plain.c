/*
 * The shape of an area, the three calls and their refusals, straight on the
 * bytes. The lines themselves are in lines.h.
 *
 * The test of the shape is most of a step in a large area, and its loop has two
 * forms. gcc at -O2 doesn't vectorise a loop whose length it doesn't know;
 * there it is fastest to leave at the first word that is out of bounds, by
 * branches that are always foreseen. At -O3 it vectorises, but only a loop that
 * doesn't leave early: plain_o3.c asks for that.
 */
#include "plain.h"

#include <string.h>

#include "kernelsun_view.h"
#include "put_word.h"

#ifndef PLAIN_LEAVES_EARLY
#define PLAIN_LEAVES_EARLY 1
#endif

/* ---- Where words stand: in the area and nowhere else ---- */

typedef uint8_t *place;

static inline uint32_t get(const uint8_t *word)
{
    return kernelsun_word(word, 0);
}

static inline void put(place word, uint32_t value)
{
    put_word(word, 0, value);
}

static inline place word_at(place table, size_t index)
{
    return table + BYTES_IN_WORD * index;
}

typedef struct {
    place head, record, map, locks, blocks;
    kernelsun_sizes s;
    uint32_t mine, bit, writing, next;
} machine;

static inline machine machine_at(uint8_t *area, uint32_t thread)
{
    machine m = {.head = area, .s = kernelsun_sizes_of(area), .mine = thread + 1,
                 .bit = kernelsun_bit(thread), .writing = kernelsun_writing(thread)};
    m.record = word_at(area, kernelsun_at_thread(thread, 0));
    m.map = word_at(area, kernelsun_at_map(&m.s, 0));
    m.locks = word_at(area, kernelsun_at_lock(&m.s, 0));
    m.blocks = word_at(area, kernelsun_at_block(&m.s, 0, 0));
    return m;
}

static inline place reg_place(const machine *m, size_t field)
{
    return word_at(m->record, field);
}

static inline place header_lock(const machine *m)
{
    return word_at(m->head, KERNELSUN_AT_LOCK);
}

static inline place headers_owner(const machine *m)
{
    return word_at(m->head, KERNELSUN_AT_OWNER);
}

static inline place map_place(const machine *m, uint32_t n)
{
    return word_at(m->map, n);
}

static inline place lock_place(const machine *m, uint32_t n)
{
    return word_at(m->locks, n);
}

static inline place block_place(const machine *m, uint32_t p, size_t field)
{
    return word_at(m->blocks, (size_t)KERNELSUN_BLOCK_WORDS * p + field);
}

#include "lines.h"

/* ---- The shape of an area ---- */

static inline int within(uint32_t value, uint32_t least, uint32_t most)
{
    return value >= least && value <= most;
}

static inline int sizes_in_limits(const kernelsun_sizes *s)
{
    return within(s->t, KERNELSUN_THREADS_LEAST, KERNELSUN_THREADS_MOST) &&
           within(s->n, KERNELSUN_LOGICAL_LEAST, KERNELSUN_LOGICAL_MOST) &&
           within(s->p, KERNELSUN_PHYSICAL_LEAST(s->n), KERNELSUN_PHYSICAL_MOST) &&
           within(s->d, KERNELSUN_DISTANCE_LEAST, KERNELSUN_DISTANCE_MOST);
}

static inline int record_well_formed(const uint8_t *record, const kernelsun_sizes *s)
{
    uint32_t op = kernelsun_word(record, KERNELSUN_THREAD_OPERATION);
    uint32_t line = kernelsun_word(record, KERNELSUN_THREAD_LINE);
    uint32_t n = kernelsun_word(record, KERNELSUN_THREAD_N);
    uint32_t c = kernelsun_word(record, KERNELSUN_THREAD_C);
    uint32_t p = kernelsun_word(record, KERNELSUN_THREAD_P);
    uint32_t q = kernelsun_word(record, KERNELSUN_THREAD_Q);
    uint32_t h = kernelsun_word(record, KERNELSUN_THREAD_H);
    if (op == 0) {
        return (line | n | c | p | q | h) == 0;
    }
    return op <= KERNELSUN_LEVEL && within(line, 1, kernelsun_last_line(op)) && n < s->n &&
           p < s->p && q < s->p && h <= s->n;
}

static inline int records_well_formed(const uint8_t *area, const kernelsun_sizes *s)
{
    for (uint32_t thread = 0; thread < s->t; thread++) {
        if (!record_well_formed(area + BYTES_IN_WORD * kernelsun_at_thread(thread, 0), s)) {
            return 0;
        }
    }
    return 1;
}

/* A block lock or a block's owner: a set of threads below t, or one of them as the writer. */
static inline int holders_well_formed(uint32_t word, uint32_t t)
{
    return (word < (uint32_t)1 << t) |
           ((word % KERNELSUN_READER_SETS == 0) & (word <= KERNELSUN_READER_SETS * t));
}

/*
 * Two columns of a table, `stride` words from row to row: words of at most `most`, and holders.
 * Where nearly all of these are 0, that is what is asked first.
 */
static inline int columns_well_formed(const uint8_t *first, uint32_t most, const uint8_t *holders,
                                      uint32_t t, size_t stride, uint32_t count)
{
    int good = 1;
    for (uint32_t i = 0; i < count; i++) {
        uint32_t x = kernelsun_word(first, stride * i), y = kernelsun_word(holders, stride * i);
        if (PLAIN_LEAVES_EARLY && (x > most || (y != 0 && !holders_well_formed(y, t)))) {
            return 0;
        }
        if (!PLAIN_LEAVES_EARLY) {
            good &= (x <= most) & holders_well_formed(y, t);
        }
    }
    return good;
}

static inline int map_and_locks_well_formed(const uint8_t *area, const kernelsun_sizes *s)
{
    const uint8_t *map = area + BYTES_IN_WORD * kernelsun_at_map(s, 0);
    const uint8_t *locks = area + BYTES_IN_WORD * kernelsun_at_lock(s, 0);
    return columns_well_formed(map, s->p, locks, s->t, 1, s->n);
}

static inline int blocks_well_formed(const uint8_t *area, const kernelsun_sizes *s)
{
    const uint8_t *headers =
        area + BYTES_IN_WORD * kernelsun_at_block(s, 0, KERNELSUN_BLOCK_HEADER);
    const uint8_t *owners = area + BYTES_IN_WORD * kernelsun_at_block(s, 0, KERNELSUN_BLOCK_OWNER);
    return columns_well_formed(headers, s->n, owners, s->t, KERNELSUN_BLOCK_WORDS, s->p);
}

static inline int well_formed(const uint8_t *area, size_t len)
{
    if (len < BYTES_IN_WORD * KERNELSUN_HEAD_WORDS) {
        return 0;
    }
    kernelsun_sizes s = kernelsun_sizes_of(area);
    return sizes_in_limits(&s) && len == KERNELSUN_LENGTH(s.t, s.n, s.p) &&
           kernelsun_word(area, KERNELSUN_AT_LOCK) <= s.t &&
           kernelsun_word(area, KERNELSUN_AT_OWNER) <= s.t && records_well_formed(area, &s) &&
           map_and_locks_well_formed(area, &s) && blocks_well_formed(area, &s);
}

/* ---- The three calls ---- */

uint64_t plain_format(uint8_t *area, size_t len, uint32_t t, uint32_t n, uint32_t p, uint32_t d)
{
    kernelsun_sizes s = {t, n, p, d};
    if (!sizes_in_limits(&s)) {
        return answer(KERNELSUN_LIMITS, 0);
    }
    if (len != KERNELSUN_LENGTH(s.t, s.n, s.p)) {
        return answer(KERNELSUN_SHAPE, 0);
    }
    memset(area, 0, len);
    put_word(area, KERNELSUN_AT_T, t);
    put_word(area, KERNELSUN_AT_N, n);
    put_word(area, KERNELSUN_AT_P, p);
    put_word(area, KERNELSUN_AT_D, d);
    return answer(KERNELSUN_WENT, 0);
}

static uint32_t begin_refusal(const uint8_t *area, size_t len, uint32_t thread, uint32_t op,
                              uint32_t n)
{
    if (!well_formed(area, len)) {
        return KERNELSUN_SHAPE;
    }
    if (thread >= kernelsun_word(area, KERNELSUN_AT_T)) {
        return KERNELSUN_THREAD;
    }
    if (kernelsun_word(area, kernelsun_at_thread(thread, KERNELSUN_THREAD_OPERATION)) != 0) {
        return KERNELSUN_BUSY;
    }
    if (!within(op, KERNELSUN_WRITE, KERNELSUN_LEVEL)) {
        return KERNELSUN_OPERATION;
    }
    if (op != KERNELSUN_LEVEL && n >= kernelsun_word(area, KERNELSUN_AT_N)) {
        return KERNELSUN_LOGICAL;
    }
    return KERNELSUN_WENT;
}

uint64_t plain_begin(uint8_t *area, size_t len, uint32_t thread, uint32_t op, uint32_t n,
                     uint32_t c)
{
    uint32_t refusal = begin_refusal(area, len, thread, op, n);
    if (refusal == KERNELSUN_WENT) {
        put_word(area, kernelsun_at_thread(thread, KERNELSUN_THREAD_OPERATION), op);
        put_word(area, kernelsun_at_thread(thread, KERNELSUN_THREAD_LINE), 1);
        put_word(area, kernelsun_at_thread(thread, KERNELSUN_THREAD_N),
                 op == KERNELSUN_LEVEL ? 0 : n);
        put_word(area, kernelsun_at_thread(thread, KERNELSUN_THREAD_C),
                 op == KERNELSUN_WRITE ? c : 0);
    }
    return answer(refusal, 0);
}

uint32_t plain_step_refusal(const uint8_t *area, size_t len, uint32_t thread)
{
    if (!well_formed(area, len)) {
        return KERNELSUN_SHAPE;
    }
    if (thread >= kernelsun_word(area, KERNELSUN_AT_T)) {
        return KERNELSUN_THREAD;
    }
    if (kernelsun_word(area, kernelsun_at_thread(thread, KERNELSUN_THREAD_OPERATION)) == 0) {
        return KERNELSUN_IDLE;
    }
    return KERNELSUN_WENT;
}

uint64_t plain_step(uint8_t *area, size_t len, uint32_t thread)
{
    uint32_t refusal = plain_step_refusal(area, len, thread);
    if (refusal != KERNELSUN_WENT) {
        return answer(refusal, 0);
    }
    machine m = machine_at(area, thread);
    return do_line(&m);
}
