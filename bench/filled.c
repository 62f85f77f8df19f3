/*
 * A step by way of a working store: all of it starts as zeros, the area is read
 * into it, and the line looks at the store alone. Words that the line writes
 * go to the store and to the area, so that no pass has to save everything.
 *
 * The shape is tested on the bytes first, by plain.c: an area that is refused
 * costs no store.
 */
#include "filled.h"

#include <string.h>

#include "kernelsun_view.h"
#include "plain.h"
#include "put_word.h"

/* The words are copied as they stand in the area, which suits only this order of bytes. */
#if __BYTE_ORDER__ != __ORDER_LITTLE_ENDIAN__
#error "filled.c is for little-endian machines"
#endif

/* Document 01's store at full size: 2,674 words. */
typedef struct {
    uint32_t header_lock, headers_owner;
    uint32_t records[KERNELSUN_THREAD_WORDS * KERNELSUN_THREADS_MOST];
    uint32_t map[KERNELSUN_LOGICAL_MOST];
    uint32_t locks[KERNELSUN_LOGICAL_MOST];
    /* Headers, contents, wear, owners. */
    uint32_t blocks[KERNELSUN_BLOCK_WORDS][KERNELSUN_PHYSICAL_MOST];
} store;

/* ---- Where words stand: in the store, and at the same time in the area ---- */

typedef struct {
    uint32_t *held;
    uint8_t *bytes;
} place;

static inline uint32_t get(place word)
{
    return *word.held;
}

static inline void put(place word, uint32_t value)
{
    *word.held = value;
    put_word(word.bytes, 0, value);
}

typedef struct {
    store *held;
    uint8_t *area;
    kernelsun_sizes s;
    uint32_t thread, mine, bit, writing, next;
} machine;

static inline place both(const machine *m, uint32_t *held, size_t word)
{
    return (place){held, m->area + BYTES_IN_WORD * word};
}

static inline place reg_place(const machine *m, size_t field)
{
    return both(m, &m->held->records[(size_t)KERNELSUN_THREAD_WORDS * m->thread + field],
                kernelsun_at_thread(m->thread, field));
}

static inline place header_lock(const machine *m)
{
    return both(m, &m->held->header_lock, KERNELSUN_AT_LOCK);
}

static inline place headers_owner(const machine *m)
{
    return both(m, &m->held->headers_owner, KERNELSUN_AT_OWNER);
}

static inline place map_place(const machine *m, uint32_t n)
{
    return both(m, &m->held->map[n], kernelsun_at_map(&m->s, n));
}

static inline place lock_place(const machine *m, uint32_t n)
{
    return both(m, &m->held->locks[n], kernelsun_at_lock(&m->s, n));
}

static inline place block_place(const machine *m, uint32_t p, size_t field)
{
    return both(m, &m->held->blocks[field][p], kernelsun_at_block(&m->s, p, field));
}

#include "lines.h"

/* ---- Filling the store ---- */

static inline void load_words(uint32_t *to, const uint8_t *area, size_t from, size_t count)
{
    memcpy(to, area + BYTES_IN_WORD * from, BYTES_IN_WORD * count);
}

/* An array after the other; a loop over the records was slower on the largest area. */
static inline void load_blocks(store *to, const uint8_t *area, const kernelsun_sizes *s)
{
    const uint8_t *records = area + BYTES_IN_WORD * kernelsun_at_block(s, 0, 0);
    for (size_t field = 0; field < KERNELSUN_BLOCK_WORDS; field++) {
        for (uint32_t p = 0; p < s->p; p++) {
            to->blocks[field][p] =
                kernelsun_word(records, (size_t)KERNELSUN_BLOCK_WORDS * p + field);
        }
    }
}

static inline void load(store *to, const uint8_t *area, const kernelsun_sizes *s)
{
    to->header_lock = kernelsun_word(area, KERNELSUN_AT_LOCK);
    to->headers_owner = kernelsun_word(area, KERNELSUN_AT_OWNER);
    load_words(to->records, area, kernelsun_at_thread(0, 0), (size_t)KERNELSUN_THREAD_WORDS * s->t);
    load_words(to->map, area, kernelsun_at_map(s, 0), s->n);
    load_words(to->locks, area, kernelsun_at_lock(s, 0), s->n);
    load_blocks(to, area, s);
}

uint64_t filled_step(uint8_t *area, size_t len, uint32_t thread)
{
    uint32_t refusal = plain_step_refusal(area, len, thread);
    if (refusal != KERNELSUN_WENT) {
        return answer(refusal, 0);
    }
    store held;
    memset(&held, 0, sizeof held);
    machine m = {.held = &held, .area = area, .s = kernelsun_sizes_of(area), .thread = thread,
                 .mine = thread + 1, .bit = kernelsun_bit(thread),
                 .writing = kernelsun_writing(thread)};
    load(&held, area, &m.s);
    return do_line(&m);
}
