/*
 * The step machine of document 01, with W3 as document 02, §1, has it and with
 * block locks and block owners as §3 has them, straight on the bytes. Its parts
 * follow document 01: the shape of an area, the acts that lines are made of with
 * their needs, the lines of the four operations, and the three calls with their
 * refusals in the table's order. The tally of document 02, §2, comes last.
 *
 * An act looks at its need first and writes afterwards, and nothing is written
 * outside an act before the act went. That is how a blocked or refused call
 * leaves every byte alone.
 */
#include "reference.h"

#include <string.h>

#include "kernelsun_view.h"
#include "put_word.h"

static uint64_t result(uint32_t number, uint32_t value)
{
    return (uint64_t)number << 32 | value;
}

/* ---- The shape of an area ---- */

static int within(uint32_t value, uint32_t least, uint32_t most)
{
    return value >= least && value <= most;
}

static int sizes_in_limits(const kernelsun_sizes *s)
{
    return within(s->t, KERNELSUN_THREADS_LEAST, KERNELSUN_THREADS_MOST) &&
           within(s->n, KERNELSUN_LOGICAL_LEAST, KERNELSUN_LOGICAL_MOST) &&
           within(s->p, KERNELSUN_PHYSICAL_LEAST(s->n), KERNELSUN_PHYSICAL_MOST) &&
           within(s->d, KERNELSUN_DISTANCE_LEAST, KERNELSUN_DISTANCE_MOST);
}

static int idle_record_well_formed(const uint8_t *area, uint32_t thread)
{
    for (size_t field = 0; field < KERNELSUN_THREAD_WORDS; field++) {
        if (kernelsun_of_thread(area, thread, field) != 0) {
            return 0;
        }
    }
    return 1;
}

static int thread_record_well_formed(const uint8_t *area, const kernelsun_sizes *s, uint32_t thread)
{
    uint32_t op = kernelsun_of_thread(area, thread, KERNELSUN_THREAD_OPERATION);
    if (op == 0) {
        return idle_record_well_formed(area, thread);
    }
    return within(op, KERNELSUN_WRITE, KERNELSUN_LEVEL) &&
           within(kernelsun_of_thread(area, thread, KERNELSUN_THREAD_LINE), 1,
                  kernelsun_last_line(op)) &&
           kernelsun_of_thread(area, thread, KERNELSUN_THREAD_N) < s->n &&
           kernelsun_of_thread(area, thread, KERNELSUN_THREAD_P) < s->p &&
           kernelsun_of_thread(area, thread, KERNELSUN_THREAD_Q) < s->p &&
           kernelsun_of_thread(area, thread, KERNELSUN_THREAD_H) <= s->n;
}

/* A block lock or a block's owner: readers, or a writer, and all of them below T. */
static int holders_well_formed(uint32_t word, uint32_t t)
{
    uint32_t readers = word % KERNELSUN_READER_SETS, writer_plus_one = word / KERNELSUN_READER_SETS;
    return writer_plus_one == 0 ? readers >> t == 0 : readers == 0 && writer_plus_one <= t;
}

static int logical_block_well_formed(const uint8_t *area, const kernelsun_sizes *s, uint32_t n)
{
    return kernelsun_word(area, kernelsun_at_map(s, n)) <= s->p &&
           holders_well_formed(kernelsun_word(area, kernelsun_at_lock(s, n)), s->t);
}

static int physical_block_well_formed(const uint8_t *area, const kernelsun_sizes *s, uint32_t p)
{
    return kernelsun_word(area, kernelsun_at_block(s, p, KERNELSUN_BLOCK_HEADER)) <= s->n &&
           holders_well_formed(
               kernelsun_word(area, kernelsun_at_block(s, p, KERNELSUN_BLOCK_OWNER)), s->t);
}

static int records_well_formed(const uint8_t *area, const kernelsun_sizes *s)
{
    for (uint32_t thread = 0; thread < s->t; thread++) {
        if (!thread_record_well_formed(area, s, thread)) {
            return 0;
        }
    }
    for (uint32_t n = 0; n < s->n; n++) {
        if (!logical_block_well_formed(area, s, n)) {
            return 0;
        }
    }
    for (uint32_t p = 0; p < s->p; p++) {
        if (!physical_block_well_formed(area, s, p)) {
            return 0;
        }
    }
    return 1;
}

static int well_formed(const uint8_t *area, size_t len)
{
    if (len < KERNELSUN_HEAD_WORDS * BYTES_IN_WORD) {
        return 0;
    }
    kernelsun_sizes s = kernelsun_sizes_of(area);
    return sizes_in_limits(&s) && len == KERNELSUN_LENGTH(s.t, s.n, s.p) &&
           kernelsun_word(area, KERNELSUN_AT_LOCK) <= s.t &&
           kernelsun_word(area, KERNELSUN_AT_OWNER) <= s.t && records_well_formed(area, &s);
}

/* ---- One thread at one of its lines ---- */

typedef struct {
    uint8_t *area;
    kernelsun_sizes s;
    uint32_t thread;
    uint32_t next; /* the line that follows if this one goes */
} machine;

static uint32_t reg(const machine *m, size_t field)
{
    return kernelsun_word(m->area, kernelsun_at_thread(m->thread, field));
}

static void set_reg(machine *m, size_t field, uint32_t value)
{
    put_word(m->area, kernelsun_at_thread(m->thread, field), value);
}

/* What H's word and the headers' owner hold when they are this thread's. */
static uint32_t mine(const machine *m)
{
    return m->thread + 1;
}

static int is_mine(const machine *m, size_t word)
{
    return kernelsun_word(m->area, word) == mine(m);
}

static uint32_t block(const machine *m, uint32_t p, size_t field)
{
    return kernelsun_word(m->area, kernelsun_at_block(&m->s, p, field));
}

static void set_block(machine *m, uint32_t p, size_t field, uint32_t value)
{
    put_word(m->area, kernelsun_at_block(&m->s, p, field), value);
}

static int is_free(const machine *m, uint32_t p)
{
    return block(m, p, KERNELSUN_BLOCK_HEADER) == 0;
}

static uint32_t wear_of(const machine *m, uint32_t p)
{
    return block(m, p, KERNELSUN_BLOCK_WEAR);
}

/* One erase more. Wear at its most stays there. */
static void count_erase(machine *m, uint32_t p)
{
    uint32_t wear = wear_of(m, p);
    if (wear != KERNELSUN_WEAR_MOST) {
        set_block(m, p, KERNELSUN_BLOCK_WEAR, wear + 1);
    }
}

/* ---- Acts on H and on the headers' owner ---- */

static uint32_t take(machine *m, size_t lock)
{
    if (kernelsun_word(m->area, lock) != 0) {
        return KERNELSUN_BLOCKED;
    }
    put_word(m->area, lock, mine(m));
    return KERNELSUN_WENT;
}

static uint32_t release(machine *m, size_t lock)
{
    if (!is_mine(m, lock)) {
        return KERNELSUN_FAULT;
    }
    put_word(m->area, lock, 0);
    return KERNELSUN_WENT;
}

static uint32_t own(machine *m, size_t owner)
{
    if (kernelsun_word(m->area, owner) != 0) {
        return KERNELSUN_FAULT;
    }
    put_word(m->area, owner, mine(m));
    return KERNELSUN_WENT;
}

static uint32_t let_go(machine *m, size_t owner)
{
    return release(m, owner);
}

/* ---- Acts on block locks and on the owners of blocks: document 02, §3 ---- */

/* This thread in a set of readers. */
static uint32_t my_bit(const machine *m)
{
    return (uint32_t)1 << m->thread;
}

/* What the word holds when this thread is the writer. */
static uint32_t my_writing(const machine *m)
{
    return KERNELSUN_READER_SETS * mine(m);
}

static int has_writer(const machine *m, size_t word)
{
    return kernelsun_word(m->area, word) >= KERNELSUN_READER_SETS;
}

static int i_read(const machine *m, size_t word)
{
    return !has_writer(m, word) && (kernelsun_word(m->area, word) & my_bit(m)) != 0;
}

static int i_write(const machine *m, size_t word)
{
    return kernelsun_word(m->area, word) == my_writing(m);
}

/* Other readers are no hindrance; a writer is, and so is this thread itself. */
static uint32_t come_to_read(machine *m, size_t word, uint32_t hindered)
{
    if (has_writer(m, word) || i_read(m, word)) {
        return hindered;
    }
    put_word(m->area, word, kernelsun_word(m->area, word) + my_bit(m));
    return KERNELSUN_WENT;
}

static uint32_t come_to_write(machine *m, size_t word, uint32_t hindered)
{
    if (kernelsun_word(m->area, word) != 0) {
        return hindered;
    }
    put_word(m->area, word, my_writing(m));
    return KERNELSUN_WENT;
}

static uint32_t take_to_read(machine *m, size_t lock)
{
    return come_to_read(m, lock, KERNELSUN_BLOCKED);
}

static uint32_t own_to_read(machine *m, size_t owner)
{
    return come_to_read(m, owner, KERNELSUN_FAULT);
}

static uint32_t take_to_write(machine *m, size_t lock)
{
    return come_to_write(m, lock, KERNELSUN_BLOCKED);
}

static uint32_t own_to_write(machine *m, size_t owner)
{
    return come_to_write(m, owner, KERNELSUN_FAULT);
}

/* Releases the lock or lets go the block that this thread reads. The other readers stay. */
static uint32_t end_reading(machine *m, size_t word)
{
    if (!i_read(m, word)) {
        return KERNELSUN_FAULT;
    }
    put_word(m->area, word, kernelsun_word(m->area, word) - my_bit(m));
    return KERNELSUN_WENT;
}

/* Releases the lock or lets go the block that this thread writes. */
static uint32_t end_writing(machine *m, size_t word)
{
    if (!i_write(m, word)) {
        return KERNELSUN_FAULT;
    }
    put_word(m->area, word, 0);
    return KERNELSUN_WENT;
}

static size_t n_lock(const machine *m)
{
    return kernelsun_at_lock(&m->s, reg(m, KERNELSUN_THREAD_N));
}

/* The owner word of the block that register p or q names. */
static size_t owner_of(const machine *m, size_t field)
{
    return kernelsun_at_block(&m->s, reg(m, field), KERNELSUN_BLOCK_OWNER);
}

/* ---- Acts on the map ---- */

static uint32_t mapped(const machine *m)
{
    return kernelsun_word(m->area, kernelsun_at_map(&m->s, reg(m, KERNELSUN_THREAD_N)));
}

static uint32_t map_to(machine *m, uint32_t entry)
{
    put_word(m->area, kernelsun_at_map(&m->s, reg(m, KERNELSUN_THREAD_N)), entry);
    return KERNELSUN_WENT;
}

/* W3: a mapped number goes on at `there` with p as its block, whose erase is counted. */
static uint32_t if_mapped_wear_and_go(machine *m, uint32_t there)
{
    uint32_t entry = mapped(m);
    if (entry != 0) {
        set_reg(m, KERNELSUN_THREAD_P, entry - 1);
        count_erase(m, entry - 1);
        m->next = there;
    }
    return KERNELSUN_WENT;
}

/* R2 and U3: an unmapped number goes on at `there`, a mapped one has p as its block. */
static uint32_t if_unmapped_go(machine *m, uint32_t there)
{
    uint32_t entry = mapped(m);
    if (entry == 0) {
        m->next = there;
    } else {
        set_reg(m, KERNELSUN_THREAD_P, entry - 1);
    }
    return KERNELSUN_WENT;
}

static uint32_t if_unmapped_empty_and_go(machine *m, uint32_t there)
{
    if (mapped(m) == 0) {
        set_reg(m, KERNELSUN_THREAD_C, 0);
    }
    return if_unmapped_go(m, there);
}

/* ---- Acts on headers, contents and wear ---- */

static uint32_t write_header(machine *m, uint32_t p, uint32_t header)
{
    if (!is_mine(m, KERNELSUN_AT_OWNER) ||
        !i_write(m, kernelsun_at_block(&m->s, p, KERNELSUN_BLOCK_OWNER))) {
        return KERNELSUN_FAULT;
    }
    set_block(m, p, KERNELSUN_BLOCK_HEADER, header);
    return KERNELSUN_WENT;
}

/* U7 and L13. */
static uint32_t free_and_wear(machine *m, uint32_t p)
{
    uint32_t number = write_header(m, p, 0);
    if (number == KERNELSUN_WENT) {
        count_erase(m, p);
    }
    return number;
}

/* R4 and L8: who writes the block may read it too. */
static uint32_t read_content(machine *m, uint32_t p)
{
    size_t owner = kernelsun_at_block(&m->s, p, KERNELSUN_BLOCK_OWNER);
    if (!(i_read(m, owner) || i_write(m, owner)) || is_free(m, p)) {
        return KERNELSUN_FAULT;
    }
    set_reg(m, KERNELSUN_THREAD_C, block(m, p, KERNELSUN_BLOCK_CONTENT));
    return KERNELSUN_WENT;
}

static uint32_t write_content(machine *m, uint32_t p, uint32_t content)
{
    if (!i_write(m, kernelsun_at_block(&m->s, p, KERNELSUN_BLOCK_OWNER)) || is_free(m, p)) {
        return KERNELSUN_FAULT;
    }
    set_block(m, p, KERNELSUN_BLOCK_CONTENT, content);
    return KERNELSUN_WENT;
}

static uint32_t read_header(machine *m, uint32_t p)
{
    if (!is_mine(m, KERNELSUN_AT_OWNER)) {
        return KERNELSUN_FAULT;
    }
    set_reg(m, KERNELSUN_THREAD_H, block(m, p, KERNELSUN_BLOCK_HEADER));
    return KERNELSUN_WENT;
}

/* L5. */
static uint32_t if_free_go(machine *m, uint32_t there)
{
    uint32_t header = reg(m, KERNELSUN_THREAD_H);
    if (header == 0) {
        m->next = there;
    } else {
        set_reg(m, KERNELSUN_THREAD_N, header - 1);
    }
    return KERNELSUN_WENT;
}

/* ---- Choosing. A search that finds nothing gives P, which is no block. ---- */

static uint32_t lowest_free(const machine *m)
{
    uint32_t p = 0;
    while (p < m->s.p && !is_free(m, p)) {
        p++;
    }
    return p;
}

static uint32_t most_worn_free(const machine *m)
{
    uint32_t best = m->s.p;
    for (uint32_t p = 0; p < m->s.p; p++) {
        if (is_free(m, p) && (best == m->s.p || wear_of(m, p) > wear_of(m, best))) {
            best = p;
        }
    }
    return best;
}

static uint32_t least_worn_mapped(const machine *m)
{
    uint32_t best = m->s.p;
    for (uint32_t p = 0; p < m->s.p; p++) {
        if (!is_free(m, p) && (best == m->s.p || wear_of(m, p) < wear_of(m, best))) {
            best = p;
        }
    }
    return best;
}

/* The sum is made in 64 bits because it must not wrap. */
static int worth_moving(const machine *m, uint32_t from, uint32_t to)
{
    return from != m->s.p && (uint64_t)wear_of(m, to) >= (uint64_t)wear_of(m, from) + m->s.d;
}

static uint32_t choose_free(machine *m)
{
    uint32_t p = lowest_free(m);
    if (!is_mine(m, KERNELSUN_AT_OWNER) || p == m->s.p) {
        return KERNELSUN_FAULT;
    }
    set_reg(m, KERNELSUN_THREAD_P, p);
    return KERNELSUN_WENT;
}

static uint32_t choose_from_and_to(machine *m)
{
    uint32_t to = most_worn_free(m);
    uint32_t from = least_worn_mapped(m);
    if (!is_mine(m, KERNELSUN_AT_OWNER) || to == m->s.p) {
        return KERNELSUN_FAULT;
    }
    set_reg(m, KERNELSUN_THREAD_P, worth_moving(m, from, to) ? from : to);
    set_reg(m, KERNELSUN_THREAD_Q, to);
    return KERNELSUN_WENT;
}

/* ---- The lines. "Finish" is done by finish() below. ---- */

static uint32_t write_line(machine *m, uint32_t line)
{
    uint32_t n = reg(m, KERNELSUN_THREAD_N), p = reg(m, KERNELSUN_THREAD_P);
    switch (line) {
    case 1: return take(m, KERNELSUN_AT_LOCK);
    case 2: return take_to_write(m, n_lock(m));
    case 3: return if_mapped_wear_and_go(m, 12);
    case 4: return own(m, KERNELSUN_AT_OWNER);
    case 5: return choose_free(m);
    case 6: return own_to_write(m, owner_of(m, KERNELSUN_THREAD_P));
    case 7: return write_header(m, p, n + 1);
    case 8: return write_content(m, p, 0);
    case 9: return end_writing(m, owner_of(m, KERNELSUN_THREAD_P));
    case 10: return map_to(m, p + 1);
    case 11: return let_go(m, KERNELSUN_AT_OWNER);
    case 12: return release(m, KERNELSUN_AT_LOCK);
    case 13: return own_to_write(m, owner_of(m, KERNELSUN_THREAD_P));
    case 14: return write_content(m, p, reg(m, KERNELSUN_THREAD_C));
    case 15: return end_writing(m, owner_of(m, KERNELSUN_THREAD_P));
    default: return end_writing(m, n_lock(m));
    }
}

static uint32_t read_line(machine *m, uint32_t line)
{
    switch (line) {
    case 1: return take_to_read(m, n_lock(m));
    case 2: return if_unmapped_empty_and_go(m, 6);
    case 3: return own_to_read(m, owner_of(m, KERNELSUN_THREAD_P));
    case 4: return read_content(m, reg(m, KERNELSUN_THREAD_P));
    case 5: return end_reading(m, owner_of(m, KERNELSUN_THREAD_P));
    default: return end_reading(m, n_lock(m));
    }
}

static uint32_t unmap_line(machine *m, uint32_t line)
{
    switch (line) {
    case 1: return take(m, KERNELSUN_AT_LOCK);
    case 2: return take_to_write(m, n_lock(m));
    case 3: return if_unmapped_go(m, 10);
    case 4: return own(m, KERNELSUN_AT_OWNER);
    case 5: return own_to_write(m, owner_of(m, KERNELSUN_THREAD_P));
    case 6: return map_to(m, 0);
    case 7: return free_and_wear(m, reg(m, KERNELSUN_THREAD_P));
    case 8: return end_writing(m, owner_of(m, KERNELSUN_THREAD_P));
    case 9: return let_go(m, KERNELSUN_AT_OWNER);
    case 10: return end_writing(m, n_lock(m));
    default: return release(m, KERNELSUN_AT_LOCK);
    }
}

static uint32_t level_line(machine *m, uint32_t line)
{
    uint32_t p = reg(m, KERNELSUN_THREAD_P), q = reg(m, KERNELSUN_THREAD_Q);
    switch (line) {
    case 1: return take(m, KERNELSUN_AT_LOCK);
    case 2: return own(m, KERNELSUN_AT_OWNER);
    case 3: return choose_from_and_to(m);
    case 4: return read_header(m, p);
    case 5: return if_free_go(m, 17);
    case 6: return take_to_write(m, n_lock(m));
    case 7: return own_to_write(m, owner_of(m, KERNELSUN_THREAD_P));
    case 8: return read_content(m, p);
    case 9: return own_to_write(m, owner_of(m, KERNELSUN_THREAD_Q));
    case 10: return write_header(m, q, reg(m, KERNELSUN_THREAD_H));
    case 11: return write_content(m, q, reg(m, KERNELSUN_THREAD_C));
    case 12: return map_to(m, q + 1);
    case 13: return free_and_wear(m, p);
    case 14: return end_writing(m, owner_of(m, KERNELSUN_THREAD_Q));
    case 15: return end_writing(m, owner_of(m, KERNELSUN_THREAD_P));
    case 16: return end_writing(m, n_lock(m));
    case 17: return let_go(m, KERNELSUN_AT_OWNER);
    default: return release(m, KERNELSUN_AT_LOCK);
    }
}

static uint32_t line_of(machine *m, uint32_t op, uint32_t line)
{
    switch (op) {
    case KERNELSUN_WRITE: return write_line(m, line);
    case KERNELSUN_READ: return read_line(m, line);
    case KERNELSUN_UNMAP: return unmap_line(m, line);
    default: return level_line(m, line);
    }
}

/* ---- The three calls ---- */

static uint32_t finishing_value(const machine *m, uint32_t op)
{
    switch (op) {
    case KERNELSUN_READ: return reg(m, KERNELSUN_THREAD_C);
    case KERNELSUN_LEVEL: return reg(m, KERNELSUN_THREAD_H) != 0;
    default: return 0;
    }
}

static uint64_t finish(machine *m, uint32_t op)
{
    uint32_t value = finishing_value(m, op);
    for (size_t field = 0; field < KERNELSUN_THREAD_WORDS; field++) {
        set_reg(m, field, 0);
    }
    return result(KERNELSUN_FINISHED, value);
}

uint64_t ref_format(uint8_t *area, size_t len, uint32_t t, uint32_t n, uint32_t p, uint32_t d)
{
    kernelsun_sizes s = {t, n, p, d};
    if (!sizes_in_limits(&s)) {
        return result(KERNELSUN_LIMITS, 0);
    }
    if (len != KERNELSUN_LENGTH(s.t, s.n, s.p)) {
        return result(KERNELSUN_SHAPE, 0);
    }
    memset(area, 0, len);
    put_word(area, KERNELSUN_AT_T, t);
    put_word(area, KERNELSUN_AT_N, n);
    put_word(area, KERNELSUN_AT_P, p);
    put_word(area, KERNELSUN_AT_D, d);
    return result(KERNELSUN_WENT, 0);
}

static uint32_t begin_refusal(const uint8_t *area, size_t len, uint32_t thread, uint32_t op,
                              uint32_t n)
{
    if (!well_formed(area, len)) {
        return KERNELSUN_SHAPE;
    }
    kernelsun_sizes s = kernelsun_sizes_of(area);
    if (thread >= s.t) {
        return KERNELSUN_THREAD;
    }
    if (kernelsun_operation(area, thread) != 0) {
        return KERNELSUN_BUSY;
    }
    if (!within(op, KERNELSUN_WRITE, KERNELSUN_LEVEL)) {
        return KERNELSUN_OPERATION;
    }
    if (op != KERNELSUN_LEVEL && n >= s.n) {
        return KERNELSUN_LOGICAL;
    }
    return KERNELSUN_WENT;
}

uint64_t ref_begin(uint8_t *area, size_t len, uint32_t thread, uint32_t op, uint32_t n, uint32_t c)
{
    uint32_t refusal = begin_refusal(area, len, thread, op, n);
    if (refusal == KERNELSUN_WENT) {
        put_word(area, kernelsun_at_thread(thread, KERNELSUN_THREAD_OPERATION), op);
        put_word(area, kernelsun_at_thread(thread, KERNELSUN_THREAD_LINE), 1);
        put_word(area, kernelsun_at_thread(thread, KERNELSUN_THREAD_N),
                 op == KERNELSUN_LEVEL ? 0 : n);
        put_word(area, kernelsun_at_thread(thread, KERNELSUN_THREAD_C),
                 op == KERNELSUN_WRITE ? c : 0);
    }
    return result(refusal, 0);
}

static uint32_t step_refusal(const uint8_t *area, size_t len, uint32_t thread)
{
    if (!well_formed(area, len)) {
        return KERNELSUN_SHAPE;
    }
    if (thread >= kernelsun_t(area)) {
        return KERNELSUN_THREAD;
    }
    if (kernelsun_operation(area, thread) == 0) {
        return KERNELSUN_IDLE;
    }
    return KERNELSUN_WENT;
}

uint64_t ref_step(uint8_t *area, size_t len, uint32_t thread)
{
    uint32_t number = step_refusal(area, len, thread);
    if (number != KERNELSUN_WENT) {
        return result(number, 0);
    }
    machine m = {area, kernelsun_sizes_of(area), thread, 0};
    uint32_t op = reg(&m, KERNELSUN_THREAD_OPERATION), line = reg(&m, KERNELSUN_THREAD_LINE);
    m.next = line + 1;
    number = line_of(&m, op, line);
    if (number != KERNELSUN_WENT) {
        return result(number, 0);
    }
    if (line == kernelsun_last_line(op)) {
        return finish(&m, op);
    }
    set_reg(&m, KERNELSUN_THREAD_LINE, m.next);
    return result(KERNELSUN_WENT, 0);
}

/* ---- The wear sheet: document 02, §2 ---- */

/* Whatever a lent record holds, no product here wraps: all are made in 64 bits. */
static int tally_refused(const struct kernelsun_tally *t)
{
    uint64_t areas = t->areas, skipped = t->skipped, blocks = t->blocks;
    return areas > KERNELSUN_AREAS_MOST || skipped > areas ||
           blocks > (areas - skipped) * KERNELSUN_PHYSICAL_MOST || t->free > blocks ||
           t->sum > blocks * KERNELSUN_WEAR_MOST;
}

static void add_block(struct kernelsun_tally *t, uint32_t header, uint32_t wear)
{
    int first = t->blocks == 0;
    t->blocks++;
    t->free += header == 0;
    t->least = first || wear < t->least ? wear : t->least;
    t->most = first || wear > t->most ? wear : t->most;
    t->sum += wear;
}

uint64_t ref_add_area(struct kernelsun_tally *tally, const uint8_t *area, size_t len)
{
    if (tally_refused(tally)) {
        return result(KERNELSUN_TALLY, 0);
    }
    if (tally->areas == KERNELSUN_AREAS_MOST) {
        return result(KERNELSUN_FULL, 0);
    }
    tally->areas++;
    if (!well_formed(area, len)) {
        tally->skipped++;
        return result(KERNELSUN_WENT, 0);
    }
    kernelsun_sizes s = kernelsun_sizes_of(area);
    for (uint32_t p = 0; p < s.p; p++) {
        add_block(tally, kernelsun_word(area, kernelsun_at_block(&s, p, KERNELSUN_BLOCK_HEADER)),
                  kernelsun_word(area, kernelsun_at_block(&s, p, KERNELSUN_BLOCK_WEAR)));
    }
    return result(KERNELSUN_WENT, 0);
}
