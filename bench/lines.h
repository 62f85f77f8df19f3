/*
 * The lines of document 01, W3 as document 02, §1, has it and block locks and
 * block owners as §3 has them, and the acts that they are made of, once for the C
 * versions of the benchmark. A version says where it keeps words, and includes
 * this file after it has defined
 *
 *     place                     where a word stands
 *     get(place), put(place, v)
 *     machine                   one thread of a well-formed area; its fields
 *                               s (the sizes), mine (what H and the headers'
 *                               owner hold when they are this thread's), bit
 *                               (this thread among the readers of a block lock
 *                               or of a block), writing (such a word when this
 *                               thread writes) and next (the line that follows)
 *                               are used here
 *     reg_place(m, field), header_lock(m), headers_owner(m),
 *     map_place(m, n), lock_place(m, n), block_place(m, p, field)
 *
 * An act looks at its need first and writes afterwards, so that a blocked or
 * refused step leaves every byte alone.
 */
#ifndef KERNELSUN_BENCH_LINES_H
#define KERNELSUN_BENCH_LINES_H

#include "kernelsun_view.h"

static inline uint64_t answer(uint32_t number, uint32_t value)
{
    return (uint64_t)number << 32 | value;
}

static inline uint32_t reg(const machine *m, size_t field)
{
    return get(reg_place(m, field));
}

static inline void set_reg(const machine *m, size_t field, uint32_t value)
{
    put(reg_place(m, field), value);
}

static inline int is_mine(const machine *m, place word)
{
    return get(word) == m->mine;
}

/* ---- H and the headers' owner ---- */

static inline uint32_t take(const machine *m, place lock)
{
    if (get(lock) != 0) {
        return KERNELSUN_BLOCKED;
    }
    put(lock, m->mine);
    return KERNELSUN_WENT;
}

static inline uint32_t own(const machine *m, place owner)
{
    if (get(owner) != 0) {
        return KERNELSUN_FAULT;
    }
    put(owner, m->mine);
    return KERNELSUN_WENT;
}

/* Releasing a lock and letting go an owner are one act. */
static inline uint32_t let_go(const machine *m, place held)
{
    if (!is_mine(m, held)) {
        return KERNELSUN_FAULT;
    }
    put(held, 0);
    return KERNELSUN_WENT;
}

/* ---- Block locks and the owners of blocks ---- */

/* A writer's word is above every set, and no bit of it is a reader's. */
static inline int i_read(const machine *m, place word)
{
    return (get(word) & m->bit) != 0;
}

static inline int i_write(const machine *m, place word)
{
    return get(word) == m->writing;
}

/* A lock that can't be had is BLOCKED, a block FAULT. */
static inline uint32_t come_to_read(const machine *m, place word, uint32_t otherwise)
{
    uint32_t held = get(word);
    if (held >= KERNELSUN_READER_SETS || (held & m->bit) != 0) {
        return otherwise;
    }
    put(word, held | m->bit);
    return KERNELSUN_WENT;
}

static inline uint32_t come_to_write(const machine *m, place word, uint32_t otherwise)
{
    if (get(word) != 0) {
        return otherwise;
    }
    put(word, m->writing);
    return KERNELSUN_WENT;
}

static inline uint32_t end_reading(const machine *m, place word)
{
    if (!i_read(m, word)) {
        return KERNELSUN_FAULT;
    }
    put(word, get(word) & ~m->bit);
    return KERNELSUN_WENT;
}

static inline uint32_t end_writing(const machine *m, place word)
{
    if (!i_write(m, word)) {
        return KERNELSUN_FAULT;
    }
    put(word, 0);
    return KERNELSUN_WENT;
}

static inline place n_lock(const machine *m)
{
    return lock_place(m, reg(m, KERNELSUN_THREAD_N));
}

/* The owner of the block that register p or q names. */
static inline place owner_of(const machine *m, size_t field)
{
    return block_place(m, reg(m, field), KERNELSUN_BLOCK_OWNER);
}

/* ---- The map ---- */

static inline uint32_t map_to(const machine *m, uint32_t entry)
{
    put(map_place(m, reg(m, KERNELSUN_THREAD_N)), entry);
    return KERNELSUN_WENT;
}

/* W3, R2 and U3: p becomes the block of a mapped number; where to go on from each. */
static inline uint32_t look_up(machine *m, uint32_t if_mapped, uint32_t if_unmapped)
{
    uint32_t entry = get(map_place(m, reg(m, KERNELSUN_THREAD_N)));
    if (entry == 0) {
        m->next = if_unmapped;
    } else {
        set_reg(m, KERNELSUN_THREAD_P, entry - 1);
        m->next = if_mapped;
    }
    return KERNELSUN_WENT;
}

/* One erase more. Wear at its most stays there. */
static inline void count_erase(const machine *m, uint32_t p)
{
    uint32_t wear = get(block_place(m, p, KERNELSUN_BLOCK_WEAR));
    put(block_place(m, p, KERNELSUN_BLOCK_WEAR), wear + (wear != KERNELSUN_WEAR_MOST));
}

/* W3 besides counts the erase of the block that is to be rewritten. */
static inline uint32_t look_up_to_write(machine *m, uint32_t if_mapped, uint32_t if_unmapped)
{
    look_up(m, if_mapped, if_unmapped);
    if (m->next == if_mapped) {
        count_erase(m, reg(m, KERNELSUN_THREAD_P));
    }
    return KERNELSUN_WENT;
}

/* R2 besides makes c empty for an unmapped number. */
static inline uint32_t look_up_to_read(machine *m, uint32_t if_mapped, uint32_t if_unmapped)
{
    look_up(m, if_mapped, if_unmapped);
    if (m->next == if_unmapped) {
        set_reg(m, KERNELSUN_THREAD_C, 0);
    }
    return KERNELSUN_WENT;
}

/* ---- Headers, contents and wear ---- */

static inline int may_write_header(const machine *m, uint32_t p)
{
    return is_mine(m, headers_owner(m)) && i_write(m, block_place(m, p, KERNELSUN_BLOCK_OWNER));
}

static inline uint32_t write_header(const machine *m, uint32_t p, uint32_t header)
{
    if (!may_write_header(m, p)) {
        return KERNELSUN_FAULT;
    }
    put(block_place(m, p, KERNELSUN_BLOCK_HEADER), header);
    return KERNELSUN_WENT;
}

/* U7 and L13. */
static inline uint32_t free_and_wear(const machine *m, uint32_t p)
{
    if (!may_write_header(m, p)) {
        return KERNELSUN_FAULT;
    }
    put(block_place(m, p, KERNELSUN_BLOCK_HEADER), 0);
    count_erase(m, p);
    return KERNELSUN_WENT;
}

static inline int is_used(const machine *m, uint32_t p)
{
    return get(block_place(m, p, KERNELSUN_BLOCK_HEADER)) != 0;
}

static inline uint32_t read_content(const machine *m, uint32_t p)
{
    place owner = block_place(m, p, KERNELSUN_BLOCK_OWNER);
    if (!(i_read(m, owner) || i_write(m, owner)) || !is_used(m, p)) {
        return KERNELSUN_FAULT;
    }
    set_reg(m, KERNELSUN_THREAD_C, get(block_place(m, p, KERNELSUN_BLOCK_CONTENT)));
    return KERNELSUN_WENT;
}

static inline uint32_t write_content(const machine *m, uint32_t p, uint32_t content)
{
    if (!i_write(m, block_place(m, p, KERNELSUN_BLOCK_OWNER)) || !is_used(m, p)) {
        return KERNELSUN_FAULT;
    }
    put(block_place(m, p, KERNELSUN_BLOCK_CONTENT), content);
    return KERNELSUN_WENT;
}

static inline uint32_t read_header(const machine *m, uint32_t p)
{
    if (!is_mine(m, headers_owner(m))) {
        return KERNELSUN_FAULT;
    }
    set_reg(m, KERNELSUN_THREAD_H, get(block_place(m, p, KERNELSUN_BLOCK_HEADER)));
    return KERNELSUN_WENT;
}

/* L5. */
static inline uint32_t look_at_header(machine *m, uint32_t if_free)
{
    uint32_t header = reg(m, KERNELSUN_THREAD_H);
    if (header == 0) {
        m->next = if_free;
    } else {
        set_reg(m, KERNELSUN_THREAD_N, header - 1);
    }
    return KERNELSUN_WENT;
}

/* ---- Choosing. A search that finds nothing gives P, which is no block. ---- */

/* W5. */
static inline uint32_t choose_free(const machine *m)
{
    uint32_t p = 0, most = m->s.p;
    if (!is_mine(m, headers_owner(m))) {
        return KERNELSUN_FAULT;
    }
    while (p < most && get(block_place(m, p, KERNELSUN_BLOCK_HEADER)) != 0) {
        p++;
    }
    if (p == most) {
        return KERNELSUN_FAULT;
    }
    set_reg(m, KERNELSUN_THREAD_P, p);
    return KERNELSUN_WENT;
}

/* A block and its wear, in 64 bits: room for "nothing yet" on either side, and for the sum. */
typedef struct {
    uint32_t block;
    int64_t wear;
} found;

#define LESS_THAN_ANY_WEAR ((int64_t)-1)
#define MORE_THAN_ANY_WEAR ((int64_t)KERNELSUN_WEAR_MOST + 1)

/*
 * Both searches in one pass. Lower numbers come first and keep their place on
 * ties. Apart from the switch around it, the loop has all its words in registers.
 */
__attribute__((noinline)) static void search_from_and_to(const machine *m, found *from, found *to)
{
    found least = {m->s.p, MORE_THAN_ANY_WEAR}, most = {m->s.p, LESS_THAN_ANY_WEAR};
    for (uint32_t p = 0, count = m->s.p; p < count; p++) {
        int64_t wear = get(block_place(m, p, KERNELSUN_BLOCK_WEAR));
        if (get(block_place(m, p, KERNELSUN_BLOCK_HEADER)) == 0) {
            if (wear > most.wear) {
                most = (found){p, wear};
            }
        } else if (wear < least.wear) {
            least = (found){p, wear};
        }
    }
    *from = least;
    *to = most;
}

/* L3. Without a mapped block the wear of "from" is out of reach, and nothing is moved. */
static inline uint32_t choose_from_and_to(const machine *m)
{
    found from, to;
    if (!is_mine(m, headers_owner(m))) {
        return KERNELSUN_FAULT;
    }
    search_from_and_to(m, &from, &to);
    if (to.block == m->s.p) {
        return KERNELSUN_FAULT;
    }
    set_reg(m, KERNELSUN_THREAD_P, to.wear < from.wear + m->s.d ? to.block : from.block);
    set_reg(m, KERNELSUN_THREAD_Q, to.block);
    return KERNELSUN_WENT;
}

/* ---- The lines. "Finish" is done by finish() below. ---- */

static uint32_t write_line(machine *m, uint32_t line)
{
    switch (line) {
    case 1: return take(m, header_lock(m));
    case 2: return come_to_write(m, n_lock(m), KERNELSUN_BLOCKED);
    case 3: return look_up_to_write(m, 12, 4);
    case 4: return own(m, headers_owner(m));
    case 5: return choose_free(m);
    case 6: return come_to_write(m, owner_of(m, KERNELSUN_THREAD_P), KERNELSUN_FAULT);
    case 7: return write_header(m, reg(m, KERNELSUN_THREAD_P), reg(m, KERNELSUN_THREAD_N) + 1);
    case 8: return write_content(m, reg(m, KERNELSUN_THREAD_P), 0);
    case 9: return end_writing(m, owner_of(m, KERNELSUN_THREAD_P));
    case 10: return map_to(m, reg(m, KERNELSUN_THREAD_P) + 1);
    case 11: return let_go(m, headers_owner(m));
    case 12: return let_go(m, header_lock(m));
    case 13: return come_to_write(m, owner_of(m, KERNELSUN_THREAD_P), KERNELSUN_FAULT);
    case 14: return write_content(m, reg(m, KERNELSUN_THREAD_P), reg(m, KERNELSUN_THREAD_C));
    case 15: return end_writing(m, owner_of(m, KERNELSUN_THREAD_P));
    default: return end_writing(m, n_lock(m));
    }
}

static uint32_t read_line(machine *m, uint32_t line)
{
    switch (line) {
    case 1: return come_to_read(m, n_lock(m), KERNELSUN_BLOCKED);
    case 2: return look_up_to_read(m, 3, 6);
    case 3: return come_to_read(m, owner_of(m, KERNELSUN_THREAD_P), KERNELSUN_FAULT);
    case 4: return read_content(m, reg(m, KERNELSUN_THREAD_P));
    case 5: return end_reading(m, owner_of(m, KERNELSUN_THREAD_P));
    default: return end_reading(m, n_lock(m));
    }
}

static uint32_t unmap_line(machine *m, uint32_t line)
{
    switch (line) {
    case 1: return take(m, header_lock(m));
    case 2: return come_to_write(m, n_lock(m), KERNELSUN_BLOCKED);
    case 3: return look_up(m, 4, 10);
    case 4: return own(m, headers_owner(m));
    case 5: return come_to_write(m, owner_of(m, KERNELSUN_THREAD_P), KERNELSUN_FAULT);
    case 6: return map_to(m, 0);
    case 7: return free_and_wear(m, reg(m, KERNELSUN_THREAD_P));
    case 8: return end_writing(m, owner_of(m, KERNELSUN_THREAD_P));
    case 9: return let_go(m, headers_owner(m));
    case 10: return end_writing(m, n_lock(m));
    default: return let_go(m, header_lock(m));
    }
}

static uint32_t level_line(machine *m, uint32_t line)
{
    switch (line) {
    case 1: return take(m, header_lock(m));
    case 2: return own(m, headers_owner(m));
    case 3: return choose_from_and_to(m);
    case 4: return read_header(m, reg(m, KERNELSUN_THREAD_P));
    case 5: return look_at_header(m, 17);
    case 6: return come_to_write(m, n_lock(m), KERNELSUN_BLOCKED);
    case 7: return come_to_write(m, owner_of(m, KERNELSUN_THREAD_P), KERNELSUN_FAULT);
    case 8: return read_content(m, reg(m, KERNELSUN_THREAD_P));
    case 9: return come_to_write(m, owner_of(m, KERNELSUN_THREAD_Q), KERNELSUN_FAULT);
    case 10: return write_header(m, reg(m, KERNELSUN_THREAD_Q), reg(m, KERNELSUN_THREAD_H));
    case 11: return write_content(m, reg(m, KERNELSUN_THREAD_Q), reg(m, KERNELSUN_THREAD_C));
    case 12: return map_to(m, reg(m, KERNELSUN_THREAD_Q) + 1);
    case 13: return free_and_wear(m, reg(m, KERNELSUN_THREAD_P));
    case 14: return end_writing(m, owner_of(m, KERNELSUN_THREAD_Q));
    case 15: return end_writing(m, owner_of(m, KERNELSUN_THREAD_P));
    case 16: return end_writing(m, n_lock(m));
    case 17: return let_go(m, headers_owner(m));
    default: return let_go(m, header_lock(m));
    }
}

static inline uint32_t line_of(machine *m, uint32_t op, uint32_t line)
{
    switch (op) {
    case KERNELSUN_WRITE: return write_line(m, line);
    case KERNELSUN_READ: return read_line(m, line);
    case KERNELSUN_UNMAP: return unmap_line(m, line);
    default: return level_line(m, line);
    }
}

/* ---- A step after its refusals ---- */

static inline uint32_t finishing_value(const machine *m, uint32_t op)
{
    switch (op) {
    case KERNELSUN_READ: return reg(m, KERNELSUN_THREAD_C);
    case KERNELSUN_LEVEL: return reg(m, KERNELSUN_THREAD_H) != 0;
    default: return 0;
    }
}

static inline uint64_t finish(const machine *m, uint32_t op)
{
    uint32_t value = finishing_value(m, op);
    for (size_t field = 0; field < KERNELSUN_THREAD_WORDS; field++) {
        set_reg(m, field, 0);
    }
    return answer(KERNELSUN_FINISHED, value);
}

/* The next line of a thread that isn't idle. */
static inline uint64_t do_line(machine *m)
{
    uint32_t op = reg(m, KERNELSUN_THREAD_OPERATION), line = reg(m, KERNELSUN_THREAD_LINE);
    m->next = line + 1;
    uint32_t number = line_of(m, op, line);
    if (number != KERNELSUN_WENT) {
        return answer(number, 0);
    }
    if (line == kernelsun_last_line(op)) {
        return finish(m, op);
    }
    set_reg(m, KERNELSUN_THREAD_LINE, m->next);
    return answer(KERNELSUN_WENT, 0);
}

#endif
