/*
 * kernelsun_view.h: reading an area of Kernelsun, and names for what a call
 * gives back and for the lines.
 *
 * All that this page reads, an area's own words say; it changes none of them.
 * It is the only place that counts words, so that a caller who looks at an area
 * through it need not know the layout and is not touched where that changes.
 *
 * WHICH AREAS
 *
 * One that format() made, or on which begin() or step() gave another number than
 * KERNELSUN_SHAPE, or of which kernelsun_viewable() says 1, which looks at length
 * and sizes alone. Of such an area any thread, block and word of a record may be
 * asked. Where it is not below its size, nothing is read, and what comes back is KERNELSUN_NONE from those
 * functions that can give it, and 0 from the others.
 *
 * As with the calls, nothing may write to the area while it is read. Two readers
 * do no harm.
 */
#ifndef KERNELSUN_VIEW_H
#define KERNELSUN_VIEW_H

#include <stddef.h>
#include <stdint.h>

#include "kernelsun.h"

#ifdef __cplusplus
extern "C" {
#endif

/* No thread, no block: what a lock or an owner without holder or writer, a free header and an
   unmapped number give. */
#define KERNELSUN_NONE 0xffffffffu

/* The header lock H, where kernelsun_next_lock() names a lock. No logical number is that large. */
#define KERNELSUN_LOCK_H 0xfffffffeu

/* The largest wear: it stays there. */
#define KERNELSUN_WEAR_MOST 0xffffffffu

/*
 * ---- Where the words stand: for those who make areas by hand; who only looks goes on below ----
 *
 * Words of 32 bits, the low byte first. The words of the first list come first,
 * then a record for each thread, a word of the map for each logical block, a
 * lock for each of them, and a record for each physical block. Where a word
 * names something (a thread in the header lock and the headers' owner, a logical
 * block in a header or register h, a physical block in the map), it is one more
 * than the number that it names, and 0 where it names nothing.
 *
 * The lock of a logical block and the owner of a physical one name one writer or
 * any number of readers, never both. In the low 16 bits, bit t is thread t as a
 * reader; above them stands one more than the writer. So a word of readers is their
 * set, a writer's is kernelsun_writing(thread), and nobody's is 0.
 */

/* The words at the area's start, by their index. */
enum {
    KERNELSUN_AT_T,
    KERNELSUN_AT_N,
    KERNELSUN_AT_P,
    KERNELSUN_AT_D,
    KERNELSUN_AT_LOCK,
    KERNELSUN_AT_OWNER,
    KERNELSUN_HEAD_WORDS
};

/* The words of a thread's record. */
enum {
    KERNELSUN_THREAD_OPERATION,
    KERNELSUN_THREAD_LINE,
    KERNELSUN_THREAD_N,
    KERNELSUN_THREAD_C,
    KERNELSUN_THREAD_P,
    KERNELSUN_THREAD_Q,
    KERNELSUN_THREAD_H,
    KERNELSUN_THREAD_WORDS
};

/* The words of a physical block's record. */
enum {
    KERNELSUN_BLOCK_HEADER,
    KERNELSUN_BLOCK_CONTENT,
    KERNELSUN_BLOCK_WEAR,
    KERNELSUN_BLOCK_OWNER,
    KERNELSUN_BLOCK_WORDS
};

/* A set of readers, a bit for each of 16 threads, is below this; one more than the writer is taken
   this many times. */
#define KERNELSUN_READER_SETS 65536u

typedef struct {
    uint32_t t, n, p, d;
} kernelsun_sizes;

/* The index of a word of a thread's record, of the map, of the block locks, of a block's record. */
static inline size_t kernelsun_at_thread(uint32_t thread, size_t word)
{
    return (size_t)KERNELSUN_HEAD_WORDS + (size_t)KERNELSUN_THREAD_WORDS * thread + word;
}

static inline size_t kernelsun_at_map(const kernelsun_sizes *s, uint32_t n)
{
    return kernelsun_at_thread(s->t, 0) + n;
}

static inline size_t kernelsun_at_lock(const kernelsun_sizes *s, uint32_t n)
{
    return kernelsun_at_map(s, s->n) + n;
}

static inline size_t kernelsun_at_block(const kernelsun_sizes *s, uint32_t p, size_t word)
{
    return kernelsun_at_lock(s, s->n) + (size_t)KERNELSUN_BLOCK_WORDS * p + word;
}

/* The word of that index, whatever stands there. The index is within the area. */
static inline uint32_t kernelsun_word(const uint8_t *area, size_t index)
{
    const uint8_t *b = area + 4 * index;
    return (uint32_t)b[0] | (uint32_t)b[1] << 8 | (uint32_t)b[2] << 16 | (uint32_t)b[3] << 24;
}

/* ---- The sizes ---- */

static inline uint32_t kernelsun_t(const uint8_t *area)
{
    return kernelsun_word(area, KERNELSUN_AT_T);
}

static inline uint32_t kernelsun_n(const uint8_t *area)
{
    return kernelsun_word(area, KERNELSUN_AT_N);
}

static inline uint32_t kernelsun_p(const uint8_t *area)
{
    return kernelsun_word(area, KERNELSUN_AT_P);
}

static inline uint32_t kernelsun_d(const uint8_t *area)
{
    return kernelsun_word(area, KERNELSUN_AT_D);
}

static inline kernelsun_sizes kernelsun_sizes_of(const uint8_t *area)
{
    kernelsun_sizes s;
    s.t = kernelsun_t(area);
    s.n = kernelsun_n(area);
    s.p = kernelsun_p(area);
    s.d = kernelsun_d(area);
    return s;
}

/* The length of the area that starts here, by its sizes; 0 where one of them is outside its limits
   or where it is longer than room, the bytes that may be read. */
static inline size_t kernelsun_length_in(const uint8_t *area, size_t room)
{
    kernelsun_sizes s;
    size_t length;
    if (room < 4 * (size_t)KERNELSUN_HEAD_WORDS) {
        return 0;
    }
    s = kernelsun_sizes_of(area);
    if (s.t < KERNELSUN_THREADS_LEAST || s.t > KERNELSUN_THREADS_MOST ||
        s.n < KERNELSUN_LOGICAL_LEAST || s.n > KERNELSUN_LOGICAL_MOST ||
        s.p < KERNELSUN_PHYSICAL_LEAST(s.n) || s.p > KERNELSUN_PHYSICAL_MOST ||
        s.d < KERNELSUN_DISTANCE_LEAST || s.d > KERNELSUN_DISTANCE_MOST) {
        return 0;
    }
    length = KERNELSUN_LENGTH(s.t, s.n, s.p);
    return length <= room ? length : 0;
}

/* 1 where the area's sizes are within their limits and len is the length that they have, else 0. */
static inline int kernelsun_viewable(const uint8_t *area, size_t len)
{
    return len > 0 && kernelsun_length_in(area, len) == len;
}

/* ---- Words with a meaning ---- */

/* A header or map word, H and the headers' owner are 0 for nobody, else a number plus one. */
static inline uint32_t kernelsun_named(uint32_t word)
{
    return word == 0 ? KERNELSUN_NONE : word - 1;
}

/* A thread's bit in a set of threads, bit t for thread t; 0 for KERNELSUN_NONE, and from 16 on. */
static inline uint32_t kernelsun_bit(uint32_t thread)
{
    return thread < KERNELSUN_THREADS_MOST ? (uint32_t)1 << thread : 0;
}

/* The lock of a logical block, or the owner of a physical one, while this thread is the writer. */
static inline uint32_t kernelsun_writing(uint32_t thread)
{
    return KERNELSUN_READER_SETS * (thread + 1);
}

/* A word of a thread's record, of the map, of the locks, of a block; 0 past the last of them. */
static inline uint32_t kernelsun_of_thread(const uint8_t *area, uint32_t thread, size_t word)
{
    return thread < kernelsun_t(area) && word < (size_t)KERNELSUN_THREAD_WORDS
               ? kernelsun_word(area, kernelsun_at_thread(thread, word))
               : 0;
}

static inline uint32_t kernelsun_of_map(const uint8_t *area, uint32_t n)
{
    kernelsun_sizes s = kernelsun_sizes_of(area);
    return n < s.n ? kernelsun_word(area, kernelsun_at_map(&s, n)) : 0;
}

static inline uint32_t kernelsun_of_lock(const uint8_t *area, uint32_t n)
{
    kernelsun_sizes s = kernelsun_sizes_of(area);
    return n < s.n ? kernelsun_word(area, kernelsun_at_lock(&s, n)) : 0;
}

static inline uint32_t kernelsun_of_block(const uint8_t *area, uint32_t p, size_t word)
{
    kernelsun_sizes s = kernelsun_sizes_of(area);
    return p < s.p && word < (size_t)KERNELSUN_BLOCK_WORDS
               ? kernelsun_word(area, kernelsun_at_block(&s, p, word))
               : 0;
}

/*
 * ---- Locks and owners ----
 *
 * H and the headers are one thread's, or nobody's. The lock of a logical block, and
 * a physical block, are had by one thread to write (in a write, an unmap and a
 * levelling) or by any number to read (in reads). The writer is a thread, or
 * KERNELSUN_NONE where there is none; the readers are a set, in which thread t is
 * kernelsun_bit(t), and 0 where there are none.
 */

/* Who holds the header lock H. */
static inline uint32_t kernelsun_lock_h(const uint8_t *area)
{
    return kernelsun_named(kernelsun_word(area, KERNELSUN_AT_LOCK));
}

/* Who owns the headers. */
static inline uint32_t kernelsun_headers_owner(const uint8_t *area)
{
    return kernelsun_named(kernelsun_word(area, KERNELSUN_AT_OWNER));
}

/* Who holds the lock of logical block n to write. */
static inline uint32_t kernelsun_lock_writer(const uint8_t *area, uint32_t n)
{
    return kernelsun_named(kernelsun_of_lock(area, n) / KERNELSUN_READER_SETS);
}

/* Who hold the lock of logical block n to read, as a set. */
static inline uint32_t kernelsun_lock_readers(const uint8_t *area, uint32_t n)
{
    return kernelsun_of_lock(area, n) % KERNELSUN_READER_SETS;
}

/* Who owns physical block p to write. */
static inline uint32_t kernelsun_block_writer(const uint8_t *area, uint32_t p)
{
    return kernelsun_named(kernelsun_of_block(area, p, KERNELSUN_BLOCK_OWNER) /
                           KERNELSUN_READER_SETS);
}

/* Who own physical block p to read, as a set. */
static inline uint32_t kernelsun_block_readers(const uint8_t *area, uint32_t p)
{
    return kernelsun_of_block(area, p, KERNELSUN_BLOCK_OWNER) % KERNELSUN_READER_SETS;
}

/* ---- Blocks ---- */

/* The physical block that logical block n is mapped to, or KERNELSUN_NONE. */
static inline uint32_t kernelsun_map(const uint8_t *area, uint32_t n)
{
    return kernelsun_named(kernelsun_of_map(area, n));
}

/* The logical block that physical block p's header names; KERNELSUN_NONE where p is free. */
static inline uint32_t kernelsun_header(const uint8_t *area, uint32_t p)
{
    return kernelsun_named(kernelsun_of_block(area, p, KERNELSUN_BLOCK_HEADER));
}

/* The content of physical block p. A freed block keeps its last one. */
static inline uint32_t kernelsun_content(const uint8_t *area, uint32_t p)
{
    return kernelsun_of_block(area, p, KERNELSUN_BLOCK_CONTENT);
}

/* The wear of physical block p. */
static inline uint32_t kernelsun_wear(const uint8_t *area, uint32_t p)
{
    return kernelsun_of_block(area, p, KERNELSUN_BLOCK_WEAR);
}

/* ---- Threads ---- */

/* The open operation of a thread, KERNELSUN_WRITE to KERNELSUN_LEVEL; 0 where it is idle. */
static inline uint32_t kernelsun_operation(const uint8_t *area, uint32_t thread)
{
    return kernelsun_of_thread(area, thread, KERNELSUN_THREAD_OPERATION);
}

/* The line that its next step does, from 1; 0 where it is idle. */
static inline uint32_t kernelsun_line(const uint8_t *area, uint32_t thread)
{
    return kernelsun_of_thread(area, thread, KERNELSUN_THREAD_LINE);
}

/* Its registers. begin() sets n and c where the operation uses them. A register that is not yet set is
   0, which is a block's number too, and h is none then. Of an idle thread each is 0, and h none. */
static inline uint32_t kernelsun_register_n(const uint8_t *area, uint32_t thread)
{
    return kernelsun_of_thread(area, thread, KERNELSUN_THREAD_N);
}

static inline uint32_t kernelsun_register_c(const uint8_t *area, uint32_t thread)
{
    return kernelsun_of_thread(area, thread, KERNELSUN_THREAD_C);
}

static inline uint32_t kernelsun_register_p(const uint8_t *area, uint32_t thread)
{
    return kernelsun_of_thread(area, thread, KERNELSUN_THREAD_P);
}

static inline uint32_t kernelsun_register_q(const uint8_t *area, uint32_t thread)
{
    return kernelsun_of_thread(area, thread, KERNELSUN_THREAD_Q);
}

/* The logical block that levelling moves, or KERNELSUN_NONE. */
static inline uint32_t kernelsun_register_h(const uint8_t *area, uint32_t thread)
{
    return kernelsun_named(kernelsun_of_thread(area, thread, KERNELSUN_THREAD_H));
}

/*
 * The lock that a thread's next line takes: KERNELSUN_LOCK_H, or the logical block
 * whose lock it is, or KERNELSUN_NONE where that line takes none. A step that
 * answered KERNELSUN_BLOCKED waits for this one.
 */
static inline uint32_t kernelsun_next_lock(const uint8_t *area, uint32_t thread)
{
    uint32_t line = kernelsun_line(area, thread);
    switch (kernelsun_operation(area, thread)) {
    case KERNELSUN_WRITE:
    case KERNELSUN_UNMAP:
        if (line == 1) {
            return KERNELSUN_LOCK_H;
        }
        return line == 2 ? kernelsun_register_n(area, thread) : KERNELSUN_NONE;
    case KERNELSUN_READ: return line == 1 ? kernelsun_register_n(area, thread) : KERNELSUN_NONE;
    case KERNELSUN_LEVEL:
        if (line == 1) {
            return KERNELSUN_LOCK_H;
        }
        return line == 6 ? kernelsun_register_n(area, thread) : KERNELSUN_NONE;
    default: return KERNELSUN_NONE;
    }
}

/*
 * For whom a thread's next line waits, as a set of threads: all that have the lock
 * which it takes, but a reader waits for no other reader. Where the set is 0, a step
 * would not give KERNELSUN_BLOCKED. A thread that has the lock itself is in the set
 * too; in an area of format() that doesn't happen.
 */
static inline uint32_t kernelsun_waits_for(const uint8_t *area, uint32_t thread)
{
    uint32_t lock = kernelsun_next_lock(area, thread), readers;
    if (lock == KERNELSUN_LOCK_H) {
        return kernelsun_bit(kernelsun_lock_h(area));
    }
    readers = kernelsun_lock_readers(area, lock);
    if (kernelsun_operation(area, thread) == KERNELSUN_READ) {
        readers &= kernelsun_bit(thread);
    }
    return kernelsun_bit(kernelsun_lock_writer(area, lock)) | readers;
}

/* ---- Names ---- */

/* The name of a number that a call gave back: "WENT", "BLOCKED"; "?" for one that none gives. */
static inline const char *kernelsun_name(uint32_t number)
{
    switch (number) {
    case KERNELSUN_WENT: return "WENT";
    case KERNELSUN_FINISHED: return "FINISHED";
    case KERNELSUN_BLOCKED: return "BLOCKED";
    case KERNELSUN_SHAPE: return "SHAPE";
    case KERNELSUN_THREAD: return "THREAD";
    case KERNELSUN_BUSY: return "BUSY";
    case KERNELSUN_IDLE: return "IDLE";
    case KERNELSUN_LOGICAL: return "LOGICAL";
    case KERNELSUN_OPERATION: return "OPERATION";
    case KERNELSUN_FAULT: return "FAULT";
    case KERNELSUN_LIMITS: return "LIMITS";
    case KERNELSUN_TALLY: return "TALLY";
    case KERNELSUN_FULL: return "FULL";
    default: return "?";
    }
}

/* The name of an operation: "write", "read", "unmap", "level"; "idle" for 0, "?" for another. */
static inline const char *kernelsun_operation_name(uint32_t op)
{
    switch (op) {
    case 0: return "idle";
    case KERNELSUN_WRITE: return "write";
    case KERNELSUN_READ: return "read";
    case KERNELSUN_UNMAP: return "unmap";
    case KERNELSUN_LEVEL: return "level";
    default: return "?";
    }
}

/* The last line of an operation; 0 for what is none. */
static inline uint32_t kernelsun_last_line(uint32_t op)
{
    switch (op) {
    case KERNELSUN_WRITE: return 16;
    case KERNELSUN_READ: return 6;
    case KERNELSUN_UNMAP: return 11;
    case KERNELSUN_LEVEL: return 18;
    default: return 0;
    }
}

/* The label of a line: "W5", "L18"; "-" for an operation and a line that there are not. */
static inline const char *kernelsun_label(uint32_t op, uint32_t line)
{
    static const char labels[4][18][4] = {
        {"W1", "W2", "W3", "W4", "W5", "W6", "W7", "W8", "W9", "W10", "W11", "W12", "W13", "W14",
         "W15", "W16", "", ""},
        {"R1", "R2", "R3", "R4", "R5", "R6", "", "", "", "", "", "", "", "", "", "", "", ""},
        {"U1", "U2", "U3", "U4", "U5", "U6", "U7", "U8", "U9", "U10", "U11", "", "", "", "", "", "",
         ""},
        {"L1", "L2", "L3", "L4", "L5", "L6", "L7", "L8", "L9", "L10", "L11", "L12", "L13", "L14",
         "L15", "L16", "L17", "L18"}};
    return line >= 1 && line <= kernelsun_last_line(op) ? labels[op - 1][line - 1] : "-";
}

/* The label of the line that a thread's next step does; "-" where it is idle. */
static inline const char *kernelsun_thread_label(const uint8_t *area, uint32_t thread)
{
    return kernelsun_label(kernelsun_operation(area, thread), kernelsun_line(area, thread));
}

#ifdef __cplusplus
}
#endif

#endif
