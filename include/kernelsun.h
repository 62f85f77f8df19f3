/*
 * kernelsun.h: the C door of Kernelsun, a step machine for the layer of a
 * flash store that decides which physical block holds which logical block.
 *
 * It drives no chip: contents are words in memory, and a driver of yours acts
 * beside it (docs/USING.md, "The lines"). A block's wear counts its erases: one
 * where it is freed (lines U7 and L13), and one where its number is written
 * again (W3), since a chip can't overwrite; a first write counts none. At
 * 4,294,967,295 it stays. Levelling, one of the four operations, moves the
 * content of the least worn block in use to the most worn free one, if that one
 * is worn more by a distance that you choose, and so gives the little worn block
 * back for use. It happens where you begin it, and a new block is always the
 * free one of the lowest number: the layer does not even out wear by itself.
 *
 * THE AREA
 *
 * All that the layer knows stands in one run of bytes that you own, the area.
 * It may lie anywhere in memory that can be read and written, at any alignment.
 * Its length is exact: KERNELSUN_LENGTH(t, n, p) bytes for t threads, n logical
 * and p physical blocks. A call with another length is refused (KERNELSUN_SHAPE;
 * add_area() counts it as skipped) and touches no byte beyond the length that it
 * was given. The four functions below neither allocate nor keep anything between
 * calls, the pointers included: an area may be moved, copied, saved and brought
 * back between any two calls.
 *
 * A content is a word of 32 bits. Reading an unmapped block gives 0, "empty"; a
 * 0 that was written counts like any other content and reads the same.
 *
 * Look at an area through kernelsun_view.h, which knows its layout, and leave
 * writing it to the functions: they check the form of the area at each call
 * (KERNELSUN_SHAPE) and each line's needs (KERNELSUN_FAULT), and cannot notice a
 * change that keeps to both.
 *
 * WHO MAY CALL WHEN
 *
 * A "thread" here is a number below t that carries at most one open operation.
 * The library starts none: it need not be a thread of your system, and it goes
 * on only where you step it. Never let two calls run on the same area at one
 * time, in an interrupt handler either: if several contexts share an area, put
 * each call (not each operation) under one lock or in one critical section.
 * The same goes for a tally. Calls on different areas, with different tallies
 * where they have one, have nothing to do with each other.
 *
 * DRIVING AN OPERATION TO ITS END
 *
 * begin() opens an operation on an idle thread and does nothing else. Each
 * step() then does one short line of it. Step until KERNELSUN_FINISHED comes
 * back; the value beside it is the operation's answer, and the thread is idle
 * again. KERNELSUN_BLOCKED means that the line waits for a lock, in an area of
 * format() since another open operation has it: step the other threads and try
 * again. Any number of reads may have the lock of a logical block at one time, so
 * a read waits for no other read; a write, an unmap or a levelling that moves the
 * block has it alone, and waits until the last read has released it.
 *
 * In an area that came from format() and was changed by these functions alone,
 * some thread with open work can step while any operation is open: that is
 * proved. No operation has more than 18 lines and none goes back to an earlier
 * one, so stepping all open threads in turn finishes all of them, if no more are
 * begun meanwhile: that is argued from the lines and not yet proved.
 *
 *     uint64_t r = begin(area, len, 0, KERNELSUN_READ, 7, 0);
 *     if (kernelsun_number(r) == KERNELSUN_WENT) {
 *         do {
 *             r = step(area, len, 0);
 *             if (kernelsun_number(r) == KERNELSUN_BLOCKED)
 *                 step_the_other_threads();
 *         } while (kernelsun_number(r) == KERNELSUN_WENT ||
 *                  kernelsun_number(r) == KERNELSUN_BLOCKED);
 *     }
 *     if (kernelsun_number(r) == KERNELSUN_FINISHED)
 *         content = kernelsun_value(r);
 *
 * WHEN OPERATIONS OVERLAP
 *
 * In such an area each finished read, write and unmap has answered as if it had
 * been done at once, at the moment at which it took its last lock: a write and
 * an unmap at their second line, a read at its first, a levelling, which changes
 * no answer, at its sixth or, where it moves nothing, at its first. An operation
 * that is still open counts from that moment: a read may answer 0 while the
 * unmap is open. When all threads are idle, the bytes are those of the same
 * operations one after the other, in that order. Both are proved.
 *
 * THE WEAR SHEET
 *
 * add_area() adds an area to a record that you lend, the tally: how many blocks
 * there are and how many are free, the least and the most wear, and the sum of
 * wear, which is exact, over up to 200 areas one after the other. In which order
 * they come doesn't change the tally: that is proved. A tally starts as all zeros,
 * and one that only this function changed is never refused as damaged: proved too.
 * An area that is not well formed, by the test that gives KERNELSUN_SHAPE elsewhere,
 * adds 1 to the areas and 1 to those that were skipped, and nothing else. Areas are
 * only read; they may have open work.
 *
 *     struct kernelsun_tally tally = {0};
 *     for (i = 0; i < count; i++) {
 *         uint64_t r = add_area(&tally, areas[i], lengths[i]);
 *         if (kernelsun_number(r) != KERNELSUN_WENT)
 *             break;
 *     }
 *     if (tally.blocks != 0) {
 *         mean = tally.sum / tally.blocks;
 *         remainder = tally.sum % tally.blocks;
 *     }
 *
 * With no blocks seen there is no mean, and least and most say nothing. A tally
 * may be copied, saved and brought back like an area. One with counts past the
 * bounds that add_area() states is refused (KERNELSUN_TALLY); other damage is not
 * noticed.
 *
 * WHAT COMES BACK
 *
 * A number, which says what happened, and a value, which is an operation's
 * answer beside KERNELSUN_FINISHED and else 0. Both come packed into one word:
 * number times 4,294,967,296 plus value. Only KERNELSUN_WENT and
 * KERNELSUN_FINISHED change the area, or the tally in the case of add_area().
 * After any other number each byte is as it was. A compiler that can warns where
 * a result is dropped.
 *
 * LINKING
 *
 *     cc -std=c99 yours.c $(pkg-config --cflags --libs kernelsun)
 *
 * after ./install, or with the paths of the library and of this header by hand
 * (docs/USING.md). The library is for x86-64 with the calling convention of
 * Linux (SSE2 registers and the red zone are used); it may be part of a
 * position-independent program. It takes the names format, begin, step and
 * add_area and no other, asks for memcpy and memset and for nothing else, has no
 * data of its own, and each call ends by itself. step() takes nearly 12 KB of
 * stack whatever the area's size, format(), begin() and add_area() less than 1 KB;
 * what your memcpy and memset take comes on top. (With a shared C library, link
 * with -z now: else the first call looks them up on that stack, which takes some
 * KB more.)
 */
#ifndef KERNELSUN_H
#define KERNELSUN_H

#include <stddef.h>
#include <stdint.h>

#ifdef __cplusplus
extern "C" {
#endif

/*
 * The version of this header and of the library beside it. The first number
 * rises where an area of before is refused or means something else, or where a
 * call answers otherwise; the second where something is added. An area does not
 * hold it: who saves areas saves the first number with them.
 */
#define KERNELSUN_VERSION_MAJOR 3
#define KERNELSUN_VERSION_MINOR 0
#define KERNELSUN_VERSION "3.0"

/* A result that is dropped may have been a refusal. */
#if defined(__GNUC__)
#define KERNELSUN_RESULT __attribute__((warn_unused_result))
#else
#define KERNELSUN_RESULT
#endif

/* Limits of format(), both ends included. */
#define KERNELSUN_THREADS_LEAST 1u
#define KERNELSUN_THREADS_MOST 16u
#define KERNELSUN_LOGICAL_LEAST 1u
#define KERNELSUN_LOGICAL_MOST 256u
/* At least one physical block more than logical ones, so that one is free. */
#define KERNELSUN_PHYSICAL_LEAST(n) ((n) + 1u)
#define KERNELSUN_PHYSICAL_MOST 512u
#define KERNELSUN_DISTANCE_LEAST 1u
#define KERNELSUN_DISTANCE_MOST 1000u

/*
 * Length in bytes of an area for t threads, n logical and p physical blocks.
 * A macro, so that it can size a static array. For numbers within the limits.
 */
#define KERNELSUN_LENGTH(t, n, p) \
    ((size_t)4 * ((size_t)6 + (size_t)7 * (size_t)(t) + (size_t)2 * (size_t)(n) + \
                  (size_t)4 * (size_t)(p)))

/* The longest area that there is: 10,712 bytes. */
#define KERNELSUN_LENGTH_MOST \
    KERNELSUN_LENGTH(KERNELSUN_THREADS_MOST, KERNELSUN_LOGICAL_MOST, KERNELSUN_PHYSICAL_MOST)

/* How many areas a tally takes, skipped ones counted. */
#define KERNELSUN_AREAS_MOST 200u

/* Operations, for begin(). */
#define KERNELSUN_WRITE 1u /* block n gets content c; answers 0 */
#define KERNELSUN_READ 2u  /* answers the content of block n, 0 if unmapped; c is not looked at */
#define KERNELSUN_UNMAP 3u /* block n has no content any more; answers 0; c is not looked at */
#define KERNELSUN_LEVEL 4u /* moves one content, if a free block is worn by d or more beyond its own;
                              answers 1 if it did, else 0; n and c are not looked at */

/*
 * Numbers given back. docs/USING.md, "Numbers", says when; each function below,
 * in which order. The area is unchanged after each but the first two, and so is
 * the tally.
 */
#define KERNELSUN_WENT 0u
#define KERNELSUN_FINISHED 1u
#define KERNELSUN_BLOCKED 2u /* try again, after others */
#define KERNELSUN_SHAPE 10u
#define KERNELSUN_THREAD 11u
#define KERNELSUN_BUSY 12u
#define KERNELSUN_IDLE 13u
#define KERNELSUN_LOGICAL 14u
#define KERNELSUN_OPERATION 15u
#define KERNELSUN_FAULT 16u
#define KERNELSUN_LIMITS 17u
#define KERNELSUN_TALLY 29u
#define KERNELSUN_FULL 30u

/* The number in a result: one of those above. */
static inline uint32_t kernelsun_number(uint64_t result)
{
    return (uint32_t)(result >> 32);
}

/* The value in a result. */
static inline uint32_t kernelsun_value(uint64_t result)
{
    return (uint32_t)(result & 0xffffffffu);
}

/*
 * Makes len bytes at area a fresh store: t threads, all idle; n logical blocks,
 * all unmapped; p physical blocks, all free and unworn. d is the difference in
 * wear from which levelling moves a content. What the bytes held before does
 * not matter.
 *
 * Gives WENT; or, the first that applies, LIMITS, SHAPE (len isn't
 * KERNELSUN_LENGTH(t, n, p)).
 */
KERNELSUN_RESULT
uint64_t format(uint8_t *area, size_t len, uint32_t t, uint32_t n, uint32_t p, uint32_t d);

/*
 * Opens operation op on an idle thread. n is the logical block and c the
 * content, each for the operations that use it; where one isn't used, any
 * number will do.
 *
 * Gives WENT; or, the first that applies, SHAPE, THREAD, BUSY, OPERATION,
 * LOGICAL.
 */
KERNELSUN_RESULT
uint64_t begin(uint8_t *area, size_t len, uint32_t thread, uint32_t op, uint32_t n, uint32_t c);

/*
 * Does the next line of the thread's operation.
 *
 * Gives WENT, or FINISHED with the answer after the last line; or, the first
 * that applies, SHAPE, THREAD, IDLE, and then, of the line, BLOCKED or FAULT.
 *
 * For format, begin and step: area points to len bytes that may be read and
 * written, and is not NULL, not even where len is 0.
 */
KERNELSUN_RESULT
uint64_t step(uint8_t *area, size_t len, uint32_t thread);

/* A tally, for add_area(). It starts as all zeros. */
struct kernelsun_tally {
    uint32_t areas;   /* areas added, skipped ones too: at most KERNELSUN_AREAS_MOST */
    uint32_t skipped; /* those of them that were not well formed */
    uint32_t blocks;  /* physical blocks of the others */
    uint32_t free;    /* those of the blocks that are free: their header names no number */
    uint32_t least;   /* the least wear of a block; where blocks is 0, nothing */
    uint32_t most;    /* the most wear of a block; where blocks is 0, nothing */
    uint64_t sum;     /* the wear of all blocks together */
};

/* The library counts on these places. A compiler that puts a field elsewhere stops here. */
typedef char kernelsun_tally_is_as_in_the_library[
    (sizeof(struct kernelsun_tally) == 32 &&
     offsetof(struct kernelsun_tally, areas) == 0 &&
     offsetof(struct kernelsun_tally, skipped) == 4 &&
     offsetof(struct kernelsun_tally, blocks) == 8 &&
     offsetof(struct kernelsun_tally, free) == 12 &&
     offsetof(struct kernelsun_tally, least) == 16 &&
     offsetof(struct kernelsun_tally, most) == 20 &&
     offsetof(struct kernelsun_tally, sum) == 24) ? 1 : -1];

/*
 * Adds the area to the tally: 1 to areas, and for each of its physical blocks 1 to
 * blocks, 1 to free where it is free, and its wear to sum; least and most become
 * the least and the most wear of all blocks that were added. While blocks is 0,
 * what stands in least and most is not looked at. An area that is not well formed
 * adds 1 to areas and 1 to skipped, and changes nothing else.
 *
 * Gives WENT; or, the first that applies, TALLY (areas is over 200, or skipped over
 * areas, or blocks over 512 * (areas - skipped), or free over blocks, or sum over
 * 4294967295 * blocks), FULL (areas is 200).
 *
 * tally points to a tally that may be read and written, with the alignment of its
 * type, and area to len bytes that may be read, at any alignment. Neither is NULL,
 * area not even where len is 0, and the two don't overlap.
 */
KERNELSUN_RESULT
uint64_t add_area(struct kernelsun_tally *tally, const uint8_t *area, size_t len);

#ifdef __cplusplus
}
#endif

#endif
