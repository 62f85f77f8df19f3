/*
 * What the tests of the door share: a call as a thing that can be kept and
 * printed, the way through the door with guards around the area and the tally,
 * and areas and tallies in words, so that a failure can be read.
 */
#ifndef KERNELSUN_TESTS_KIT_H
#define KERNELSUN_TESTS_KIT_H

#include <stddef.h>
#include <stdint.h>

#include "kernelsun_view.h"
#include "put_word.h"

/* Room for the longest area and for lengths well beyond it. */
enum { AREA_ROOM = 16000 };

/* Lines of the longest operation, levelling. */
enum { LINES_MOST = 18 };

typedef struct {
    uint8_t bytes[AREA_ROOM];
    size_t len;
} area;

typedef struct kernelsun_tally tally;

/* Sizes of which one or more is outside its limits. */
enum { SIZES_OUTSIDE = 11 };
extern const kernelsun_sizes sizes_outside[SIZES_OUTSIDE];

/* add_area is no such call: what it changes is a tally, and no area. */
enum { CALL_FORMAT, CALL_BEGIN, CALL_STEP, CALLS };

typedef struct {
    int which;
    uint32_t argument[4]; /* in the order of the prototypes; the unused ones 0 */
} call;

call call_format(uint32_t t, uint32_t n, uint32_t p, uint32_t d);
call call_begin(uint32_t thread, uint32_t op, uint32_t n, uint32_t c);
call call_step(uint32_t thread);

/* Up against a page that cannot be touched at its end or its start, and three odd addresses. */
enum { PLACE_UPPER, PLACE_LOWER, PLACE_ODD, PLACES = PLACE_ODD + 3 };

/*
 * Makes the call through the door. The area is put at a place that changes from
 * call to call. Bytes around it are checked afterwards; a changed one ends the
 * test program.
 */
uint64_t through_door(const call *c, area *a);

/* The area's bytes at that place, to be read until the next call through the door or to here. */
const uint8_t *placed(const area *a, unsigned place);

/*
 * Adds the area to the tally through the door. The area is put at a place that
 * changes from call to call, in pages that can only be read meanwhile, and the
 * tally in a page of its own, at its start, its end or between. Bytes around the
 * tally are checked afterwards; a changed one ends the test program.
 */
uint64_t add_through_door(tally *t, const area *a);

/* "step(thread 1)" and so on, and "FINISHED with 7", without a newline. */
void print_call(const call *c);
void print_result(uint64_t r);
void print_tally(const tally *t);

/* The word of that index by its name, for an area with those sizes. */
void print_word_name(const kernelsun_sizes *s, size_t index);

/*
 * The words in which two areas of one length differ, with what stood there
 * before: one line a word, bytes beyond the last whole word as they are.
 */
void print_differences(const area *before, const char *left_name, const area *left,
                       const char *right_name, const area *right);

#endif
