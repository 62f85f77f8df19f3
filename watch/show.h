/*
 * What `watch` prints: answers in words, the state, and the wear at the end. All
 * of it is read from areas through kernelsun_view.h.
 */
#ifndef WATCH_SHOW_H
#define WATCH_SHOW_H

#include <stddef.h>
#include <stdint.h>

#include "parse.h"

/* The column at which the state begins, and above it the line of the script. */
enum { STATE_AT = 6 };

/* What a call was given and what it gave. Where len is 0, there is no store. */
typedef struct {
    command asked;
    uint64_t result;
    const uint8_t *before;
    const uint8_t *after;
    size_t len;
} call_made;

/* A line's number, up to the column at which the line stands. */
void show_number(uint64_t number);

/* A line's number, its fields as they were typed, and the answer in words. */
void show_answer(uint64_t number, const script_line *line, const call_made *made);

/* Locks, owners, threads, who waits, map and wear, on as few lines as they need. */
void show_state(const uint8_t *area);

/* Which operations are open, if any. */
void show_open(const uint8_t *area, size_t len);

/* How many blocks there are, how many are free, and how worn they are. */
void show_wear(const uint8_t *area, size_t len);

#endif
