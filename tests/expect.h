/*
 * The way the tests with fixed expectations state one: a call, the number and
 * value that must come back, and every byte of the area after it. The first
 * one that isn't met is printed in full and ends the program.
 */
#ifndef KERNELSUN_TESTS_EXPECT_H
#define KERNELSUN_TESTS_EXPECT_H

#include "kit.h"

typedef struct {
    size_t word;
    uint32_t value;
} edit;

/* What is being tested now, for the message of a failure. */
void about(const char *what);

void expect_area(area *a, call c, uint32_t number, uint32_t value, const area *after);
void expect_changes(area *a, call c, uint32_t number, uint32_t value, const edit *changes,
                    size_t count);
void expect_refusal(area *a, call c, uint32_t number);

/* For what isn't a call: a step count, a word, a name. */
void expect_equal(const char *what, uint32_t found, uint32_t wanted);
void expect_text(const char *what, const char *found, const char *wanted);

void apply(area *a, const edit *changes, size_t count);

/* Fills an area of that length with a byte, as something to format or refuse. */
void fill(area *a, size_t len, uint8_t byte);

/* A fresh store by the document, made without the door. */
void make_fresh(area *a, uint32_t t, uint32_t n, uint32_t p, uint32_t d);

/* A begin that must go, and steps of which each must give that number and the value 0. */
void expect_begins(area *a, uint32_t thread, uint32_t op, uint32_t n, uint32_t c);
void expect_steps(area *a, uint32_t thread, uint32_t count, uint32_t number);

typedef struct {
    uint32_t steps, value;
} run;

/* Begins and steps to the end. Any number that isn't WENT or FINISHED fails. */
run whole(area *a, uint32_t thread, uint32_t op, uint32_t n, uint32_t c);

/* Tells how much was expected, and gives the exit status 0. */
int all_met(const char *program);

#endif
