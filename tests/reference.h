/*
 * The second implementation of document 01, and of document 02 as far as it is
 * built, written from the documents alone and straight on the area's bytes. The
 * door is compared with it. It is not made for speed and has no part in the
 * product.
 */
#ifndef KERNELSUN_TESTS_REFERENCE_H
#define KERNELSUN_TESTS_REFERENCE_H

#include <stddef.h>
#include <stdint.h>

#include "kernelsun.h"

/* The door's functions: the last by document 02, §2. See include/kernelsun.h. */
uint64_t ref_format(uint8_t *area, size_t len, uint32_t t, uint32_t n, uint32_t p, uint32_t d);
uint64_t ref_begin(uint8_t *area, size_t len, uint32_t thread, uint32_t op, uint32_t n, uint32_t c);
uint64_t ref_step(uint8_t *area, size_t len, uint32_t thread);
uint64_t ref_add_area(struct kernelsun_tally *tally, const uint8_t *area, size_t len);

/* The longest input that the script program takes. */
#define SCRIPT_INPUT_MOST 65536u

/*
 * What the script program prints: a line of input has at least 4 bytes
 * ("s 0\n") and gives at most 13 ("1 4294967295\n"); "19 0\n" may follow.
 */
#define SCRIPT_OUTPUT_MOST (SCRIPT_INPUT_MOST / 4u * 13u + 5u)

/*
 * Writes to out what the script program prints for an input of len bytes and
 * gives back how many bytes that is. out has room for SCRIPT_OUTPUT_MOST.
 */
size_t ref_script(const uint8_t *in, size_t len, uint8_t *out);

#endif
