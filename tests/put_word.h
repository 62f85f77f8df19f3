/*
 * Writing a word of an area, for those who make areas by hand or do lines in C:
 * the tests, the reference, the benchmark. kernelsun_view.h says where each word
 * stands and reads it.
 */
#ifndef KERNELSUN_TESTS_PUT_WORD_H
#define KERNELSUN_TESTS_PUT_WORD_H

#include <stddef.h>
#include <stdint.h>

enum { BYTES_IN_WORD = 4 };

static inline void put_word(uint8_t *area, size_t index, uint32_t value)
{
    uint8_t *b = area + BYTES_IN_WORD * index;
    b[0] = (uint8_t)value;
    b[1] = (uint8_t)(value >> 8);
    b[2] = (uint8_t)(value >> 16);
    b[3] = (uint8_t)(value >> 24);
}

#endif
