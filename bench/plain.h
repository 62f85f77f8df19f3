/*
 * Document 01 in plain C, the yardstick that the door is measured against: the
 * same calls, the same refusals in the same order, the same bytes after each
 * call. It works straight on the area's bytes, without a working store. It has
 * no part in the product.
 */
#ifndef KERNELSUN_BENCH_PLAIN_H
#define KERNELSUN_BENCH_PLAIN_H

#include <stddef.h>
#include <stdint.h>

/* The door's functions of document 01. See include/kernelsun.h. */
uint64_t plain_format(uint8_t *area, size_t len, uint32_t t, uint32_t n, uint32_t p, uint32_t d);
uint64_t plain_begin(uint8_t *area, size_t len, uint32_t thread, uint32_t op, uint32_t n,
                     uint32_t c);
uint64_t plain_step(uint8_t *area, size_t len, uint32_t thread);

/* The same step, built at -O3 (plain_o3.c). */
uint64_t plain_o3_step(uint8_t *area, size_t len, uint32_t thread);

/* SHAPE, THREAD, IDLE, or WENT where the thread's line is to be looked at. */
uint32_t plain_step_refusal(const uint8_t *area, size_t len, uint32_t thread);

#endif
