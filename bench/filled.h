/*
 * The second yardstick: step as in plain.h, but with the working store of
 * document 01: room for the largest area, all zeros, into which the area is
 * then read. What it costs more than plain_step is the price of that store in C.
 */
#ifndef KERNELSUN_BENCH_FILLED_H
#define KERNELSUN_BENCH_FILLED_H

#include <stddef.h>
#include <stdint.h>

uint64_t filled_step(uint8_t *area, size_t len, uint32_t thread);

#endif
