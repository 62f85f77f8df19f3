/*
 * What a fuzz run has met: each number of each call, each line with each
 * outcome that it can have, each line that looks at a block lock or at a block's
 * owner with each kind of holders there, and the acts inside lines that have more
 * than one way to go.
 */
#ifndef KERNELSUN_TESTS_COVERAGE_H
#define KERNELSUN_TESTS_COVERAGE_H

#include "kit.h"

void coverage_count(const call *c, uint64_t r, const area *before, const area *after);

/* Prints it in short. Gives 0 if something that can be met never was, and names it. */
int coverage_is_whole(void);

#endif
