/*
 * plain.c once more, for gcc at -O3 instead of -O2 and with the form of the
 * shape test that suits it. The door's library comes out of an optimiser that
 * vectorises; this is C with the same help.
 */
#define PLAIN_LEAVES_EARLY 0
#define plain_format plain_o3_format
#define plain_begin plain_o3_begin
#define plain_step plain_o3_step
#define plain_step_refusal plain_o3_step_refusal

#include "plain.c"
