/*
 * Two tracks open new blocks at once while a leveller runs.
 *
 * A recorder keeps its title in logical block 0 and its tracks in the others.
 * Old tracks were erased, so their physical blocks are worn. Now two new tracks
 * are opened at the same time, and a leveller looks for something to move from
 * an unworn block to a worn one: the title. The three operations are stepped in
 * turn, one line each, and wait for each other's locks where they must.
 *
 * Built with: cc -std=c99 examples/two_tracks.c $(pkg-config --cflags --libs kernelsun)
 * or, in the tree: cc -std=c99 -Iinclude examples/two_tracks.c target/staticlib/libkernelsun.a
 */
#include <stdio.h>
#include <stdlib.h>

#include "kernelsun_view.h"

/* Three threads: one for each track and one for the leveller. */
enum { TRACK_A, TRACK_B, LEVELLER, THREADS };

/* The logical blocks. */
enum { TITLE, BLOCK_A, BLOCK_B, OLD_TRACK, LOGICAL };

/* Two physical blocks to spare, and levelling from a difference in wear of one. */
enum { PHYSICAL = 6, DISTANCE = 1 };

/* More turns than the three operations could need together. */
enum { TURNS_MOST = 60 };

static uint8_t area[KERNELSUN_LENGTH(THREADS, LOGICAL, PHYSICAL)];

static void stop_unless(int good, const char *what, uint64_t result)
{
    if (!good) {
        fprintf(stderr, "%s gave %s\n", what, kernelsun_name(kernelsun_number(result)));
        exit(1);
    }
}

static void open_operation(uint32_t thread, uint32_t op, uint32_t n, uint32_t content)
{
    uint64_t result = begin(area, sizeof area, thread, op, n, content);
    stop_unless(kernelsun_number(result) == KERNELSUN_WENT, "begin", result);
}

/* An operation by itself, from begin to its answer. */
static uint32_t run_alone(uint32_t op, uint32_t n, uint32_t content)
{
    uint64_t result;
    open_operation(TRACK_A, op, n, content);
    do {
        result = step(area, sizeof area, TRACK_A);
    } while (kernelsun_number(result) == KERNELSUN_WENT);
    stop_unless(kernelsun_number(result) == KERNELSUN_FINISHED, "step", result);
    return kernelsun_value(result);
}

/* The title stays on an unworn block; three old tracks leave worn ones. */
static void make_old_recording(uint32_t title)
{
    uint64_t result = format(area, sizeof area, THREADS, LOGICAL, PHYSICAL, DISTANCE);
    stop_unless(kernelsun_number(result) == KERNELSUN_WENT, "format", result);
    for (uint32_t n = TITLE; n < LOGICAL; n++) {
        run_alone(KERNELSUN_WRITE, n, title);
    }
    for (uint32_t n = BLOCK_A; n < LOGICAL; n++) {
        run_alone(KERNELSUN_UNMAP, n, 0);
    }
}

/* One sign a turn, for the picture. */
static char sign_of(uint64_t result)
{
    switch (kernelsun_number(result)) {
    case KERNELSUN_WENT: return '-';
    case KERNELSUN_BLOCKED: return '.';
    case KERNELSUN_FINISHED: return '#';
    default: stop_unless(0, "step", result); return '?';
    }
}

/* Steps all open threads in turn until none is open. Keeps picture and answers. */
static void run_in_turn(char picture[THREADS][TURNS_MOST + 1], uint32_t answer[THREADS])
{
    int open[THREADS] = {1, 1, 1}, left = THREADS;
    for (int turn = 0; turn < TURNS_MOST && left > 0; turn++) {
        for (uint32_t thread = 0; thread < THREADS; thread++) {
            if (!open[thread]) {
                continue;
            }
            uint64_t result = step(area, sizeof area, thread);
            picture[thread][turn] = sign_of(result);
            if (kernelsun_number(result) == KERNELSUN_FINISHED) {
                open[thread] = 0;
                answer[thread] = kernelsun_value(result);
                left--;
            }
        }
    }
}

static int read_back(const char *name, uint32_t n, uint32_t written)
{
    uint32_t found = run_alone(KERNELSUN_READ, n, 0);
    printf("  %-8s  written %u, read %u\n", name, (unsigned)written, (unsigned)found);
    return found == written;
}

int main(void)
{
    static const char *const names[THREADS] = {"track A", "track B", "leveller"};
    static char picture[THREADS][TURNS_MOST + 1];
    uint32_t answer[THREADS] = {0, 0, 0};
    const uint32_t title = 1955, sound_a = 440, sound_b = 880;

    printf("A store of %d logical and %d physical blocks in %u bytes.\n", LOGICAL, PHYSICAL,
           (unsigned)sizeof area);
    make_old_recording(title);

    open_operation(TRACK_A, KERNELSUN_WRITE, BLOCK_A, sound_a);
    open_operation(TRACK_B, KERNELSUN_WRITE, BLOCK_B, sound_b);
    open_operation(LEVELLER, KERNELSUN_LEVEL, 0, 0);
    run_in_turn(picture, answer);

    printf("\nTwo tracks open new blocks while the leveller runs. Each column is one turn:\n"
           "- a line done, . waiting for a lock, # finished.\n\n");
    for (int thread = 0; thread < THREADS; thread++) {
        printf("  %-8s  %s\n", names[thread], picture[thread]);
    }
    printf("\nThe leveller %s.\n\nWhat came back:\n",
           answer[LEVELLER] ? "moved a content to a worn block" : "had nothing to move");
    int good = read_back("title", TITLE, title);
    good &= read_back("track A", BLOCK_A, sound_a);
    good &= read_back("track B", BLOCK_B, sound_b);
    return good ? 0 : 1;
}
