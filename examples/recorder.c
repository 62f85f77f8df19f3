/*
 * Four tracks record while a leveller runs, each in a thread of the system,
 * over one area and one mutex.
 *
 * The mutex is held for one call, never for a whole operation: between two
 * lines of one thread the others may go on. A line that waits for a lock of the
 * area gives BLOCKED; its thread leaves the mutex, sleeps until some operation
 * has finished, and tries again. It could also try again at once, after a
 * sched_yield(), but would then take time, and with fixed priorities all of it,
 * from the one that it waits for.
 *
 * Each track writes its own logical blocks over and over, reads them back and
 * erases some, so that blocks wear. A title and an archive are written once and
 * stay, and levelling moves them to worn blocks. All tracks read the title, which
 * several may do at one time, while a levelling of it waits for all of them. At
 * the end all contents are read once more and the area is looked over.
 *
 * Why each loop that steps comes to its end: in an area that only the library
 * changed, some thread with open work can always step. That is proved. No
 * operation has more than 18 lines, and none takes a lock after it has released
 * one, so who releases one also finishes, and wakes those who sleep. That all
 * finish is argued from this and from a scheduler that gives each thread its
 * turn; it is not proved.
 *
 * A call of step() takes up to 12 KB of the stack of the thread that makes it.
 *
 * Built with: cc -std=c99 -pthread examples/recorder.c $(pkg-config --cflags --libs kernelsun)
 * or, in the tree: cc -std=c99 -pthread -Iinclude examples/recorder.c target/staticlib/libkernelsun.a
 */
#define _POSIX_C_SOURCE 200809L

#include <pthread.h>
#include <sched.h>
#include <stdio.h>
#include <stdlib.h>
#include <string.h>

#include "kernelsun.h"
#include "kernelsun_view.h"

/* The area's threads: one for each track and one for the leveller. */
enum { TRACKS = 4, LEVELLER = TRACKS, THREADS };

/* The logical blocks: a title, an archive of three, and each track's slots. */
enum { TITLE, FIRST_SLOT = 4, SLOTS = 4, LOGICAL = FIRST_SLOT + TRACKS * SLOTS };

/* A few physical blocks to spare, and levelling from a difference in wear of four. */
enum { PHYSICAL = LOGICAL + 4, DISTANCE = 4 };

/* How often each track records; after every third sound it erases an older one. */
enum { SOUNDS = 100, ERASES_EVERY = 3 };

/* What a read of an unmapped block gives. */
enum { EMPTY = 0 };

/* Shared by all threads: touched under the mutex, or while there is only one thread. */
static pthread_mutex_t mutex = PTHREAD_MUTEX_INITIALIZER;
static pthread_cond_t news = PTHREAD_COND_INITIALIZER; /* something finished, ended or failed */
static uint8_t area[KERNELSUN_LENGTH(THREADS, LOGICAL, PHYSICAL)];
static uint32_t tracks_open; /* the leveller goes on while there are some */
static int stopped;          /* something failed: each thread ends at its next call */

/* A track's own: main reads it when the track has ended. */
typedef struct {
    uint32_t thread;
    uint32_t kept[SLOTS]; /* what each slot holds: the last sound there, or EMPTY */
    uint32_t sounds;      /* how many were recorded and came back */
} track;

/* ---- The mutex and who sleeps ---- */

/* Without its mutex a program like this can't even stop in order. */
static void must(int error, const char *what)
{
    if (error != 0) {
        fprintf(stderr, "recorder: %s: %s\n", what, strerror(error));
        exit(1);
    }
}

static void enter(void)
{
    must(pthread_mutex_lock(&mutex), "pthread_mutex_lock");
}

static void leave(void)
{
    must(pthread_mutex_unlock(&mutex), "pthread_mutex_unlock");
}

/* Under the mutex, which it gives back meanwhile. It may also return without news. */
static void sleep_until_news(void)
{
    must(pthread_cond_wait(&news, &mutex), "pthread_cond_wait");
}

/* Under the mutex too, so that nobody falls asleep between a change and its news. */
static void wake_all(void)
{
    must(pthread_cond_broadcast(&news), "pthread_cond_broadcast");
}

static void stop_all(void)
{
    stopped = 1;
    wake_all();
}

/* ---- Calls, each under the mutex ---- */

/*
 * Under the mutex: says what was not expected, and has all threads stop. A
 * refused call changed nothing: the thread still stands at the line refused.
 */
static void stop_at(uint32_t thread, const char *call, const char *gave)
{
    int viewable = kernelsun_viewable(area, sizeof area);
    fprintf(stderr, "recorder: thread %u at line %s: %s gave %s\n", (unsigned)thread,
            viewable ? kernelsun_thread_label(area, thread) : "?", call, gave);
    stop_all();
}

/* Opens an operation. Gives 1 if it is open. */
static int open_operation(uint32_t thread, uint32_t op, uint32_t n, uint32_t content)
{
    int open = 0;
    enter();
    if (!stopped) {
        uint64_t result = begin(area, sizeof area, thread, op, n, content);
        open = kernelsun_number(result) == KERNELSUN_WENT;
        if (!open) {
            stop_at(thread, "begin", kernelsun_name(kernelsun_number(result)));
        }
    }
    leave();
    return open;
}

/* Under the mutex, of a thread that was blocked: whether it waits for others, and not for itself. */
static int waits_for_others(uint32_t thread)
{
    uint32_t threads = kernelsun_waits_for(area, thread);
    return threads != 0 && (threads & kernelsun_bit(thread)) == 0;
}

/* Under the mutex: what follows from a step's number. */
static void after_step(uint32_t thread, uint32_t number)
{
    switch (number) {
    case KERNELSUN_WENT: break;
    case KERNELSUN_FINISHED: wake_all(); break;
    case KERNELSUN_BLOCKED:
        if (waits_for_others(thread)) {
            sleep_until_news();
        } else {
            stop_at(thread, "step", "BLOCKED, though no other thread has the lock");
        }
        break;
    default: stop_at(thread, "step", kernelsun_name(number));
    }
}

/* Does one line, or sleeps if it is blocked. Gives 1 if the thread may go on. */
static int step_once(uint32_t thread, uint64_t *result)
{
    enter();
    if (!stopped) {
        *result = step(area, sizeof area, thread);
        after_step(thread, kernelsun_number(*result));
    }
    int good = !stopped;
    leave();
    return good;
}

/* An operation from begin to answer. Gives 1 if it finished; if not, all threads stop. */
static int operate(uint32_t thread, uint32_t op, uint32_t n, uint32_t content, uint32_t *answer)
{
    uint64_t result;
    if (!open_operation(thread, op, n, content)) {
        return 0;
    }
    while (step_once(thread, &result)) {
        if (kernelsun_number(result) == KERNELSUN_FINISHED) {
            *answer = kernelsun_value(result);
            return 1;
        }
        /* Not needed: it has the threads take turns by lines, and so meet more often. */
        sched_yield();
    }
    return 0;
}

static int write_block(uint32_t thread, uint32_t n, uint32_t content)
{
    uint32_t none;
    return operate(thread, KERNELSUN_WRITE, n, content, &none);
}

static int erase_block(uint32_t thread, uint32_t n)
{
    uint32_t none;
    return operate(thread, KERNELSUN_UNMAP, n, 0, &none);
}

/* Reads a block. Gives 1 if it holds what it should; if not, all threads stop. */
static int holds(uint32_t thread, uint32_t n, uint32_t content)
{
    uint32_t found;
    if (!operate(thread, KERNELSUN_READ, n, 0, &found)) {
        return 0;
    }
    if (found != content) {
        enter();
        fprintf(stderr, "recorder: thread %u: block %u holds %u and not %u\n", (unsigned)thread,
                (unsigned)n, (unsigned)found, (unsigned)content);
        stop_all();
        leave();
    }
    return found == content;
}

/* ---- A track ---- */

static uint32_t block_of(const track *t, uint32_t slot)
{
    return FIRST_SLOT + SLOTS * t->thread + slot;
}

/* A content for each sound of each track, for the title and for the archive: all different. */
static uint32_t sound(uint32_t thread, uint32_t index)
{
    return (thread + 1) << 16 | (index + 1);
}

static uint32_t old_sound(uint32_t n)
{
    return sound(THREADS, n);
}

static int erase_slot(track *t, uint32_t slot)
{
    t->kept[slot] = EMPTY;
    return erase_block(t->thread, block_of(t, slot));
}

/* Records over the oldest sound, and listens to it, to the one that is now oldest, to the title. */
static int record(track *t, uint32_t index)
{
    uint32_t slot = index % SLOTS, oldest = (index + 1) % SLOTS, older = (index + 2) % SLOTS;
    t->kept[slot] = sound(t->thread, index);
    return write_block(t->thread, block_of(t, slot), t->kept[slot]) &&
           holds(t->thread, block_of(t, slot), t->kept[slot]) &&
           holds(t->thread, block_of(t, oldest), t->kept[oldest]) &&
           holds(t->thread, TITLE, old_sound(TITLE)) &&
           (index % ERASES_EVERY != 0 || erase_slot(t, older));
}

static void *run_track(void *argument)
{
    track *t = argument;
    while (t->sounds < SOUNDS && record(t, t->sounds)) {
        t->sounds++;
    }
    /* So that in the end a worn block is free. */
    if (t->sounds == SOUNDS) {
        erase_slot(t, (SOUNDS - 1) % SLOTS);
    }
    enter();
    tracks_open--;
    wake_all();
    leave();
    return NULL;
}

/* ---- The leveller ---- */

/* Whether a track is open. If so, and if there was nothing to move, sleeps before it looks. */
static int tracks_go_on(int moved)
{
    enter();
    if (!moved && tracks_open > 0 && !stopped) {
        sleep_until_news();
    }
    int open = tracks_open > 0;
    leave();
    return open;
}

/*
 * Levels until all tracks have ended and nothing is left to move. It asks for
 * the tracks before it levels, so that one levelling at least comes after them.
 */
static void *run_leveller(void *argument)
{
    uint32_t *moves = argument, moved = 1;
    int open;
    do {
        open = tracks_go_on(moved != 0);
        if (!operate(LEVELLER, KERNELSUN_LEVEL, 0, 0, &moved)) {
            break;
        }
        *moves += moved;
    } while (open || moved);
    return NULL;
}

/* ---- The recording ---- */

/*
 * A title and an archive on unworn blocks, and old tracks that were erased so
 * often that the blocks after those are worn. The tracks find their blocks among
 * these, as long as nothing was moved: so the leveller has something to move,
 * when the tracks have ended at the latest.
 */
static int make_old_recording(void)
{
    uint64_t result = format(area, sizeof area, THREADS, LOGICAL, PHYSICAL, DISTANCE);
    if (kernelsun_number(result) != KERNELSUN_WENT) {
        fprintf(stderr, "recorder: format gave %s\n", kernelsun_name(kernelsun_number(result)));
        return 0;
    }
    int good = 1;
    for (uint32_t n = TITLE; n < FIRST_SLOT; n++) {
        good = good && write_block(LEVELLER, n, old_sound(n));
    }
    for (int times = 0; times < DISTANCE; times++) {
        for (uint32_t n = FIRST_SLOT; n < LOGICAL; n++) {
            good = good && write_block(LEVELLER, n, old_sound(n));
        }
        for (uint32_t n = FIRST_SLOT; n < LOGICAL; n++) {
            good = good && erase_block(LEVELLER, n);
        }
    }
    return good;
}

/* Under the mutex: starts a thread of the system. Gives 1 if it runs. */
static int start(pthread_t *handle, void *(*run)(void *), void *argument)
{
    int error = pthread_create(handle, NULL, run, argument);
    if (error != 0) {
        fprintf(stderr, "recorder: pthread_create: %s\n", strerror(error));
        stop_all();
    }
    return error == 0;
}

/*
 * Starts all threads and waits for each that was started. Gives 1 if nothing
 * failed. It keeps the mutex until the last is there, so that all go at once.
 */
static int run_all(track tracks[TRACKS], uint32_t *moves)
{
    pthread_t handles[THREADS];
    uint32_t started = 0;
    enter();
    tracks_open = TRACKS;
    while (started < TRACKS && start(&handles[started], run_track, &tracks[started])) {
        started++;
    }
    if (started == TRACKS && start(&handles[started], run_leveller, moves)) {
        started++;
    }
    leave();
    for (uint32_t i = 0; i < started; i++) {
        must(pthread_join(handles[i], NULL), "pthread_join");
    }
    return !stopped;
}

/* ---- What is there in the end, when main is alone again ---- */

static int all_kept(const track tracks[TRACKS])
{
    int good = 1;
    for (uint32_t n = TITLE; n < FIRST_SLOT; n++) {
        good = good && holds(LEVELLER, n, old_sound(n));
    }
    for (int i = 0; i < TRACKS; i++) {
        for (uint32_t slot = 0; slot < SLOTS; slot++) {
            good = good && holds(LEVELLER, block_of(&tracks[i], slot), tracks[i].kept[slot]);
        }
    }
    return good;
}

/* No thread has open work, and nothing is held or owned. */
static int at_rest(void)
{
    int rest = kernelsun_lock_h(area) == KERNELSUN_NONE &&
               kernelsun_headers_owner(area) == KERNELSUN_NONE;
    for (uint32_t thread = 0; thread < THREADS; thread++) {
        rest = rest && kernelsun_operation(area, thread) == 0;
    }
    for (uint32_t n = 0; n < LOGICAL; n++) {
        rest = rest && kernelsun_lock_writer(area, n) == KERNELSUN_NONE &&
               kernelsun_lock_readers(area, n) == 0;
    }
    for (uint32_t p = 0; p < PHYSICAL; p++) {
        rest = rest && kernelsun_block_writer(area, p) == KERNELSUN_NONE &&
               kernelsun_block_readers(area, p) == 0;
    }
    return rest;
}

/*
 * Each mapped number's block names it in its header, and each block that names
 * a number is the one that it is mapped to. A header names one number, so that
 * no two numbers share a block.
 */
static int map_is_sound(void)
{
    int agree = 1;
    for (uint32_t n = 0; n < LOGICAL; n++) {
        uint32_t p = kernelsun_map(area, n);
        agree = agree && (p == KERNELSUN_NONE || kernelsun_header(area, p) == n);
    }
    for (uint32_t p = 0; p < PHYSICAL; p++) {
        uint32_t n = kernelsun_header(area, p);
        agree = agree && (n == KERNELSUN_NONE || kernelsun_map(area, n) == p);
    }
    return agree;
}

static int check(int good, const char *else_says)
{
    if (!good) {
        fprintf(stderr, "recorder: %s\n", else_says);
    }
    return good;
}

int main(void)
{
    static track tracks[TRACKS];
    uint32_t moves = 0, sounds = 0;
    for (uint32_t thread = 0; thread < TRACKS; thread++) {
        tracks[thread].thread = thread;
    }
    if (!make_old_recording() || !run_all(tracks, &moves) || !all_kept(tracks) ||
        !check(at_rest(), "a thread, a lock or an owner is left over") ||
        !check(map_is_sound(), "map and headers don't agree") ||
        !check(moves > 0, "levelling moved nothing")) {
        return 1;
    }
    for (int i = 0; i < TRACKS; i++) {
        sounds += tracks[i].sounds;
    }
    printf("%d tracks recorded %u sounds at once, and each came back.\n"
           "Levelling moved contents, until nothing was left to move.\n"
           "In the end each block holds what was written last, and the area is at rest.\n",
           TRACKS, (unsigned)sounds);
    return check(fflush(stdout) == 0, "nothing could be printed") ? 0 : 1;
}
