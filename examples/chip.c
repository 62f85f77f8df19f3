/*
 * A driver beside the layer: what a flash chip does at which line.
 *
 * The chip here is a mock of a few blocks, each with a header and a content that
 * can be programmed once after an erase, and not again. step_and_act() does a
 * line and then the chip's part of it, by the table of docs/USING.md, "The
 * lines". main() has three tracks write, overwrite, read and erase while a
 * leveller runs, and holds the chip to the area after each line.
 *
 * The area is saved after each call. Every now and then power goes, at any of
 * the chip's own steps or before the save. Then the thread whose line was under
 * way stands before it in the save, the chip may have done all or a part of it,
 * and the next step does it again. So each action here can be done again: what
 * is not blank is erased before it is programmed.
 *
 * A content is one word here, so the chip's content is that word. Where a block
 * holds a page, let the word be a running number or a checksum, and the driver
 * carry the page: it has a buffer for each thread, which a caller fills before
 * the begin of a write, and programs it at W14, fills it from the chip at R4 and
 * L8, and programs it at L11. It saves the buffers of open writes with the area,
 * and fills that of a levelling from block p again.
 *
 * Built with: cc -std=c99 examples/chip.c $(pkg-config --cflags --libs kernelsun)
 * or, in the tree: cc -std=c99 -Iinclude examples/chip.c target/staticlib/libkernelsun.a
 */
#include <setjmp.h>
#include <stdio.h>
#include <stdlib.h>
#include <string.h>

#include "kernelsun.h"
#include "kernelsun_view.h"

enum { TRACKS = 3, LEVELLER = TRACKS, THREADS };

enum { LOGICAL = 6, PHYSICAL = 9, DISTANCE = 3 };

/* How many calls are made, and how many saves and steps of the chip power lasts at most. */
enum { CALLS = 40000, POWER_MOST = 300 };

static uint8_t area[KERNELSUN_LENGTH(THREADS, LOGICAL, PHYSICAL)];

static void stop_unless(int good, const char *what)
{
    if (!good) {
        fprintf(stderr, "chip: %s\n", what);
        exit(1);
    }
}

/* The same numbers in each run. */
static uint32_t dice(uint32_t below)
{
    static uint32_t state = 2463534242u;
    state ^= state << 13;
    state ^= state >> 17;
    state ^= state << 5;
    return state % below;
}

/* ---- Power ---- */

static jmp_buf power_gone;
static uint32_t power_left;
static uint32_t cuts;

/* Before each thing that outlives a loss of power. */
static void use_power(void)
{
    if (power_left == 0) {
        longjmp(power_gone, 1);
    }
    power_left--;
}

/* ---- The chip ---- */

typedef struct {
    int has_header, has_content;
    uint32_t header, content;
    uint32_t erases;
} chip_block;

static chip_block chip[PHYSICAL];

static void erase(uint32_t p)
{
    use_power();
    chip[p].has_header = chip[p].has_content = 0;
    chip[p].erases++;
}

static void program_header(uint32_t p, uint32_t n)
{
    use_power();
    stop_unless(!chip[p].has_header, "a header was programmed twice");
    chip[p].has_header = 1;
    chip[p].header = n;
}

static void program_content(uint32_t p, uint32_t c)
{
    use_power();
    stop_unless(!chip[p].has_content, "a content was programmed twice");
    chip[p].has_content = 1;
    chip[p].content = c;
}

/* ---- The driver: a line's part for the chip, which may be done again ---- */

/* For compare_contents() alone: a driver keeps neither, and erases alike in both cases. */
static uint32_t uncounted[PHYSICAL]; /* erases that the layer's wear does not count */
static int is_due[PHYSICAL];         /* an erase that W3 counts, and that is done at W14 */

static void erase_uncounted(uint32_t p)
{
    erase(p);
    uncounted[p]++;
}

static int is_blank(uint32_t p)
{
    return !chip[p].has_header && !chip[p].has_content;
}

static void put_header(uint32_t p, uint32_t n)
{
    if (!is_blank(p)) {
        erase_uncounted(p);
    }
    program_header(p, n);
}

/* The one that W3 counted, while it is due; else one for a line that is done again, uncounted. */
static void erase_to_rewrite(uint32_t p)
{
    if (is_due[p]) {
        erase(p);
        is_due[p] = 0;
    } else {
        erase_uncounted(p);
    }
}

/* A content can't be put over another. Power may have gone between erase and header. */
static void put_content(uint32_t p, uint32_t n, uint32_t c)
{
    if (chip[p].has_content) {
        erase_to_rewrite(p);
    }
    if (!chip[p].has_header) {
        program_header(p, n);
    }
    program_content(p, c);
}

static void header_of_p(uint32_t thread)
{
    put_header(kernelsun_register_p(area, thread), kernelsun_register_n(area, thread));
}

static void header_of_q(uint32_t thread)
{
    put_header(kernelsun_register_q(area, thread), kernelsun_register_n(area, thread));
}

static void content_of_p(uint32_t thread)
{
    put_content(kernelsun_register_p(area, thread), kernelsun_register_n(area, thread),
                kernelsun_register_c(area, thread));
}

static void content_of_q(uint32_t thread)
{
    put_content(kernelsun_register_q(area, thread), kernelsun_register_n(area, thread),
                kernelsun_register_c(area, thread));
}

/* The word stands in the area too, so that here the two can be compared. */
static void read_of_p(uint32_t thread)
{
    uint32_t p = kernelsun_register_p(area, thread);
    stop_unless(chip[p].has_content && chip[p].content == kernelsun_register_c(area, thread),
                "the chip holds another content");
}

static void erase_of_p(uint32_t thread)
{
    uint32_t p = kernelsun_register_p(area, thread);
    if (!is_blank(p)) {
        erase(p);
    }
}

typedef struct {
    const char *label;
    void (*act)(uint32_t thread);
    uint32_t (*block)(const uint8_t *bytes, uint32_t thread);
} part;

static const part parts[] = {
    {"W7", header_of_p, kernelsun_register_p},   {"W14", content_of_p, kernelsun_register_p},
    {"R4", read_of_p, kernelsun_register_p},     {"U7", erase_of_p, kernelsun_register_p},
    {"L8", read_of_p, kernelsun_register_p},     {"L10", header_of_q, kernelsun_register_q},
    {"L11", content_of_q, kernelsun_register_q}, {"L13", erase_of_p, kernelsun_register_p}};

/* The chip's part of the line at which a thread stands; NULL where it has none. */
static const part *part_of(uint32_t thread)
{
    const char *label = kernelsun_thread_label(area, thread);
    for (size_t i = 0; i < sizeof parts / sizeof parts[0]; i++) {
        if (strcmp(label, parts[i].label) == 0) {
            return &parts[i];
        }
    }
    return NULL;
}

/* ---- Holding the chip to the area ---- */

/* Since power went, this thread has not been stepped: its line may be done on the chip. */
static int may_be_done[THREADS];

static int is_in_doubt(uint32_t p)
{
    for (uint32_t thread = 0; thread < THREADS; thread++) {
        const part *its = part_of(thread);
        if (may_be_done[thread] && its != NULL && its->block(area, thread) == p) {
            return 1;
        }
    }
    return 0;
}

/* After each line. */
static void compare_headers(void)
{
    for (uint32_t p = 0; p < PHYSICAL; p++) {
        uint32_t n = kernelsun_header(area, p);
        if (is_in_doubt(p)) {
            continue;
        }
        stop_unless(chip[p].has_header == (n != KERNELSUN_NONE),
                    "free in one and not in the other");
        stop_unless(n == KERNELSUN_NONE || chip[p].header == n, "headers differ");
    }
}

/* Where no operation is open. */
static void compare_contents(void)
{
    for (uint32_t p = 0; p < PHYSICAL; p++) {
        stop_unless(kernelsun_header(area, p) == KERNELSUN_NONE ||
                        chip[p].content == kernelsun_content(area, p),
                    "contents differ");
        stop_unless(chip[p].erases == kernelsun_wear(area, p) + uncounted[p],
                    "an erase was counted wrongly");
    }
}

/* ---- A step and the chip's part of it, and the save ---- */

static uint8_t saved[sizeof area];

static void save(void)
{
    use_power();
    memcpy(saved, area, sizeof area);
}

/* Before a thread's line: where that is W3 and its number is mapped, an erase is due. */
static void note_rewrite(uint32_t thread)
{
    uint32_t p = kernelsun_map(area, kernelsun_register_n(area, thread));
    if (strcmp(kernelsun_thread_label(area, thread), "W3") == 0 && p != KERNELSUN_NONE) {
        is_due[p] = 1;
    }
}

/* The line is looked at before the step, which moves the thread on, and the registers after it. */
static uint32_t step_and_act(uint32_t thread)
{
    const part *its = part_of(thread);
    note_rewrite(thread);
    uint32_t number = kernelsun_number(step(area, sizeof area, thread));
    stop_unless(number <= KERNELSUN_BLOCKED, kernelsun_name(number));
    if (number != KERNELSUN_BLOCKED && its != NULL) {
        its->act(thread);
    }
    may_be_done[thread] = 0;
    compare_headers();
    save();
    return number;
}

/* What stood in memory is gone. Each thread may stand before a line that the chip has done. */
static void bring_back(void)
{
    memcpy(area, saved, sizeof area);
    for (uint32_t thread = 0; thread < THREADS; thread++) {
        may_be_done[thread] = 1;
    }
    compare_headers();
    power_left = dice(POWER_MOST);
    cuts++;
}

/* ---- The recording ---- */

static uint32_t calls, moved;

static void open_something(uint32_t thread)
{
    static const uint32_t ops[] = {KERNELSUN_WRITE, KERNELSUN_WRITE, KERNELSUN_READ,
                                   KERNELSUN_UNMAP};
    uint32_t op = thread == LEVELLER ? KERNELSUN_LEVEL : ops[dice(4)];
    /* Block 0 is written once and stays. */
    uint32_t n = op == KERNELSUN_READ ? dice(LOGICAL) : 1 + dice(LOGICAL - 1);
    uint64_t result = begin(area, sizeof area, thread, op, n, dice(1000) + 1);
    stop_unless(kernelsun_number(result) == KERNELSUN_WENT, "begin was refused");
    may_be_done[thread] = 0;
    save();
}

static void call_something(void)
{
    uint32_t thread = dice(THREADS);
    calls++;
    if (kernelsun_operation(area, thread) == 0) {
        open_something(thread);
    } else {
        int moves = strcmp(kernelsun_thread_label(area, thread), "L13") == 0;
        step_and_act(thread);
        moved += (uint32_t)moves;
    }
}

static void end_open_work(void)
{
    for (int open = 1; open;) {
        open = 0;
        for (uint32_t thread = 0; thread < THREADS; thread++) {
            if (kernelsun_operation(area, thread) != 0) {
                open = 1;
                step_and_act(thread);
            }
        }
    }
}

static void make_title(void)
{
    uint64_t result = begin(area, sizeof area, LEVELLER, KERNELSUN_WRITE, 0, 1955);
    stop_unless(kernelsun_number(result) == KERNELSUN_WENT, "begin was refused");
    end_open_work();
}

int main(void)
{
    uint64_t result = format(area, sizeof area, THREADS, LOGICAL, PHYSICAL, DISTANCE);
    stop_unless(kernelsun_number(result) == KERNELSUN_WENT, "format was refused");
    /* The chip is erased, as one has to be before format; its erases are not in the wear. */
    memset(chip, 0, sizeof chip);
    power_left = CALLS;
    make_title();

    power_left = 0;
    if (setjmp(power_gone) != 0) {
        bring_back();
    }
    while (calls < CALLS) {
        call_something();
    }
    power_left = CALLS;
    end_open_work();
    compare_contents();
    stop_unless(moved > 0, "levelling never moved a content");
    stop_unless(cuts > CALLS / POWER_MOST, "power hardly ever went");
    printf("%u calls, power gone %u times, %u contents moved: chip and area agree\n",
           (unsigned)calls, (unsigned)cuts, (unsigned)moved);
    return 0;
}
