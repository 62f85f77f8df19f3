/* Answers in words. See show.h. */
#include "show.h"

#include <string.h>

#include "kernelsun_view.h"
#include "page.h"

/* Most lines of a script have at most 16 signs, and their answers begin below one another. */
enum { ANSWER_AT = STATE_AT + 16 + 2 };

/* ---- Refusals and waits ---- */

static void add_limit(const char *name, uint32_t value, uint32_t least, uint32_t most)
{
    if (value < least || value > most) {
        add(", %s is %u, not %u to %u", name, (unsigned)value, (unsigned)least, (unsigned)most);
    }
}

/* Where N is no size, there is no least P, but still a most. */
static void add_limits(const uint32_t size[4])
{
    uint32_t n = size[1];
    add_limit("T", size[0], KERNELSUN_THREADS_LEAST, KERNELSUN_THREADS_MOST);
    add_limit("N", n, KERNELSUN_LOGICAL_LEAST, KERNELSUN_LOGICAL_MOST);
    if (n >= KERNELSUN_LOGICAL_LEAST && n <= KERNELSUN_LOGICAL_MOST) {
        add_limit("P", size[2], KERNELSUN_PHYSICAL_LEAST(n), KERNELSUN_PHYSICAL_MOST);
    } else if (size[2] > KERNELSUN_PHYSICAL_MOST) {
        add(", P is %u, more than %u", (unsigned)size[2], (unsigned)KERNELSUN_PHYSICAL_MOST);
    }
    add_limit("D", size[3], KERNELSUN_DISTANCE_LEAST, KERNELSUN_DISTANCE_MOST);
}

/* Behind who waits: for which lock, and where those stand that have it. Gives the last of them. */
static uint32_t add_wait(const uint8_t *area, uint32_t waiting)
{
    uint32_t lock = kernelsun_next_lock(area, waiting), last = waiting;
    uint32_t threads = kernelsun_waits_for(area, waiting);
    const char *gap = kernelsun_lock_readers(area, lock) != 0 ? ", read by" : ", held by";
    if (lock == KERNELSUN_LOCK_H) {
        add(" waits for H");
    } else {
        add(" waits for lock %u", (unsigned)lock);
    }
    for (uint32_t t = 0; t < kernelsun_t(area); t++) {
        if ((threads & kernelsun_bit(t)) != 0) {
            add("%s t%u at %s", gap, (unsigned)t, kernelsun_thread_label(area, t));
            gap = ",";
            last = t;
        }
    }
    return last;
}

/* Whom a blocked thread waits for, and whom that one does: a writer may wait in its turn, a reader
   takes no other lock. Where only calls have changed the area, no chain comes back to a thread, so
   none is longer than there are threads. */
static void add_waits(const uint8_t *area, uint32_t thread)
{
    uint32_t waiting = thread;
    for (uint32_t hop = 0; hop < kernelsun_t(area); hop++) {
        if (kernelsun_waits_for(area, waiting) == 0) {
            return;
        }
        if (hop == 0) {
            add(", t%u", (unsigned)thread);
        } else {
            add(", which");
        }
        waiting = add_wait(area, waiting);
    }
}

/* Why a call was refused: the numbers that the refusal is about. */
static void add_refusal(const call_made *made)
{
    const uint8_t *area = made->after;
    const uint32_t *given = made->asked.argument;
    unsigned thread = given[0];
    switch (kernelsun_number(made->result)) {
    case KERNELSUN_SHAPE:
        add(made->len == 0 ? ", no store yet" : ", the area is not well formed");
        break;
    case KERNELSUN_THREAD: add(", thread %u, T is %u", thread, (unsigned)kernelsun_t(area)); break;
    case KERNELSUN_BUSY:
        add(", t%u has an open %s at %s", thread,
            kernelsun_operation_name(kernelsun_operation(area, thread)),
            kernelsun_thread_label(area, thread));
        break;
    case KERNELSUN_IDLE: add(", t%u has no open operation", thread); break;
    case KERNELSUN_LOGICAL:
        add(", number %u, N is %u", (unsigned)given[2], (unsigned)kernelsun_n(area));
        break;
    case KERNELSUN_OPERATION:
        add(", %u is none of 1 write, 2 read, 3 unmap, 4 level", (unsigned)given[1]);
        break;
    case KERNELSUN_LIMITS:
        add_limits(given);
        add(made->len == 0 ? "" : ", the earlier store stays");
        break;
    case KERNELSUN_BLOCKED: add_waits(area, thread); break;
    default: break;
    }
}

/* ---- What was begun, and what came of it ---- */

static void add_opened(const uint8_t *area, uint32_t thread)
{
    uint32_t op = kernelsun_operation(area, thread);
    add(", t%u opens %s", (unsigned)thread, kernelsun_operation_name(op));
    if (op != KERNELSUN_LEVEL) {
        add(" of %u", (unsigned)kernelsun_register_n(area, thread));
    }
    if (op == KERNELSUN_WRITE) {
        add(" with %u", (unsigned)kernelsun_register_c(area, thread));
    }
}

/* A finished operation's value. Write and unmap have none to tell. A read's 0 is the empty content
   or one that was written: which, the map says while the read still holds the number's lock. */
static void add_value(const uint8_t *before, uint32_t thread, uint32_t value)
{
    uint32_t op = kernelsun_operation(before, thread);
    if (op == KERNELSUN_READ) {
        uint32_t block = kernelsun_map(before, kernelsun_register_n(before, thread));
        add(", read %u%s", (unsigned)value, block == KERNELSUN_NONE ? " (empty)" : "");
    } else if (op == KERNELSUN_LEVEL && value <= 1) {
        add(value == 1 ? ", moved" : ", nothing to move");
    } else if (value != 0) {
        add(", value %u", (unsigned)value);
    }
}

/* ---- What a step found out ---- */

typedef enum { FINDS_NUMBER, FINDS_FREE, FINDS_FROM_TO, FINDS_HEADER, FINDS_CONTENT } finding;

/* The lines that look at something and keep it in their thread's registers. */
static const struct {
    const char *label;
    finding what;
} finders[] = {{"W3", FINDS_NUMBER},  {"W5", FINDS_FREE},    {"R2", FINDS_NUMBER},
               {"R4", FINDS_CONTENT}, {"U3", FINDS_NUMBER},  {"L3", FINDS_FROM_TO},
               {"L4", FINDS_HEADER},  {"L8", FINDS_CONTENT}};

/* A number behind the words for it, or the words for none. */
static void add_whether(const char *where, uint32_t number, const char *none)
{
    if (number == KERNELSUN_NONE) {
        add(" %s", none);
    } else {
        add(" %s %u", where, (unsigned)number);
    }
}

static void add_finding(const uint8_t *area, uint32_t thread, finding what)
{
    unsigned n = kernelsun_register_n(area, thread), p = kernelsun_register_p(area, thread);
    unsigned q = kernelsun_register_q(area, thread);
    switch (what) {
    case FINDS_NUMBER:
        add(", %u is", n);
        add_whether("on block", kernelsun_map(area, n), "unmapped");
        break;
    case FINDS_FREE: add(", picks block %u", p); break;
    case FINDS_FROM_TO:
        add(", from block %u, to block %u%s", p, q, p == q ? ": nothing to move" : "");
        break;
    case FINDS_HEADER:
        add(", header of block %u", p);
        add_whether("names", kernelsun_register_h(area, thread), "is free");
        break;
    case FINDS_CONTENT: add(", finds %u", (unsigned)kernelsun_register_c(area, thread)); break;
    }
}

static void add_findings(const call_made *made)
{
    uint32_t thread = made->asked.argument[0];
    const char *label = kernelsun_thread_label(made->before, thread);
    for (size_t i = 0; i < sizeof finders / sizeof finders[0]; i++) {
        if (strcmp(label, finders[i].label) == 0) {
            add_finding(made->after, thread, finders[i].what);
        }
    }
}

/* ---- What a step changed outside its thread's record ---- */

static void add_lock_change(const char *gained, const char *lost, uint32_t was, uint32_t is)
{
    if (was != is) {
        add(", %s", is == KERNELSUN_NONE ? lost : gained);
    }
}

/* A lock or an owner by its words: the thread that was stepped came to it, to write or to read, or
   left it. Others stay as they were, so that the word grows with the one that comes. */
static void add_holder_change(const char *gained, const char *lost, unsigned index, uint32_t was,
                              uint32_t is)
{
    if (is < was) {
        add(", %s %u", lost, index);
    } else if (is > was) {
        add(", %s %u%s", gained, index, is < KERNELSUN_READER_SETS ? " to read" : "");
    }
}

static void add_number_changes(const uint8_t *before, const uint8_t *after, unsigned n)
{
    uint32_t was = kernelsun_map(before, n), is = kernelsun_map(after, n);
    add_holder_change("takes lock", "releases lock", n, kernelsun_of_lock(before, n),
                      kernelsun_of_lock(after, n));
    if (was != is && is == KERNELSUN_NONE) {
        add(", unmaps %u", n);
    } else if (was != is) {
        add(", maps %u to block %u", n, (unsigned)is);
    }
}

static void add_block_changes(const uint8_t *before, const uint8_t *after, unsigned p)
{
    uint32_t was = kernelsun_header(before, p), is = kernelsun_header(after, p);
    add_holder_change("owns block", "lets go block", p,
                      kernelsun_of_block(before, p, KERNELSUN_BLOCK_OWNER),
                      kernelsun_of_block(after, p, KERNELSUN_BLOCK_OWNER));
    if (was != is) {
        add(", header of block %u", p);
        add_whether("names", is, "is free");
    }
    if (kernelsun_content(before, p) != kernelsun_content(after, p)) {
        add(", content of block %u is %u", p, (unsigned)kernelsun_content(after, p));
    }
    if (kernelsun_wear(before, p) != kernelsun_wear(after, p)) {
        add(", wear of block %u is %u", p, (unsigned)kernelsun_wear(after, p));
    }
}

static void add_changes(const uint8_t *before, const uint8_t *after)
{
    add_lock_change("takes H", "releases H", kernelsun_lock_h(before), kernelsun_lock_h(after));
    add_lock_change("owns headers", "lets go headers", kernelsun_headers_owner(before),
                    kernelsun_headers_owner(after));
    for (uint32_t n = 0; n < kernelsun_n(after); n++) {
        add_number_changes(before, after, n);
    }
    for (uint32_t p = 0; p < kernelsun_p(after); p++) {
        add_block_changes(before, after, p);
    }
}

/* ---- The answer ---- */

/* The line that a step did or tried, if there was one. */
static void add_step_label(const call_made *made)
{
    uint32_t thread = made->asked.argument[0];
    if (made->len != 0 && kernelsun_operation(made->before, thread) != 0) {
        add("t%u %s: ", (unsigned)thread, kernelsun_thread_label(made->before, thread));
    }
}

static void add_answer(const call_made *made)
{
    uint32_t number = kernelsun_number(made->result), thread = made->asked.argument[0];
    if (made->asked.kind == COMMAND_STEP) {
        add_step_label(made);
    }
    add("%s", kernelsun_name(number));
    if (number != KERNELSUN_WENT && number != KERNELSUN_FINISHED) {
        add_refusal(made);
    } else if (made->asked.kind == COMMAND_FORMAT) {
        add(", a fresh store of %u bytes", (unsigned)made->len);
    } else if (made->asked.kind == COMMAND_BEGIN) {
        add_opened(made->after, thread);
    } else {
        if (number == KERNELSUN_FINISHED) {
            add_value(made->before, thread, kernelsun_value(made->result));
        }
        add_findings(made);
        add_changes(made->before, made->after);
    }
}

void show_number(uint64_t number)
{
    add("%llu", (unsigned long long)number);
    go_to(gathered() + 2 < STATE_AT ? STATE_AT - 2 - gathered() : 0);
    print_gathered(0);
    go_to(column() + 2);
}

void show_answer(uint64_t number, const script_line *line, const call_made *made)
{
    show_number(number);
    for (size_t i = 0; i < line->count; i++) {
        add("%s%s", i == 0 ? "" : " ", line->fields[i]);
    }
    print_gathered(STATE_AT);
    go_to(column() + 2 > ANSWER_AT ? column() + 2 : ANSWER_AT);
    add_answer(made);
    print_gathered(ANSWER_AT);
    end_line();
}

