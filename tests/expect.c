/* See expect.h. */
#include "expect.h"

#include <stdio.h>
#include <stdlib.h>
#include <string.h>

static const char *subject = "";
static unsigned long expectations;

void about(const char *what)
{
    subject = what;
}

static void fail(const area *before, const call *c, uint64_t found, uint64_t wanted,
                 const area *found_after, const area *wanted_after)
{
    printf("FAILED: %s\n  call ", subject);
    print_call(c);
    printf(" on %u bytes\n  gave   ", (unsigned)before->len);
    print_result(found);
    printf("\n  wanted ");
    print_result(wanted);
    printf("\n");
    print_differences(before, "gave", found_after, "wanted", wanted_after);
    exit(1);
}

void expect_area(area *a, call c, uint32_t number, uint32_t value, const area *after)
{
    static area before;
    before = *a;
    uint64_t wanted = (uint64_t)number << 32 | value;
    uint64_t found = through_door(&c, a);
    expectations++;
    if (found != wanted || memcmp(a->bytes, after->bytes, a->len) != 0) {
        fail(&before, &c, found, wanted, a, after);
    }
}

void apply(area *a, const edit *changes, size_t count)
{
    for (size_t i = 0; i < count; i++) {
        put_word(a->bytes, changes[i].word, changes[i].value);
    }
}

void expect_changes(area *a, call c, uint32_t number, uint32_t value, const edit *changes,
                    size_t count)
{
    static area after;
    after = *a;
    apply(&after, changes, count);
    expect_area(a, c, number, value, &after);
}

void expect_refusal(area *a, call c, uint32_t number)
{
    expect_changes(a, c, number, 0, NULL, 0);
}

void expect_equal(const char *what, uint32_t found, uint32_t wanted)
{
    expectations++;
    if (found != wanted) {
        printf("FAILED: %s\n  %s: found %u, wanted %u\n", subject, what, (unsigned)found,
               (unsigned)wanted);
        exit(1);
    }
}

void expect_text(const char *what, const char *found, const char *wanted)
{
    expectations++;
    if (strcmp(found, wanted) != 0) {
        printf("FAILED: %s\n  %s: found \"%s\", wanted \"%s\"\n", subject, what, found, wanted);
        exit(1);
    }
}

void fill(area *a, size_t len, uint8_t byte)
{
    a->len = len;
    memset(a->bytes, byte, sizeof a->bytes);
}

void make_fresh(area *a, uint32_t t, uint32_t n, uint32_t p, uint32_t d)
{
    fill(a, KERNELSUN_LENGTH(t, n, p), 0);
    const edit head[] = {
        {KERNELSUN_AT_T, t}, {KERNELSUN_AT_N, n}, {KERNELSUN_AT_P, p}, {KERNELSUN_AT_D, d}};
    apply(a, head, sizeof head / sizeof head[0]);
}

void expect_begins(area *a, uint32_t thread, uint32_t op, uint32_t n, uint32_t c)
{
    call start = call_begin(thread, op, n, c);
    expect_equal("begin", kernelsun_number(through_door(&start, a)), KERNELSUN_WENT);
}

void expect_steps(area *a, uint32_t thread, uint32_t count, uint32_t number)
{
    call c = call_step(thread);
    for (uint32_t i = 0; i < count; i++) {
        uint64_t given = through_door(&c, a);
        expect_equal("number", kernelsun_number(given), number);
        expect_equal("value", kernelsun_value(given), 0);
    }
}

run whole(area *a, uint32_t thread, uint32_t op, uint32_t n, uint32_t c)
{
    call next = call_step(thread);
    run r = {0, 0};
    uint64_t given = 0;
    expect_begins(a, thread, op, n, c);
    while (kernelsun_number(given) == KERNELSUN_WENT && r.steps < 2 * LINES_MOST) {
        given = through_door(&next, a);
        r.steps++;
    }
    expect_equal("number at the end", kernelsun_number(given), KERNELSUN_FINISHED);
    r.value = kernelsun_value(given);
    return r;
}

int all_met(const char *program)
{
    printf("%s: %lu expectations met\n", program, expectations);
    return 0;
}
