/*
 * watch: runs a script of format, begin and step lines for people at the bench.
 * After each line it prints the answer in words and the state of the store, at
 * once, so that it can be typed at. The script's form, what is printed and the
 * exit status stand in docs/USING.md.
 *
 * Every answer is the door's own. Why it is what it is, is looked up in the area
 * afterwards.
 */
#define _POSIX_C_SOURCE 200809L /* for isatty */

#include <errno.h>
#include <stdio.h>
#include <string.h>
#include <unistd.h>

#include "help.h"
#include "kernelsun.h"
#include "page.h"
#include "parse.h"
#include "show.h"

enum { STATUS_GOOD = 0, STATUS_BAD_LINE = 1, STATUS_TROUBLE = 2 };

/* The name under which it was called: it is installed as another one. */
static const char *program = "watch";

static int states = 1; /* whether they are shown */

/* The store. While there is none, len is 0, and the door says that this is no area. */
static uint8_t area[KERNELSUN_LENGTH_MOST];
static size_t len;

/* ---- Calls ---- */

/* A refused format leaves each byte as it was, and so the earlier store. */
static uint64_t make_store(const uint32_t size[4])
{
    size_t fresh = KERNELSUN_LENGTH(size[0], size[1], size[2]);
    uint64_t result;
    if (fresh > sizeof area) {
        fresh = sizeof area; /* sizes beyond the limits, which are refused before the length */
    }
    result = format(area, fresh, size[0], size[1], size[2], size[3]);
    if (kernelsun_number(result) == KERNELSUN_WENT) {
        len = fresh;
    }
    return result;
}

static uint64_t call(const command *c)
{
    const uint32_t *a = c->argument;
    switch (c->kind) {
    case COMMAND_FORMAT: return make_store(a);
    case COMMAND_BEGIN: return begin(area, len, a[0], a[1], a[2], a[3]);
    default: return step(area, len, a[0]);
    }
}

/* Somebody may be waiting for the answer, so it leaves at once. */
static int written(void)
{
    if (fflush(stdout) == 0 && !ferror(stdout)) {
        return 1;
    }
    if (errno != EPIPE) { /* where the reader has gone, nobody asks why */
        fprintf(stderr, "%s: standard output: %s\n", program, strerror(errno));
    }
    return 0;
}

/* Makes the call of a line and shows it. Gives 0 where that can't be written. */
static int run_call(uint64_t number, const script_line *line, const command *c, uint64_t *result)
{
    static uint8_t before[KERNELSUN_LENGTH_MOST];
    call_made made = {*c, 0, before, area, 0};
    memcpy(before, area, len);
    made.result = *result = call(c);
    made.len = len;
    show_answer(number, line, &made);
    if (len != 0 && states) {
        show_state(area);
    }
    return written();
}

/* A run is steps for as long as they go, each shown as if it had been written there. */
static int run_command(uint64_t number, script_line *line, command *c)
{
    int again = c->kind == COMMAND_RUN;
    uint64_t result;
    if (again) {
        c->kind = COMMAND_STEP;
        strcpy(line->fields[0], "s");
    }
    do {
        if (!run_call(number, line, c, &result)) {
            return STATUS_TROUBLE;
        }
    } while (again && kernelsun_number(result) == KERNELSUN_WENT);
    return STATUS_GOOD;
}

/* ---- The script ---- */

static int unreadable(const char *name)
{
    fprintf(stderr, "%s: %s: %s\n", program, name, strerror(errno));
    return STATUS_TROUBLE;
}

/* A comment that stands alone tells what comes next, and is shown for that. */
static int run_comment(FILE *in, uint64_t number)
{
    int good;
    show_number(number);
    good = comment_read(in, stdout);
    end_line();
    return good && written() ? STATUS_GOOD : STATUS_TROUBLE;
}

static int run_line(FILE *in, const char *name, uint64_t number, script_line *line)
{
    command c;
    char reason[REASON_SIZE];
    if (line->count == 0) {
        return line->comment ? run_comment(in, number) : STATUS_GOOD;
    }
    if (line->comment && !comment_read(in, NULL)) {
        return STATUS_TROUBLE;
    }
    if (!line_parse(line, &c, reason)) {
        fprintf(stderr, "%s: %s:%llu: %s\n", program, name, (unsigned long long)number, reason);
        return STATUS_BAD_LINE;
    }
    return run_command(number, line, &c);
}

/* A bad line in a file makes what follows doubtful. Who types can type it again. */
static int run_script(FILE *in, const char *name)
{
    int typed = in == stdin && isatty(STDIN_FILENO), worst = STATUS_GOOD;
    script_line line;
    for (uint64_t number = 1; line_read(in, &line); number++) {
        int status = run_line(in, name, number, &line);
        worst = status > worst ? status : worst;
        if (status == STATUS_TROUBLE || (status == STATUS_BAD_LINE && !typed)) {
            break;
        }
    }
    return ferror(in) ? unreadable(name) : worst;
}

/* ---- The arguments ---- */

static int wrong(const char *argument, const char *why)
{
    fprintf(stderr, "%s: \"%s\" %s\n", program, argument, why);
    show_usage(stderr, program);
    return STATUS_TROUBLE;
}

static int run_file(const char *name)
{
    FILE *in = stdin;
    int status;
    if (strcmp(name, "-") == 0) {
        name = "standard input";
    } else if ((in = fopen(name, "r")) == NULL) {
        return unreadable(name);
    }
    status = run_script(in, name);
    if (ferror(stdout)) {
        return STATUS_TROUBLE;
    }
    show_open(area, len);
    show_wear(area, len);
    return written() ? status : STATUS_TROUBLE;
}

static void take_name(const char *path)
{
    const char *slash = path == NULL ? NULL : strrchr(path, '/');
    const char *last = slash == NULL ? path : slash + 1;
    if (last != NULL && *last != '\0') {
        program = last;
    }
}

static int is_option(const char *argument)
{
    return argument[0] == '-' && argument[1] != '\0';
}

int main(int argc, char **argv)
{
    int i = 1;
    take_name(argv[0]);
    for (; i < argc && is_option(argv[i]); i++) {
        if (strcmp(argv[i], "--help") == 0 || strcmp(argv[i], "-h") == 0) {
            show_help(program);
            return written() ? STATUS_GOOD : STATUS_TROUBLE;
        }
        if (strcmp(argv[i], "--answers") != 0) {
            return wrong(argv[i], "is no option");
        }
        states = 0;
    }
    if (i + 1 < argc) {
        return wrong(argv[i + 1], "is too much");
    }
    return run_file(i < argc ? argv[i] : "-");
}
