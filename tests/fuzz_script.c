/*
 * Compares the script program with the reference on random scripts: good ones,
 * good ones damaged in a few bytes, and ones at the size limit. The program
 * gets its input from a file or through a pipe in pieces of random size.
 *
 *     fuzz_script STEPTRACE [SEED [COUNT [SECONDS]]]
 *
 * It fails at the first script whose output isn't the reference's byte for
 * byte, if the program is ended by a signal or takes too long, if a number that
 * scripts can give was never met, and if the time ran out before that many
 * scripts were run.
 */
#define _DEFAULT_SOURCE
#include <signal.h>
#include <stdio.h>
#include <stdlib.h>
#include <string.h>
#include <sys/types.h>
#include <sys/wait.h>
#include <time.h>
#include <unistd.h>

#include "chance.h"
#include "kernelsun.h"
#include "reference.h"

#define SEED_DEFAULT 1990u
#define COUNT_DEFAULT 600u
#define SECONDS_DEFAULT 25u

/* A single script runs in a fraction of a second. */
#define SECONDS_FOR_ONE 10u

enum { INPUT_ROOM = 3 * SCRIPT_INPUT_MOST / 2, LINE_MOST = 64, SHOWN_MOST = 800 };

/* The shortest lines have 4 and 5 bytes; every count from 12 on is a sum of these. */
enum { PADDING_LEAST = 12 };

/* The numbers that scripts can give: the table but FAULT, and the program's own two. */
static const uint32_t numbers[] = {0, 1, 2, 10, 11, 12, 13, 14, 15, 17, 19, 20};
enum { NUMBERS = 21 };

typedef struct {
    uint8_t bytes[INPUT_ROOM];
    size_t len;
} script;

static chance dice;
static unsigned long long seed, scripts_run;
static script input;
static unsigned long met[NUMBERS];

/* ---- Making scripts ---- */

static void append(const char *text)
{
    size_t len = strlen(text);
    memcpy(input.bytes + input.len, text, len);
    input.len += len;
}

static uint32_t mostly_below(uint32_t count)
{
    return chance_one_in(&dice, 40) ? chance_hostile(&dice) : chance_below(&dice, count);
}

typedef struct {
    uint32_t t, n;
} shape;

static void append_format(shape *s)
{
    char line[LINE_MOST];
    uint32_t t = chance_between(&dice, 1, 4), n = chance_between(&dice, 1, 4);
    uint32_t p = n + chance_between(&dice, 1, 3), d = chance_between(&dice, 1, 3);
    if (chance_one_in(&dice, 20)) {
        t = chance_hostile(&dice);
    } else if (chance_one_in(&dice, 20)) {
        t = KERNELSUN_THREADS_MOST;
        n = KERNELSUN_LOGICAL_MOST;
        p = KERNELSUN_PHYSICAL_MOST;
    }
    if (t <= KERNELSUN_THREADS_MOST && t > 0) {
        s->t = t;
        s->n = n;
    }
    snprintf(line, sizeof line, "f %u %u %u %u\n", (unsigned)t, (unsigned)n, (unsigned)p,
             (unsigned)d);
    append(line);
}

static void append_begin(const shape *s)
{
    char line[LINE_MOST];
    uint32_t op = chance_one_in(&dice, 40) ? chance_hostile(&dice) : chance_between(&dice, 1, 4);
    snprintf(line, sizeof line, "b %u %u %u %u\n", (unsigned)mostly_below(s->t), (unsigned)op,
             (unsigned)mostly_below(s->n), (unsigned)chance_hostile(&dice));
    append(line);
}

static void append_step(const shape *s)
{
    char line[LINE_MOST];
    snprintf(line, sizeof line, "s %u\n", (unsigned)mostly_below(s->t));
    append(line);
}

static void append_line(shape *s)
{
    if (chance_one_in(&dice, 150)) {
        append_format(s);
    } else if (chance_one_in(&dice, 6)) {
        append_begin(s);
    } else {
        append_step(s);
    }
}

/* Whole lines of that many bytes in all, or as many as fit if there are too few. */
static void make_good(size_t len)
{
    shape s = {2, 2};
    input.len = 0;
    if (len >= LINE_MOST + PADDING_LEAST && !chance_one_in(&dice, 15)) {
        append_format(&s);
    }
    while (input.len + LINE_MOST + PADDING_LEAST <= len) {
        append_line(&s);
    }
    while (input.len < len && (len - input.len) % 4 != 0 && len - input.len >= 5) {
        append("s 10\n");
    }
    while (input.len + 4 <= len) {
        append("s 0\n");
    }
}

static uint8_t some_byte(void)
{
    static const uint8_t bytes[] = " \n\t\r0123456789fbsFBS-+.x#\0\v\f\xff\xc3\xa9";
    return bytes[chance_below(&dice, sizeof bytes - 1)];
}

static void insert_byte(size_t at, uint8_t byte)
{
    memmove(input.bytes + at + 1, input.bytes + at, input.len - at);
    input.bytes[at] = byte;
    input.len++;
}

static void remove_byte(size_t at)
{
    memmove(input.bytes + at, input.bytes + at + 1, input.len - at - 1);
    input.len--;
}

/* The places where the grammar is strict, each broken in the way that a person would. */
static void damage_grammar(void)
{
    static const struct {
        char before, put;
        int in_place;
    } breaks[] = {
        {' ', ' ', 0},  {' ', '\t', 1}, {'\n', ' ', 0},  {'\n', '\r', 0}, {'\n', '\n', 0},
        {'\n', 0, 0},   {'\n', ' ', 1}, {'\n', '\r', 1}, {'s', 'S', 1},   {'b', 'B', 1},
        {'f', 'F', 1},  {'0', '0', 0},  {'1', '0', 0},   {'2', '0', 0},   {'s', ' ', 0},
        {' ', '+', 1},  {'b', 'c', 1},  {'1', '-', 0},
    };
    size_t at = chance_below(&dice, (uint32_t)input.len);
    uint32_t k = chance_below(&dice, sizeof breaks / sizeof breaks[0]);
    while (at < input.len && input.bytes[at] != (uint8_t)breaks[k].before) {
        at++;
    }
    if (at < input.len && breaks[k].in_place) {
        input.bytes[at] = (uint8_t)breaks[k].put;
    } else if (at < input.len) {
        insert_byte(at, (uint8_t)breaks[k].put);
    }
}

static void damage(void)
{
    if (input.len != 0 && chance_one_in(&dice, 2)) {
        damage_grammar();
        return;
    }
    size_t at = chance_below(&dice, (uint32_t)input.len + 1);
    if (at == input.len || chance_one_in(&dice, 3)) {
        insert_byte(at, some_byte());
    } else if (chance_one_in(&dice, 3)) {
        remove_byte(at);
    } else if (chance_one_in(&dice, 4)) {
        input.len = at;
    } else {
        input.bytes[at] = some_byte();
    }
}

static size_t length_near_limit(void)
{
    switch (chance_below(&dice, 4)) {
    case 0: return SCRIPT_INPUT_MOST;
    case 1: return SCRIPT_INPUT_MOST + 1;
    case 2: return SCRIPT_INPUT_MOST - chance_below(&dice, 8);
    default: return SCRIPT_INPUT_MOST + chance_below(&dice, SCRIPT_INPUT_MOST / 4);
    }
}

static void make_script(void)
{
    uint32_t kind = chance_below(&dice, 16);
    if (kind == 0) {
        make_good(length_near_limit());
    } else {
        make_good(chance_below(&dice, kind < 8 ? 150 : kind < 15 ? 2000 : 20000));
    }
    if (kind % 4 != 3) {
        damage();
    }
}

/* ---- Running the program ---- */

static void stop(const char *what)
{
    perror(what);
    exit(2);
}

/* Writes the input to a pipe in pieces, in a process of its own. */
static void feed(int to)
{
    size_t done = 0;
    uint32_t piece_most = chance_one_in(&dice, 4) ? 3 : 9000;
    while (done < input.len) {
        size_t piece = chance_between(&dice, 1, piece_most);
        if (piece > input.len - done) {
            piece = input.len - done;
        }
        ssize_t written = write(to, input.bytes + done, piece);
        if (written <= 0) {
            break;
        }
        done += (size_t)written;
    }
    _exit(0);
}

static int open_pipe_input(pid_t *feeder)
{
    int ends[2];
    if (pipe(ends) != 0) {
        stop("pipe");
    }
    *feeder = fork();
    if (*feeder < 0) {
        stop("fork");
    }
    if (*feeder == 0) {
        close(ends[0]);
        signal(SIGPIPE, SIG_DFL);
        feed(ends[1]);
    }
    close(ends[1]);
    return ends[0];
}

static int open_file_input(void)
{
    FILE *file = tmpfile();
    if (file == NULL || fwrite(input.bytes, 1, input.len, file) != input.len ||
        fflush(file) != 0) {
        stop("temporary file");
    }
    int copy = dup(fileno(file));
    lseek(copy, 0, SEEK_SET);
    fclose(file);
    return copy;
}

static pid_t start_program(const char *program, int from, int *output)
{
    int ends[2];
    if (pipe(ends) != 0) {
        stop("pipe");
    }
    pid_t child = fork();
    if (child < 0) {
        stop("fork");
    }
    if (child == 0) {
        signal(SIGPIPE, SIG_DFL);
        dup2(from, 0);
        dup2(ends[1], 1);
        close(ends[0]);
        close(ends[1]);
        close(from);
        alarm(SECONDS_FOR_ONE);
        execl(program, program, (char *)NULL);
        perror(program);
        _exit(127);
    }
    close(ends[1]);
    *output = ends[0];
    return child;
}

static size_t read_all(int from, uint8_t *to, size_t room)
{
    size_t len = 0;
    ssize_t got;
    while (len < room && (got = read(from, to + len, room - len)) > 0) {
        len += (size_t)got;
    }
    close(from);
    return len;
}

/* Gives the length of the output, and the status as wait gives it. */
static size_t run_program(const char *program, uint8_t *out, size_t room, int *status)
{
    pid_t feeder = 0;
    int output, from = chance_one_in(&dice, 2) ? open_pipe_input(&feeder) : open_file_input();
    pid_t child = start_program(program, from, &output);
    close(from);
    size_t len = read_all(output, out, room);
    if (waitpid(child, status, 0) != child) {
        stop("wait");
    }
    if (feeder != 0) {
        waitpid(feeder, NULL, 0);
    }
    return len;
}

/* ---- Comparing ---- */

static void print_bytes(const uint8_t *bytes, size_t len)
{
    for (size_t i = 0; i < len && i < SHOWN_MOST; i++) {
        if (bytes[i] == '\n' || (bytes[i] >= ' ' && bytes[i] < 127)) {
            putchar(bytes[i]);
        } else {
            printf("\\x%02x", bytes[i]);
        }
    }
    printf("%s\n", len > SHOWN_MOST ? "... and more" : "");
}

/* The start of the line in which two outputs part, and that line's number. */
static size_t parting(const uint8_t *a, const uint8_t *b, size_t len, unsigned *line)
{
    size_t start = 0;
    *line = 1;
    for (size_t i = 0; i < len && a[i] == b[i]; i++) {
        if (a[i] == '\n') {
            start = i + 1;
            ++*line;
        }
    }
    return start;
}

static void fail(const char *why, const uint8_t *found, size_t found_len, const uint8_t *wanted,
                 size_t wanted_len)
{
    unsigned line;
    size_t shorter = found_len < wanted_len ? found_len : wanted_len;
    size_t from = parting(found, wanted, shorter, &line);
    printf("FAILED: %s, script %llu of seed %llu, %u bytes\n", why, scripts_run, seed,
           (unsigned)input.len);
    printf("-- from line %u of the output on, the program printed:\n", line);
    print_bytes(found + from, found_len - from);
    printf("-- the reference printed:\n");
    print_bytes(wanted + from, wanted_len - from);
    printf("-- the script begins:\n");
    print_bytes(input.bytes, input.len);
    exit(1);
}

static void count_numbers(const uint8_t *out, size_t len)
{
    for (size_t i = 0; i < len; i++) {
        if (i == 0 || out[i - 1] == '\n') {
            met[strtoul((const char *)out + i, NULL, 10) % NUMBERS]++;
        }
    }
}

static int all_numbers_met(void)
{
    int whole = 1;
    printf("  numbers met:");
    for (size_t i = 0; i < sizeof numbers / sizeof numbers[0]; i++) {
        printf(" %u: %lu", (unsigned)numbers[i], met[numbers[i]]);
        whole &= met[numbers[i]] != 0;
    }
    printf("\n");
    return whole;
}

static void run_one(const char *program)
{
    static uint8_t found[SCRIPT_OUTPUT_MOST + 1], wanted[SCRIPT_OUTPUT_MOST];
    int status;
    make_script();
    scripts_run++;
    size_t wanted_len = ref_script(input.bytes, input.len, wanted);
    size_t found_len = run_program(program, found, sizeof found, &status);
    if (!WIFEXITED(status)) {
        fail("the program was ended by a signal", found, found_len, wanted, wanted_len);
    }
    if (found_len != wanted_len || memcmp(found, wanted, wanted_len) != 0) {
        fail("outputs differ", found, found_len, wanted, wanted_len);
    }
    count_numbers(wanted, wanted_len);
}

static unsigned long long argument(int argc, char **argv, int index, unsigned long long otherwise)
{
    return argc > index ? strtoull(argv[index], NULL, 10) : otherwise;
}

int main(int argc, char **argv)
{
    if (argc < 2) {
        fprintf(stderr, "usage: fuzz_script STEPTRACE [SEED [COUNT [SECONDS]]]\n");
        return 2;
    }
    seed = argument(argc, argv, 2, SEED_DEFAULT);
    unsigned long long wanted = argument(argc, argv, 3, COUNT_DEFAULT);
    time_t most = (time_t)argument(argc, argv, 4, SECONDS_DEFAULT), start = time(NULL);
    dice = chance_from(seed);
    signal(SIGPIPE, SIG_IGN);
    while (scripts_run < wanted && time(NULL) - start <= most) {
        run_one(argv[1]);
    }
    if (scripts_run < wanted) {
        printf("FAILED: time ran out after %llu of %llu scripts\n", scripts_run, wanted);
        return 1;
    }
    printf("fuzz_script: seed %llu, %llu scripts alike\n", seed, scripts_run);
    if (!all_numbers_met()) {
        printf("FAILED: the run never met what it is there to meet\n");
        return 1;
    }
    return 0;
}
