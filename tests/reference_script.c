/*
 * The script program of document 01 as a function of its whole input, on the
 * reference. It reads the input as text by the document's grammar and prints
 * into a buffer.
 */
#include <stdio.h>
#include <string.h>

#include "kernelsun.h"
#include "reference.h"

/* The program's own two numbers, beside those of the table. */
enum { SCRIPT_SYNTAX = 19, SCRIPT_TOO_LONG = 20 };

enum { FIELDS_MOST = 4 };

typedef struct {
    const uint8_t *at, *end;
} text;

typedef struct {
    uint8_t bytes[KERNELSUN_LENGTH_MOST];
    size_t len; /* 0 until an f is accepted, which no call takes for a store */
} store;

typedef struct {
    uint8_t *at;
    size_t used;
} printer;

static void print_result(printer *out, uint64_t r)
{
    char line[32];
    int length = snprintf(line, sizeof line, "%u %u\n", (unsigned)kernelsun_number(r),
                          (unsigned)kernelsun_value(r));
    memcpy(out->at + out->used, line, (size_t)length);
    out->used += (size_t)length;
}

static int is_digit(const text *in)
{
    return in->at < in->end && *in->at >= '0' && *in->at <= '9';
}

static int read_byte(text *in, uint8_t wanted)
{
    if (in->at == in->end || *in->at != wanted) {
        return 0;
    }
    in->at++;
    return 1;
}

/* A decimal number without leading zeros, at most 4,294,967,295. */
static int read_number(text *in, uint32_t *number)
{
    uint64_t sum = 0;
    if (!is_digit(in)) {
        return 0;
    }
    if (*in->at == '0') {
        in->at++;
        *number = 0;
        return !is_digit(in);
    }
    while (is_digit(in)) {
        sum = 10 * sum + (uint64_t)(*in->at - '0');
        if (sum > 0xffffffffu) {
            return 0;
        }
        in->at++;
    }
    *number = (uint32_t)sum;
    return 1;
}

static size_t fields_of(uint8_t letter)
{
    switch (letter) {
    case 'f': return 4;
    case 'b': return 4;
    case 's': return 1;
    default: return 0;
    }
}

/* One line with its newline. */
static int read_line(text *in, uint8_t *letter, uint32_t field[FIELDS_MOST])
{
    *letter = *in->at++;
    size_t count = fields_of(*letter);
    for (size_t i = 0; i < count; i++) {
        if (!read_byte(in, ' ') || !read_number(in, &field[i])) {
            return 0;
        }
    }
    return count != 0 && read_byte(in, '\n');
}

/* Formats aside, so that the store of before is left where f is refused. */
static uint64_t run_format(store *kept, const uint32_t field[FIELDS_MOST])
{
    uint8_t fresh[KERNELSUN_LENGTH_MOST];
    size_t len = KERNELSUN_LENGTH(field[0], field[1], field[2]);
    uint64_t r = ref_format(fresh, len, field[0], field[1], field[2], field[3]);
    if (kernelsun_number(r) == KERNELSUN_WENT) {
        memcpy(kept->bytes, fresh, len);
        kept->len = len;
    }
    return r;
}

static uint64_t run_line(store *kept, uint8_t letter, const uint32_t field[FIELDS_MOST])
{
    switch (letter) {
    case 'f': return run_format(kept, field);
    case 'b': return ref_begin(kept->bytes, kept->len, field[0], field[1], field[2], field[3]);
    default: return ref_step(kept->bytes, kept->len, field[0]);
    }
}

size_t ref_script(const uint8_t *in, size_t len, uint8_t *out)
{
    static store kept;
    printer printed = {out, 0};
    text input = {in, in + len};
    kept.len = 0;
    if (len > SCRIPT_INPUT_MOST) {
        print_result(&printed, (uint64_t)SCRIPT_TOO_LONG << 32);
        return printed.used;
    }
    while (input.at < input.end) {
        uint8_t letter;
        uint32_t field[FIELDS_MOST] = {0, 0, 0, 0};
        if (!read_line(&input, &letter, field)) {
            print_result(&printed, (uint64_t)SCRIPT_SYNTAX << 32);
            break;
        }
        print_result(&printed, run_line(&kept, letter, field));
    }
    return printed.used;
}
