/* See parse.h. */
#include "parse.h"

#include <string.h>

#include "kernelsun_view.h"

/* ---- Reading ---- */

static int is_blank(int byte)
{
    return byte == ' ' || byte == '\t';
}

/* The next byte. A line may also end in \r\n, and the last one in \r: that \r is passed over. */
static int next_byte(FILE *in)
{
    int byte = getc(in), after;
    if (byte != '\r') {
        return byte;
    }
    after = getc(in);
    if (after == '\n' || after == EOF) {
        return after;
    }
    ungetc(after, in);
    return byte;
}

/* Signs that would not show are written by their number, so that no such field is a good one. */
static void field_add(char field[FIELD_SIGNS + 1], size_t *length, int byte)
{
    static const char more[] = "...";
    char sign[8];
    snprintf(sign, sizeof sign, byte > ' ' && byte <= '~' ? "%c" : "\\x%02x", (unsigned)byte);
    if (*length + strlen(sign) + strlen(more) <= FIELD_SIGNS) {
        strcpy(field + *length, sign);
        *length += strlen(sign);
    } else if (*length < FIELD_SIGNS) {
        strcpy(field + *length, more);
        *length = FIELD_SIGNS; /* nothing more is kept */
    }
}

int line_read(FILE *in, script_line *line)
{
    int byte = next_byte(in), within = 0;
    size_t length = 0;
    line->count = 0;
    line->comment = 0;
    if (byte == EOF) {
        return 0;
    }
    for (; byte != EOF && byte != '\n'; byte = next_byte(in)) {
        if (byte == '#') {
            ungetc(byte, in);
            line->comment = 1;
            break;
        }
        if (is_blank(byte)) {
            within = 0;
            continue;
        }
        if (!within) {
            within = 1;
            length = 0;
            line->count++;
        }
        if (line->count <= FIELDS_KEPT) {
            field_add(line->fields[line->count - 1], &length, byte);
        }
    }
    return !ferror(in);
}

int comment_read(FILE *in, FILE *out)
{
    for (int byte = next_byte(in); byte != EOF && byte != '\n'; byte = next_byte(in)) {
        if (out != NULL) {
            putc(byte, out);
        }
    }
    return !ferror(in);
}

/* ---- Parsing ---- */

typedef struct {
    const char *letter, *form;
    size_t arguments;
    const char *names[4];
} command_form;

/* By command_kind. */
static const command_form forms[] = {{"f", "f T N P D", 4, {"T", "N", "P", "D"}},
                                     {"b", "b t op n c", 4, {"t", "op", "n", "c"}},
                                     {"s", "s t", 1, {"t", NULL, NULL, NULL}},
                                     {"r", "r t", 1, {"t", NULL, NULL, NULL}}};

enum { AT_OPERATION = 1 };

static int parse_number(const char *text, uint32_t *number)
{
    uint64_t value = 0;
    if (text[0] == '\0' || (text[0] == '0' && text[1] != '\0')) {
        return 0;
    }
    for (; *text != '\0'; text++) {
        if (*text < '0' || *text > '9') {
            return 0;
        }
        value = 10 * value + (uint64_t)(*text - '0');
        if (value > UINT32_MAX) {
            return 0;
        }
    }
    *number = (uint32_t)value;
    return 1;
}

static int parse_operation(const char *text, uint32_t *op)
{
    for (*op = KERNELSUN_WRITE; *op <= KERNELSUN_LEVEL; ++*op) {
        if (strcmp(text, kernelsun_operation_name(*op)) == 0) {
            return 1;
        }
    }
    return parse_number(text, op);
}

/* How many of t, op, n and c an operation needs: the others it does not look at. */
static size_t begin_needs(uint32_t op)
{
    switch (op) {
    case KERNELSUN_WRITE: return 4;
    case KERNELSUN_READ:
    case KERNELSUN_UNMAP: return 3;
    default: return 2;
    }
}

static int find_form(const char *letter, command_kind *kind)
{
    for (size_t i = 0; i < sizeof forms / sizeof forms[0]; i++) {
        if (strcmp(letter, forms[i].letter) == 0) {
            *kind = (command_kind)i;
            return 1;
        }
    }
    return 0;
}

static int parse_argument(const char *text, int operation, const char *name, uint32_t *argument,
                          char reason[REASON_SIZE])
{
    if (operation ? parse_operation(text, argument) : parse_number(text, argument)) {
        return 1;
    }
    snprintf(reason, REASON_SIZE,
             "%s is \"%s\", expected %sa decimal number up to 4294967295, no leading zeros", name,
             text, operation ? "write, read, unmap, level or " : "");
    return 0;
}

static void say_missing(const command *c, size_t at, char reason[REASON_SIZE])
{
    const command_form *form = &forms[c->kind];
    if (c->kind == COMMAND_BEGIN && at > AT_OPERATION) {
        uint32_t op = c->argument[AT_OPERATION];
        snprintf(reason, REASON_SIZE, "%s is missing, expected b t %s n%s", form->names[at],
                 kernelsun_operation_name(op), begin_needs(op) == form->arguments ? " c" : "");
    } else {
        snprintf(reason, REASON_SIZE, "%s is missing, expected %s", form->names[at], form->form);
    }
}

int line_parse(const script_line *line, command *c, char reason[REASON_SIZE])
{
    memset(c, 0, sizeof *c);
    if (!find_form(line->fields[0], &c->kind)) {
        snprintf(reason, REASON_SIZE, "\"%s\" is no command, expected %s, %s, %s or %s",
                 line->fields[0], forms[COMMAND_FORMAT].form, forms[COMMAND_BEGIN].form,
                 forms[COMMAND_STEP].form, forms[COMMAND_RUN].form);
        return 0;
    }
    const command_form *form = &forms[c->kind];
    size_t given = line->count - 1, needed = form->arguments;
    for (size_t i = 0; i < given && i < form->arguments; i++) {
        int operation = c->kind == COMMAND_BEGIN && i == AT_OPERATION;
        if (!parse_argument(line->fields[i + 1], operation, form->names[i], &c->argument[i],
                            reason)) {
            return 0;
        }
        if (operation) {
            needed = begin_needs(c->argument[i]);
        }
    }
    if (given < needed) {
        say_missing(c, given, reason);
        return 0;
    }
    if (given > form->arguments) {
        snprintf(reason, REASON_SIZE, "\"%s\" is too much, expected %s",
                 line->fields[form->arguments + 1], form->form);
        return 0;
    }
    return 1;
}
