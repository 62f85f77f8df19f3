/*
 * Lines of a script, for `watch`: reading one, and making a command of it.
 *
 * A line is read byte by byte and only its fields are kept, so neither a script
 * nor a line of it has a longest length. A comment isn't kept either: whoever has
 * read a line's fields passes its comment on or over.
 */
#ifndef WATCH_PARSE_H
#define WATCH_PARSE_H

#include <stddef.h>
#include <stdint.h>
#include <stdio.h>

enum {
    /* Five of the longest form, and one more to name where there are too many. */
    FIELDS_KEPT = 6,
    /* A good field has at most ten signs. What is longer is kept to be shown, and cut. */
    FIELD_SIGNS = 40
};

typedef struct {
    size_t count; /* fields on the line, kept or not */
    int comment;  /* whether a comment is behind them */
    char fields[FIELDS_KEPT][FIELD_SIGNS + 1];
} script_line;

/* The calls format, begin and step, and a run of steps, by the letter that stands for each. */
typedef enum { COMMAND_FORMAT, COMMAND_BEGIN, COMMAND_STEP, COMMAND_RUN } command_kind;

typedef struct {
    command_kind kind;
    uint32_t argument[4]; /* T N P D, or t op n c, or t; what was left out is 0 */
} command;

/* Room for the reason why a line is none. */
enum { REASON_SIZE = 200 };

/*
 * Reads the next line up to its comment, its newline or the end of the input. Gives
 * 0 where there is none left, or none can be read.
 */
int line_read(FILE *in, script_line *line);

/*
 * Reads the comment before which line_read() stopped, and its newline, and prints
 * the comment as it is, or not at all where out is NULL. Gives 0 where it can't be
 * read.
 */
int comment_read(FILE *in, FILE *out);

/* Gives 1 and the command; or 0 and why the line is none, and what is expected. */
int line_parse(const script_line *line, command *c, char reason[REASON_SIZE]);

#endif
