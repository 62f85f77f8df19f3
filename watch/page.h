/*
 * Printing for `watch`: text is gathered with add() and then printed on lines of
 * at most PAGE_WIDTH columns, broken at its blanks.
 */
#ifndef WATCH_PAGE_H
#define WATCH_PAGE_H

#include <stddef.h>

enum { PAGE_WIDTH = 100 };

#if defined(__GNUC__)
__attribute__((__format__(__printf__, 1, 2)))
#endif
/* Adds to the gathered text, as printf would print. */
void add(const char *form, ...);

/* How many signs are gathered. */
size_t gathered(void);

/* Forgets the gathered text. */
void forget(void);

/* The column reached on the line. */
size_t column(void);

/* Prints blanks up to a column, on a new line where that one is already behind. */
void go_to(size_t at);

void end_line(void);

/* Prints the gathered text and forgets it. Lines after its first begin at a column. */
void print_gathered(size_t at);

#endif
