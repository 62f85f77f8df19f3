/* What `watch --help` prints. */
#ifndef WATCH_HELP_H
#define WATCH_HELP_H

#include <stdio.h>

/* How the program is called, on one line. */
void show_usage(FILE *out, const char *program);

/* That, the forms of a line, the sizes, the state and the exit status. */
void show_help(const char *program);

#endif
