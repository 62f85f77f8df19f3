/* See page.h. */
#include "page.h"

#include <stdarg.h>
#include <stdio.h>
#include <string.h>

#include "kernelsun.h"

/* The longest text has an entry for each block, of less than 32 signs. */
static char text[32 * (KERNELSUN_PHYSICAL_MOST + 1)];
static size_t length, reached;

void add(const char *form, ...)
{
    size_t room = sizeof text - length;
    va_list list;
    va_start(list, form);
    int signs = vsnprintf(text + length, room, form, list);
    va_end(list);
    if (signs > 0) {
        length += (size_t)signs < room ? (size_t)signs : room - 1;
    }
}

size_t gathered(void)
{
    return length;
}

void forget(void)
{
    length = 0;
    text[0] = '\0';
}

size_t column(void)
{
    return reached;
}

void go_to(size_t at)
{
    if (reached > at) {
        end_line();
    }
    printf("%*s", (int)(at - reached), "");
    reached = at;
}

void end_line(void)
{
    printf("\n");
    reached = 0;
}

void print_gathered(size_t at)
{
    for (const char *word = text; *word != '\0';) {
        size_t signs = strcspn(word, " ");
        if (word != text) {
            go_to(reached + 1 + signs > PAGE_WIDTH ? at : reached + 1);
        }
        printf("%.*s", (int)signs, word);
        reached += signs;
        word += signs + strspn(word + signs, " ");
    }
    forget();
}
