/*
 * Writes a script for the script program, and what it must print for it: one
 * of the benchmark's areas, and then operations of the mix, each done whole.
 *
 *     script AREA INPUT OUTPUT     AREA is smallest, middle or largest
 */
#include <stdio.h>
#include <stdlib.h>
#include <string.h>

#include "kernelsun_view.h"
#include "mix.h"
#include "plain.h"

/* The operation that reaches it is still ended, and 65,536 bytes are the most. */
enum { BYTES_WANTED = 60000 };

typedef struct {
    FILE *input, *output;
    long bytes; /* of input */
} script;

static const mix_area *area_named(const char *name)
{
    for (int i = 0; i < MIX_AREAS; i++) {
        if (strcmp(mix_areas[i].name, name) == 0) {
            return &mix_areas[i];
        }
    }
    fprintf(stderr, "there is no area %s\n", name);
    exit(2);
}

static FILE *opened(const char *path)
{
    FILE *file = fopen(path, "w");
    if (file == NULL) {
        perror(path);
        exit(2);
    }
    return file;
}

static void expect(const script *to, uint64_t r)
{
    fprintf(to->output, "%u %u\n", (unsigned)kernelsun_number(r), (unsigned)kernelsun_value(r));
}

static void add_format(script *to, uint8_t *area, const kernelsun_sizes *s)
{
    to->bytes += fprintf(to->input, "f %u %u %u %u\n", (unsigned)s->t, (unsigned)s->n,
                         (unsigned)s->p, (unsigned)s->d);
    expect(to, plain_format(area, KERNELSUN_LENGTH(s->t, s->n, s->p), s->t, s->n, s->p, s->d));
}

static void add_operation(script *to, uint8_t *area, const kernelsun_sizes *s, uint32_t thread,
                          operation o)
{
    to->bytes += fprintf(to->input, "b %u %u %u %u\n", (unsigned)thread, (unsigned)o.op,
                         (unsigned)o.n, (unsigned)o.c);
    uint64_t r = plain_begin(area, KERNELSUN_LENGTH(s->t, s->n, s->p), thread, o.op, o.n, o.c);
    expect(to, r);
    while (kernelsun_number(r) == KERNELSUN_WENT) {
        to->bytes += fprintf(to->input, "s %u\n", (unsigned)thread);
        r = plain_step(area, KERNELSUN_LENGTH(s->t, s->n, s->p), thread);
        expect(to, r);
    }
}

int main(int argc, char **argv)
{
    static uint8_t area[KERNELSUN_LENGTH_MOST];
    if (argc != 4) {
        fprintf(stderr, "usage: %s AREA INPUT OUTPUT\n", argv[0]);
        return 2;
    }
    kernelsun_sizes s = area_named(argv[1])->s;
    script to = {opened(argv[2]), opened(argv[3]), 0};
    chance dice = chance_from(MIX_SEED);
    add_format(&to, area, &s);
    for (size_t turn = 0; to.bytes < BYTES_WANTED; turn++) {
        add_operation(&to, area, &s, mix_thread(&s, turn), mix_next(&dice, &s));
    }
    return fclose(to.input) != 0 || fclose(to.output) != 0;
}
