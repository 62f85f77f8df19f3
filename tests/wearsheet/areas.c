/*
 * Writes the area files that the test of `wearsheet` reads: made through the
 * door, with wear put by hand where calls would take too long to get there.
 *
 *     areas FOLDER
 */
#include "kernelsun.h"
#include "kernelsun_view.h"
#include "put_word.h"

#include <stdio.h>
#include <stdlib.h>
#include <string.h>

static const char *folder;
static uint8_t area[KERNELSUN_LENGTH_MOST + 1];
static size_t len;

static void require(int good, const char *what)
{
    if (!good) {
        fprintf(stderr, "areas: %s\n", what);
        exit(1);
    }
}

/* Writes the first so many bytes of the area to a file of that name. */
static void save(const char *name, size_t bytes)
{
    char path[4096];
    int n = snprintf(path, sizeof path, "%s/%s", folder, name);
    require(n > 0 && (size_t)n < sizeof path, "the folder's name is too long");
    FILE *file = fopen(path, "wb");
    require(file != NULL, path);
    require(fwrite(area, 1, bytes, file) == bytes, path);
    require(fclose(file) == 0, path);
}

static void make(uint32_t t, uint32_t n, uint32_t p, uint32_t d)
{
    memset(area, 0, sizeof area);
    len = KERNELSUN_LENGTH(t, n, p);
    require(kernelsun_number(format(area, len, t, n, p, d)) == KERNELSUN_WENT, "format");
}

static void wear_one(uint32_t p, uint32_t wear)
{
    kernelsun_sizes sizes = kernelsun_sizes_of(area);
    put_word(area, kernelsun_at_block(&sizes, p, KERNELSUN_BLOCK_WEAR), wear);
}

static void wear_all(uint32_t wear)
{
    for (uint32_t p = 0; p < kernelsun_p(area); p++) {
        wear_one(p, wear);
    }
}

/* The owner of block 0, by its word. */
static void own_first(uint32_t word)
{
    kernelsun_sizes sizes = kernelsun_sizes_of(area);
    put_word(area, kernelsun_at_block(&sizes, 0, KERNELSUN_BLOCK_OWNER), word);
}

static void begins(uint32_t op, uint32_t n, uint32_t c)
{
    require(kernelsun_number(begin(area, len, 0, op, n, c)) == KERNELSUN_WENT, "begin");
}

static void does(uint32_t op, uint32_t n, uint32_t c)
{
    uint64_t r;
    begins(op, n, c);
    do {
        r = step(area, len, 0);
    } while (kernelsun_number(r) == KERNELSUN_WENT);
    require(kernelsun_number(r) == KERNELSUN_FINISHED, "step");
}

/* Number 0 is written, rewritten and unmapped four times, 1 is written, and a write of 2 is open. */
static void grow(void)
{
    make(2, 3, 5, 1);
    for (uint32_t i = 0; i < 4; i++) {
        does(KERNELSUN_WRITE, 0, i);
        does(KERNELSUN_WRITE, 0, i);
        does(KERNELSUN_UNMAP, 0, 0);
    }
    does(KERNELSUN_WRITE, 1, 7);
    begins(KERNELSUN_WRITE, 2, 9);
    for (int i = 0; i < 9; i++) {
        require(kernelsun_number(step(area, len, 0)) == KERNELSUN_WENT, "step");
    }
}

/* Each of 16 threads reads number 0, and its block. */
static void read_by_all(void)
{
    make(16, 1, 2, 1);
    does(KERNELSUN_WRITE, 0, 7);
    does(KERNELSUN_WRITE, 0, 8);
    for (uint32_t thread = 0; thread < 16; thread++) {
        uint64_t r = begin(area, len, thread, KERNELSUN_READ, 0, 0);
        for (int line = 1; line <= 3 && kernelsun_number(r) == KERNELSUN_WENT; line++) {
            r = step(area, len, thread);
        }
        require(kernelsun_number(r) == KERNELSUN_WENT, "a read beside others");
    }
    require(kernelsun_block_readers(area, 0) == 65535, "all read");
}

/* Block p has the content of number n. */
static void use_block(uint32_t p, uint32_t n, uint32_t content)
{
    kernelsun_sizes sizes = kernelsun_sizes_of(area);
    put_word(area, kernelsun_at_map(&sizes, n), p + 1);
    put_word(area, kernelsun_at_block(&sizes, p, KERNELSUN_BLOCK_HEADER), n + 1);
    put_word(area, kernelsun_at_block(&sizes, p, KERNELSUN_BLOCK_CONTENT), content);
}

/* The files of crates/wearsheet/data. */
static void stored(void)
{
    static const uint32_t wear[] = {6, 11, 2, 4};
    make(2, 2, 4, 3);
    use_block(0, 0, 7);
    use_block(2, 1, 9);
    for (uint32_t p = 0; p < 4; p++) {
        wear_one(p, wear[p]);
    }
    save("tracks", len);
    save("cut", len - 1);
    make(1, 1, 2, 1);
    wear_one(0, 3);
    wear_one(1, 5);
    save("small", len);
}

int main(int count, char **words)
{
    if (count != 2) {
        fprintf(stderr, "usage: %s FOLDER\n", words[0]);
        return 2;
    }
    folder = words[1];

    make(1, 1, 2, 1);
    save("smallest", len);
    save("short", len - 1);
    save("long", len + 1);
    put_word(area, KERNELSUN_AT_LOCK, 2);
    save("lock_of_nobody", len);

    make(1, 1, 2, 1);
    own_first(kernelsun_writing(0));
    save("written", len);
    own_first(kernelsun_writing(1));
    save("writer_of_nobody", len);
    own_first(kernelsun_bit(1));
    save("reader_of_nobody", len);
    own_first(kernelsun_writing(0) + kernelsun_bit(0));
    save("read_and_written", len);
    read_by_all();
    save("read_by_all", len);

    make(16, 256, 512, 1);
    save("largest", len);
    save("longer", len + 1);
    wear_all(KERNELSUN_WEAR_MOST);
    save("worn_out", len);

    grow();
    save("grown", len);

    make(1, 2, 4, 1);
    wear_all(3);
    save("even", len);
    save("empty", 0);
    stored();
    return 0;
}
