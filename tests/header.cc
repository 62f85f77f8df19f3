// The headers as a C++ programmer meets them: they compile, the length macro
// sizes an array, the tally's fields stand where the library has them, the
// functions link against the C library, and the view reads what they left.
#include <stddef.h>
#include <stdio.h>
#include <string.h>

#include "kernelsun_view.h"

static uint8_t area[KERNELSUN_LENGTH(2, 1, 2)];

static_assert(sizeof(kernelsun_tally) == 32, "size of the tally");
static_assert(alignof(kernelsun_tally) == alignof(uint64_t), "alignment of the tally");
static_assert(offsetof(kernelsun_tally, areas) == 0, "place of areas");
static_assert(offsetof(kernelsun_tally, skipped) == 4, "place of skipped");
static_assert(offsetof(kernelsun_tally, blocks) == 8, "place of blocks");
static_assert(offsetof(kernelsun_tally, free) == 12, "place of free");
static_assert(offsetof(kernelsun_tally, least) == 16, "place of least");
static_assert(offsetof(kernelsun_tally, most) == 20, "place of most");
static_assert(offsetof(kernelsun_tally, sum) == 24, "place of sum");

static bool adds()
{
    kernelsun_tally tally = {};
    const uint8_t *stored = area;
    uint64_t added = add_area(&tally, stored, sizeof area);
    uint64_t skipped = add_area(&tally, stored, 0);
    return kernelsun_number(added) == KERNELSUN_WENT &&
           kernelsun_number(skipped) == KERNELSUN_WENT && tally.areas == 2 &&
           tally.skipped == 1 && tally.blocks == 2 && tally.free == 2 && tally.sum == 0;
}

int main()
{
    uint64_t formatted = format(area, sizeof area, 2, 1, 2, 1);
    uint64_t begun = begin(area, sizeof area, 1, KERNELSUN_READ, 0, 0);
    uint64_t stepped = step(area, sizeof area, 0);
    if (kernelsun_number(formatted) != KERNELSUN_WENT ||
        kernelsun_number(begun) != KERNELSUN_WENT ||
        kernelsun_number(stepped) != KERNELSUN_IDLE || kernelsun_value(stepped) != 0 || !adds()) {
        printf("FAILED: the door doesn't work from C++\n");
        return 1;
    }
    if (!kernelsun_viewable(area, sizeof area) || kernelsun_operation(area, 1) != KERNELSUN_READ ||
        kernelsun_map(area, 0) != KERNELSUN_NONE ||
        strcmp(kernelsun_thread_label(area, 1), "R1") != 0) {
        printf("FAILED: the view doesn't work from C++\n");
        return 1;
    }
    printf("header: both are strict C99 and C++ and link; a dropped result is refused\n");
    return 0;
}
