/*
 * The recipe of docs/USING.md for a program that has functions of the door's
 * names itself: it is linked with a library whose four symbols were renamed,
 * and declares them as the recipe does.
 */
#include <stdio.h>

#define format kernelsun_format
#define begin kernelsun_begin
#define step kernelsun_step
#define add_area kernelsun_add_area
#include <kernelsun_view.h>
#undef format
#undef begin
#undef step
#undef add_area

int format(void);
int begin(void);
int step(void);
int add_area(void);

int format(void)
{
    return 1;
}

int begin(void)
{
    return 2;
}

int step(void)
{
    return 3;
}

int add_area(void)
{
    return 4;
}

static uint8_t area[KERNELSUN_LENGTH(1, 1, 2)];

int main(void)
{
    uint64_t result = kernelsun_format(area, sizeof area, 1, 1, 2, 1);
    int good = kernelsun_number(result) == KERNELSUN_WENT &&
               format() + begin() + step() + add_area() == 10;
    struct kernelsun_tally tally = {0};
    result = kernelsun_add_area(&tally, area, sizeof area);
    good &= kernelsun_number(result) == KERNELSUN_WENT && tally.blocks == 2;
    result = kernelsun_begin(area, sizeof area, 0, KERNELSUN_READ, 0, 0);
    while (kernelsun_number(result) == KERNELSUN_WENT) {
        result = kernelsun_step(area, sizeof area, 0);
    }
    if (!good || kernelsun_number(result) != KERNELSUN_FINISHED) {
        printf("FAILED: the renamed functions don't work beside others of their old names\n");
        return 1;
    }
    printf("recipes: the examples print what is stored beside them, renamed functions work\n");
    return 0;
}
