/* How many of 1,000 tables of 64 rows and size 1, with pseudo-random delays, First Fit and the
 * one-slot planner plan, for some periods. */
#include <stdint.h>
#include <stdio.h>

#include "seamwhisk.h"

enum { ROWS = 64, TABLES = 1000 };

static uint32_t random_below(uint64_t *state, uint32_t n)
{
    *state = *state * 6364136223846793005u + 1442695040888963407u;
    return (uint32_t)(*state >> 33) % n;
}

static int count(uint32_t period, uint64_t *state, int *first_fit)
{
    uint32_t delays[ROWS], offsets[ROWS];
    seamwhisk_planned answer;
    int one_slot = 0;
    *first_fit = 0;
    for (int table = 0; table < TABLES; table++) {
        for (size_t row = 0; row < ROWS; row++)
            delays[row] = random_below(state, period);
        seamwhisk_first_fit(period, 1, delays, ROWS, offsets, ROWS, &answer);
        *first_fit += answer.number == SEAMWHISK_NOT_REFUSED;
        seamwhisk_one_slot(period, 1, delays, ROWS, offsets, ROWS, &answer);
        one_slot += answer.number == SEAMWHISK_NOT_REFUSED;
    }
    return one_slot;
}

int main(void)
{
    static const uint32_t periods[] = {64, 65, 66, 67, 68, 70, 75, 80, 90, 100};
    uint64_t state = 1;
    puts("| period | First Fit | one-slot |\n|--:|--:|--:|");
    for (size_t i = 0; i < sizeof periods / sizeof *periods; i++) {
        int first_fit, one_slot = count(periods[i], &state, &first_fit);
        printf("| %u | %d | %d |\n", (unsigned)periods[i], first_fit, one_slot);
    }
    return 0;
}
