/* Plans a table with the exact planner, writes the plan file, reads it back, whole and cut, checks
 * it and reports its stretches. Exit status 1 if anything is not as it should be. */
#include <inttypes.h>
#include <stdio.h>
#include <string.h>

#include "seamwhisk.h"

#define PERIOD 10
#define SIZE 2
#define ROWS 3

static const uint32_t delays[ROWS] = {0, 3, 7};

/* Says that a step went wrong. */
static int failed(const char *step, uint64_t number, uint64_t place)
{
    printf("%s: not as it should be; refusal %" PRIu64 " at %" PRIu64 ": %s\n", step, number, place,
           seamwhisk_refusal(number));
    return 1;
}

/* Whether a file is worth fetching again: it was cut on its way. No other refusal is mended by
 * bytes that are missing. */
static int is_cut(const uint8_t *file, size_t length)
{
    uint32_t lists[2][SEAMWHISK_MAX_ROWS];
    seamwhisk_read answer;
    seamwhisk_read_plan(file, length, lists[0], SEAMWHISK_MAX_ROWS, lists[1], SEAMWHISK_MAX_ROWS,
                        &answer);
    return answer.number == SEAMWHISK_FILE_CUT;
}

int main(void)
{
    uint32_t offsets[ROWS];
    seamwhisk_searched searched;
    seamwhisk_exact(PERIOD, SIZE, delays, ROWS, seamwhisk_ceiling(ROWS), offsets, ROWS, &searched);
    if (searched.number != SEAMWHISK_NOT_REFUSED || searched.tests != 3)
        return failed("exact", searched.number, searched.place);
    printf("exact: offsets %" PRIu32 " %" PRIu32 " %" PRIu32 " after %" PRIu64 " tests\n",
           offsets[0], offsets[1], offsets[2], searched.tests);

    uint8_t file[SEAMWHISK_MAX_FILE];
    seamwhisk_written written;
    seamwhisk_write_plan(PERIOD, SIZE, delays, ROWS, offsets, ROWS, file, sizeof file, &written);
    if (written.number != SEAMWHISK_NOT_REFUSED || written.length != 13)
        return failed("write", written.number, written.place);
    printf("write:");
    for (uint64_t k = 0; k < written.length; k++)
        printf(" %02X", file[k]);
    printf("\n");

    uint32_t delays_back[SEAMWHISK_MAX_ROWS], offsets_back[SEAMWHISK_MAX_ROWS];
    seamwhisk_read back;
    seamwhisk_read_plan(file, (size_t)written.length, delays_back, SEAMWHISK_MAX_ROWS, offsets_back,
                        SEAMWHISK_MAX_ROWS, &back);
    if (back.number != SEAMWHISK_NOT_REFUSED || back.period != PERIOD || back.size != SIZE ||
        back.rows != ROWS || memcmp(delays_back, delays, sizeof delays) != 0 ||
        memcmp(offsets_back, offsets, sizeof offsets) != 0)
        return failed("read", back.number, back.place);
    printf("read: period %" PRIu64 ", size %" PRIu64 ", %" PRIu64 " rows, the same plan\n",
           back.period, back.size, back.rows);
    for (size_t length = 0; length <= written.length; length++)
        if (is_cut(file, length) != (length < written.length))
            return failed("cut", back.number, length);
    printf("cut: worth fetching again, wherever it was cut\n");

    seamwhisk_checked checked;
    seamwhisk_check(PERIOD, SIZE, delays_back, ROWS, offsets_back, ROWS, &checked);
    if (!seamwhisk_is_clear(&checked))
        return failed("check", checked.number, checked.place);
    printf("check: clear\n");

    seamwhisk_reported reported;
    seamwhisk_report(PERIOD, SIZE, delays_back, ROWS, offsets_back, ROWS, &reported);
    if (reported.number != SEAMWHISK_NOT_REFUSED || reported.free_1 != PERIOD - ROWS * SIZE ||
        reported.free_2 != PERIOD - ROWS * SIZE)
        return failed("report", reported.number, reported.place);
    printf("report: crossing 1 has %" PRIu64 " free slots in %" PRIu64 " stretches, widest %" PRIu64
           "; crossing 2 has %" PRIu64 " in %" PRIu64 ", widest %" PRIu64 "\n",
           reported.free_1, reported.stretches_1, reported.widest_1, reported.free_2,
           reported.stretches_2, reported.widest_2);
    return 0;
}
