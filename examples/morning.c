/* A morning's tables at one go: reads texts joined end to end on standard input and prints a line
 * for each: its offsets, or why it has none. Exit status: 0, or 2 if something stopped it.
 *     cat tables/first.txt tables/none.txt | target/morning */
#include <inttypes.h>
#include <stdio.h>

#include "seamwhisk.h"

static uint8_t input[SEAMWHISK_MAX_JOINED + 1]; /* one more, so that too much is noticed */
static seamwhisk_text_answer answers[SEAMWHISK_MAX_TEXTS];
static uint32_t offsets[SEAMWHISK_MAX_TEXTS * SEAMWHISK_MAX_ROWS];

static void print_text(size_t t)
{
    printf("text %zu, %" PRIu64 " rows:", t, answers[t].rows);
    if (answers[t].number != SEAMWHISK_NOT_REFUSED) {
        printf(" %s\n", seamwhisk_refusal(answers[t].number));
        return;
    }
    for (size_t row = 0; row < answers[t].rows; row++)
        printf(" %" PRIu32, offsets[SEAMWHISK_MAX_ROWS * t + row]);
    printf(" after %" PRIu64 " tests\n", answers[t].tests);
}

int main(void)
{
    size_t length = fread(input, 1, sizeof input, stdin);
    uint64_t enough = seamwhisk_ceiling(SEAMWHISK_MAX_EXACT_ROWS);
    seamwhisk_run run;
    seamwhisk_plan_texts(input, length, enough, answers, SEAMWHISK_MAX_TEXTS, offsets,
                         SEAMWHISK_MAX_TEXTS * SEAMWHISK_MAX_ROWS, &run);
    for (size_t t = 0; t < run.texts; t++)
        print_text(t);
    if (run.number == SEAMWHISK_NOT_REFUSED)
        return 0;
    if (run.number != SEAMWHISK_JOINED)
        printf("text %" PRIu64 " stopped it: ", run.texts);
    printf("%s (%" PRIu64 " at %" PRIu64 ")\n", seamwhisk_refusal(run.number), run.number,
           run.place);
    return 2;
}
