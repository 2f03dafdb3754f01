/* What the header itself defines: each refusal number has a meaning of its own, a collision is not
 * clear though its number is 0, and the answers to joined texts are counted in structs. Also
 * compiled as C++. */
#include <stdio.h>
#include <string.h>

#include "seamwhisk.h"

#define LAST SEAMWHISK_NOT_ONE_SLOT

/* The worked text, twice, with room for so many answers; the byte 9 stands behind what is written. */
static int joined(size_t room, uint64_t number, uint64_t texts)
{
    static const char text[] = "pma 1\n10 2\n0\n3\n7\nend 3\npma 1\n10 2\n0\n3\n7\nend 3\n";
    seamwhisk_text_answer answers[SEAMWHISK_MAX_TEXTS];
    uint32_t offsets[SEAMWHISK_MAX_TEXTS * SEAMWHISK_MAX_ROWS];
    seamwhisk_run answer;
    memset(answers, 9, sizeof answers);
    memset(offsets, 9, sizeof offsets);
    seamwhisk_plan_texts((const uint8_t *)text, strlen(text), 3, answers, room, offsets,
                         SEAMWHISK_MAX_TEXTS * SEAMWHISK_MAX_ROWS, &answer);
    int wrong = answer.number != number || answer.place != 0 || answer.texts != texts;
    for (size_t t = 0; t < texts; t++) {
        const uint32_t *plan = offsets + SEAMWHISK_MAX_ROWS * t;
        wrong += answers[t].number != 0 || answers[t].place != 0 || answers[t].tests != 3;
        wrong += answers[t].rows != 3 || plan[0] != 0 || plan[1] != 2 || plan[2] != 5;
        wrong += plan[3] != 0x09090909;
    }
    wrong += texts == 0 && offsets[0] != 0x09090909;
    return wrong + (answers[texts].rows != UINT64_C(0x0909090909090909));
}

int main(void)
{
    int wrong = SEAMWHISK_VERSION_NUMBER < 100 || strlen(SEAMWHISK_VERSION) < 5;
    for (uint64_t a = 0; a <= LAST + 1; a++)
        for (uint64_t b = 0; b < a; b++)
            wrong += strcmp(seamwhisk_refusal(a), seamwhisk_refusal(b)) == 0;
    wrong += strcmp(seamwhisk_refusal(LAST + 1), seamwhisk_refusal(UINT64_MAX)) != 0;

    const uint32_t delays[2] = {0, 0}, apart[2] = {0, 2}, meeting[2] = {0, 1}, outside[2] = {0, 10};
    seamwhisk_checked answer;
    seamwhisk_check(10, 2, delays, 2, apart, 2, &answer);
    wrong += !seamwhisk_is_clear(&answer);
    seamwhisk_check(10, 2, delays, 2, meeting, 2, &answer);
    wrong += answer.number != 0 || seamwhisk_is_clear(&answer);
    seamwhisk_check(10, 2, delays, 2, outside, 2, &answer);
    wrong += answer.number != SEAMWHISK_OFFSET || seamwhisk_is_clear(&answer);
    wrong += joined(SEAMWHISK_MAX_TEXTS, 0, 2) + joined(SIZE_MAX, 0, 2);
    wrong += joined(SEAMWHISK_MAX_TEXTS - 1, SEAMWHISK_BUFFER, 0) + joined(0, SEAMWHISK_BUFFER, 0);
    printf("%d wrong\n", wrong);
    return wrong != 0;
}
