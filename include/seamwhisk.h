/* Seamwhisk: plans for shared fibre links. For C99 and C++ on x86-64; link libseamwhisk.a, which
 * needs no library but C's.
 *
 * A table is a period P, a message size T and one delay a row; rows are numbered from 0. A row with
 * offset A uses, in crossing 1, the T slots from A on, and in crossing 2 the T slots from A + delay
 * on, each slot taken modulo P. Two different rows meet in a crossing when they use a common slot
 * there. A plan, one offset a row, is clear when no two rows meet in either crossing.
 *
 * What holds for every call:
 *  - It takes any values and any bytes, of any length, and always ends with an answer.
 *  - answer->number is 0, or the number of a refusal (enum seamwhisk_refusal). A function judges in
 *    the order that its comment gives; the first refusal that applies is the answer.
 *  - Every field of the answer is set. Fields that don't apply are 0; so a refusal has 0 in all
 *    fields but number and place (14 and 15 of the exact planner have their tests too, joined
 *    texts how many were answered, and each of their answers the rows).
 *  - Where number is not 0 each lent buffer keeps everything it had. Where it is 0 the front part
 *    that the comment names is written, and the tail keeps what it had. (seamwhisk_plan_texts says
 *    which parts it writes, and that the answers before a text at fault stand.)
 *  - Nothing is kept between calls, and no memory is allocated.
 *
 * What the caller owes: no pointer is null (with length 0 neither) or misaligned; each points to as
 * many elements as the length beside it says; what is written (the answer, a lent buffer) overlaps
 * nothing else that is passed.
 */
#ifndef SEAMWHISK_H
#define SEAMWHISK_H

#include <stddef.h>
#include <stdint.h>

#ifdef __cplusplus
extern "C" {
#endif

#define SEAMWHISK_VERSION "0.1.0"
#define SEAMWHISK_VERSION_NUMBER 100 /* 10000 * major + 100 * minor + patch */

#define SEAMWHISK_MAX_PERIOD 1000000 /* period: 1 to this; size: 1 to the period */
#define SEAMWHISK_MAX_DELAY 16777215 /* delay: 0 to this, also above the period */
#define SEAMWHISK_MAX_ROWS 64        /* rows: 1 to this */
#define SEAMWHISK_MAX_EXACT_ROWS 8   /* rows of the exact planner: 1 to this */
#define SEAMWHISK_MAX_TEXT 1024      /* bytes of a text table */
#define SEAMWHISK_MAX_FILE 458       /* bytes of a plan file: no clear plan has a longer one */
#define SEAMWHISK_MAX_TEXTS 32       /* texts joined end to end */
#define SEAMWHISK_MAX_JOINED 32768   /* bytes of joined texts */

/* The refusal numbers. In brackets: what answer->place is. "Byte" is a place in the text or file
 * that was read, counted from 0; calls on values have 0 there. */
enum seamwhisk_refusal {
    SEAMWHISK_NOT_REFUSED = 0,
    SEAMWHISK_TEXT_LENGTH = 1,   /* text above 1,024 bytes [0] */
    SEAMWHISK_LINE_ONE = 2,      /* line one is wrong [byte] */
    SEAMWHISK_LINE_CUT = 3,      /* text ends before a line does [byte] */
    SEAMWHISK_LINE_FORM = 4,     /* a line isn't of its form [byte] */
    SEAMWHISK_PERIOD = 5,        /* period outside its range [0, or byte] */
    SEAMWHISK_SIZE = 6,          /* size outside 1 to P [0, or byte] */
    SEAMWHISK_DELAY = 7,         /* delay above its range [row, or byte] */
    SEAMWHISK_ROWS = 8,          /* no rows, or above 64 [0, or byte] */
    SEAMWHISK_END_COUNT = 9,     /* `end` count differs from the rows read [byte] */
    SEAMWHISK_BYTES_AFTER = 10,  /* bytes after the last line [byte] */
    SEAMWHISK_BUFFER = 11,       /* lent buffer too short; for checker, report and writer, not as
                                    many offsets as rows [0] */
    SEAMWHISK_EXACT_ROWS = 12,   /* exact planner, 9 to 64 rows [0] */
    SEAMWHISK_NO_OFFSET = 13,    /* quick or one-slot planner: no offset for a row [row] */
    SEAMWHISK_NO_BUILD = 14,     /* no whole build [0] */
    SEAMWHISK_BUDGET_SPENT = 15, /* test budget spent [0] */
    SEAMWHISK_FILE_TAG = 16,     /* plan file: wrong tag [0] */
    SEAMWHISK_OFFSET = 17,       /* offset at or above P [row, or byte] */
    SEAMWHISK_NOT_CLEAR = 18,    /* plan to write, read or report on isn't clear [later row of the
                                    collision that the checker names] */
    SEAMWHISK_FILE_CUT = 19,     /* plan file: its bytes end inside the tag or a number [byte] */
    SEAMWHISK_FILE_LONG = 20,    /* plan file: a number has more than four bytes [byte] */
    SEAMWHISK_FILE_GROUP = 21,   /* plan file: a number has a needless zero group [byte] */
    SEAMWHISK_FILE_AFTER = 22,   /* plan file: bytes are left over [byte] */
    SEAMWHISK_JOINED = 23,       /* joined texts above 32,768 bytes [0] */
    SEAMWHISK_TEXTS = 24,        /* joined texts: a thirty-third begins [byte of them] */
    SEAMWHISK_NOT_ONE_SLOT = 25  /* one-slot planner: size is not 1 [0] */
};

/* What a refusal number means, in one line. */
static inline const char *seamwhisk_refusal(uint64_t number)
{
    switch (number) {
    case SEAMWHISK_NOT_REFUSED: return "not refused";
    case SEAMWHISK_TEXT_LENGTH: return "the text has more than 1,024 bytes";
    case SEAMWHISK_LINE_ONE: return "line one of the text is not `pma 1`";
    case SEAMWHISK_LINE_CUT: return "the text ends before a line does";
    case SEAMWHISK_LINE_FORM: return "a line of the text is not of its form";
    case SEAMWHISK_PERIOD: return "the period is not 1 to 1,000,000";
    case SEAMWHISK_SIZE: return "the message size is not 1 to the period";
    case SEAMWHISK_DELAY: return "a delay is above 16,777,215";
    case SEAMWHISK_ROWS: return "there are no rows, or more than 64";
    case SEAMWHISK_END_COUNT: return "the count of the line `end` is not that of the rows";
    case SEAMWHISK_BYTES_AFTER: return "bytes follow the line `end`";
    case SEAMWHISK_BUFFER: return "a buffer is too short, or there are not as many offsets as rows";
    case SEAMWHISK_EXACT_ROWS: return "the exact planner takes at most 8 rows";
    case SEAMWHISK_NO_OFFSET: return "this planner has no offset for a row; another may have a plan";
    case SEAMWHISK_NO_BUILD: return "no choice of offsets is clear";
    case SEAMWHISK_BUDGET_SPENT: return "the test budget is spent; nothing is known of the table";
    case SEAMWHISK_FILE_TAG: return "the file is no plan file, or of a later version";
    case SEAMWHISK_OFFSET: return "an offset is not below the period";
    case SEAMWHISK_NOT_CLEAR: return "two rows of the plan meet";
    case SEAMWHISK_FILE_CUT: return "the file is cut off";
    case SEAMWHISK_FILE_LONG: return "a number of the file has more than four bytes";
    case SEAMWHISK_FILE_GROUP: return "a number of the file has a needless zero group";
    case SEAMWHISK_FILE_AFTER: return "bytes follow the plan in the file";
    case SEAMWHISK_JOINED: return "the joined texts have more than 32,768 bytes";
    case SEAMWHISK_TEXTS: return "bytes follow the thirty-second text";
    case SEAMWHISK_NOT_ONE_SLOT: return "the one-slot planner takes the message size 1 only";
    default: return "no refusal number";
    }
}

/* A row with its offset. */
typedef struct seamwhisk_record {
    uint32_t delay;
    uint32_t offset;
} seamwhisk_record;

/* The answer of the checker. */
typedef struct seamwhisk_checked {
    uint64_t number;
    uint64_t place;
    uint64_t earlier;  /* the two rows that meet */
    uint64_t later;
    uint64_t crossing; /* 1 or 2, where they meet; 0: clear, or refused */
} seamwhisk_checked;

/* Whether the checker says that the plan is clear. Ask this, not `number == 0`: a collision is an
 * answer, not a refusal, so its number is 0 too. */
static inline int seamwhisk_is_clear(const seamwhisk_checked *answer)
{
    return answer->number == SEAMWHISK_NOT_REFUSED && answer->crossing == 0;
}

/* The answer of a quick planner, or of the one-slot planner. */
typedef struct seamwhisk_planned {
    uint64_t number;
    uint64_t place;
} seamwhisk_planned;

/* The answer of the exact planner. */
typedef struct seamwhisk_searched {
    uint64_t number;
    uint64_t place;
    uint64_t tests;
} seamwhisk_searched;

/* The answer of the readers of text and file. */
typedef struct seamwhisk_read {
    uint64_t number;
    uint64_t place;
    uint64_t period;
    uint64_t size;
    uint64_t rows;
} seamwhisk_read;

/* The answer to one of several joined texts: what the exact planner answers, and the rows read. */
typedef struct seamwhisk_text_answer {
    uint64_t number; /* 0, 12, 14 or 15 */
    uint64_t place;
    uint64_t tests;
    uint64_t rows;
} seamwhisk_text_answer;

/* The answer to joined texts as a whole. */
typedef struct seamwhisk_run {
    uint64_t number;
    uint64_t place;
    uint64_t texts; /* that were answered; so the index, from 0, of the text at fault */
} seamwhisk_run;

/* The answer of the file writer. */
typedef struct seamwhisk_written {
    uint64_t number;
    uint64_t place;
    uint64_t length; /* of the file, in bytes */
} seamwhisk_written;

/* The answer of the stretch report: free slots, free stretches and the length of the widest
 * stretch (0 if there is none), of crossing 1 and of crossing 2. */
typedef struct seamwhisk_reported {
    uint64_t number;
    uint64_t place;
    uint64_t free_1;
    uint64_t stretches_1;
    uint64_t widest_1;
    uint64_t free_2;
    uint64_t stretches_2;
    uint64_t widest_2;
} seamwhisk_reported;

/* The checker: is the plan clear?
 * Judges 5, 6, 8, 7 (least row), 11 if count is not rows, 17 (least row).
 * Otherwise number and place are 0. A clear plan has earlier, later and crossing 0. A plan that is
 * not clear has its collision there: the one with the least later row, then the least earlier row,
 * then crossing 1 before 2. */
void seamwhisk_check(uint32_t period, uint32_t size, const uint32_t *delays, size_t rows,
                     const uint32_t *offsets, size_t count, seamwhisk_checked *answer);

/* The checker over a list of records, a delay and an offset in each.
 * Judges 5, 6, 8, 7 (least row), 17 (least row): all delays before any offset.
 * The answer is that of seamwhisk_check on the list of the delays and the list of the offsets. */
void seamwhisk_check_records(uint32_t period, uint32_t size, const seamwhisk_record *records,
                             size_t rows, seamwhisk_checked *answer);

/* First Fit: takes the rows in order and gives each the least offset from 0 to P-1 at which it
 * meets no earlier row in either crossing.
 * Judges 5, 6, 8, 7 (least row), 11 if room is below rows, then 13 with the first row that has no
 * such offset. 13 says that this planner gave up, not that the table has no plan.
 * It never comes where P is above (3*rows-2)*T - rows, so never where P divided by T, rounded down,
 * is at least 3*rows-2.
 * Otherwise number is 0 and offsets[0] to offsets[rows-1] are the plan.
 * It tries offset after offset, so its time grows with the period: with 64 rows and a period of
 * 1,000,000 a plan takes some 30 milliseconds, a refusal up to a quarter of a second. Meta-Offset
 * takes less than a tenth of a millisecond there (docs/BENCHMARKS.md). */
void seamwhisk_first_fit(uint32_t period, uint32_t size, const uint32_t *delays, size_t rows,
                         uint32_t *offsets, size_t room, seamwhisk_planned *answer);

/* Meta-Offset: as First Fit, but looks at the offsets 0, T, 2T, .., (m-1)T only, where m is P
 * divided by T, rounded down. Same judging, same buffers. 13 never comes where m is at least
 * 3*rows-2. */
void seamwhisk_meta_offset(uint32_t period, uint32_t size, const uint32_t *delays, size_t rows,
                           uint32_t *offsets, size_t room, seamwhisk_planned *answer);

/* The one-slot planner, for messages of one slot: as First Fit, but where a row has no free offset
 * one earlier row may be moved to let it in. Of all choices of an earlier row, a new offset for it
 * and an offset for the new row with which the rows so far are clear, it takes the one with the
 * least earlier row, then the least new offset of that row, then the least offset of the new row.
 * Nothing but that one row moves. A later row may move a row again.
 * Judges 5, 6, 8, 7 (least row), 11 if room is below rows, 25 if the size is not 1, then 13 with
 * the first row that has no free offset and that no such move lets in. 13 says that this planner
 * gave up, not that the table has no plan. It never comes where P is at least 2*rows-1.
 * Otherwise number is 0 and offsets[0] to offsets[rows-1] are the plan; where First Fit has a plan,
 * it is the same one.
 * Its time does not grow with the period: if there are 2*rows-1 offsets, one of the first so many
 * is free. The worst table that was found takes some milliseconds (docs/BENCHMARKS.md). */
void seamwhisk_one_slot(uint32_t period, uint32_t size, const uint32_t *delays, size_t rows,
                        uint32_t *offsets, size_t room, seamwhisk_planned *answer);

/* The exact planner, for 1 to 8 rows.
 * Row 0 stands at offset 0. A step names a row j not yet placed, a placed row i and a crossing; it
 * puts j so that in this crossing j starts in the slot right after i's last slot. It is good when j
 * then meets no placed row in either crossing. Steps are ordered by j, then i, then crossing. A
 * whole build is rows-1 good steps; builds are compared step by step from the first.
 * The tests are the non-empty step sequences in which every step but perhaps the last is good and
 * which are not later than the least whole build, or all of them if there is no whole build. A
 * sequence stands before its own extensions.
 * Judges 5, 6, 8, 7 (least row), 11 if room is below rows, 12; then 15, with tests equal to the
 * budget, if the number of tests is above the budget; then 14, with the number of tests, if there
 * is no whole build. After 14 no choice of offsets at all is clear.
 * Otherwise number is 0, tests is the number of tests, and offsets[0] to offsets[rows-1] are the
 * offsets of the least whole build, a clear plan. */
void seamwhisk_exact(uint32_t period, uint32_t size, const uint32_t *delays, size_t rows,
                     uint64_t budget, uint32_t *offsets, size_t room, seamwhisk_searched *answer);

/* A budget that the exact planner never passes with so many rows: 0, 2, 20, 342, 10472, 509930,
 * 36086652, 3493657790 for 1 to 8 rows; 0 for any other number. */
uint64_t seamwhisk_ceiling(size_t rows);

/* Reads a text table: a line `pma 1`; a line of period, one space, size; a line for each delay; a
 * line `end`, one space, the number of rows. Byte 10 ends each line, the last too. Numbers are
 * decimal, 1 to 8 digits, with no leading zero but `0` itself.
 * Judges 1; then the lines from the start, the first fault deciding:
 *   each line: 3 if no byte 10 remains;
 *   line one: 2;
 *   line two: 4, 5, 6;
 *   a later line that begins with `end` and a space: 4, 8 if no row came, 9, 10 if bytes follow;
 *   any other line: 4, 7, 8 if 64 rows came already;
 * last of all 11 if room is below the rows read. The place is the first byte of the line at fault
 * (the length of the text where that line has no byte at all), for 10 the first byte after the last
 * line, for 1 and 11 it is 0.
 * Otherwise number is 0; period, size and rows are those of the text; delays[0] to delays[rows-1]
 * are its delays. */
void seamwhisk_read_table(const uint8_t *text, size_t length, uint32_t *delays, size_t room,
                          seamwhisk_read *answer);

/* seamwhisk_plan_texts, below, with the answers as plain numbers: four an answer, in the order of
 * the struct, so that 11 comes below 128 of them. */
void seamwhisk_plan_texts_flat(const uint8_t *texts, size_t length, uint64_t budget,
                               uint64_t *answers, size_t numbers, uint32_t *offsets,
                               size_t offsets_room, seamwhisk_run *answer);

/* Reads texts joined end to end and plans each by the exact planner, with the whole budget.
 * Judges 23; 11 if answers_room is below 32 or offsets_room below 2,048; then text after text:
 *   24 where a thirty-third text begins, whatever stands there, with that byte of the input;
 *   the first fault of its lines, as seamwhisk_read_table judges them, with its place counted from
 *   the text's own first byte; but a line that does not end within the text's first 1,024 bytes is
 *   1, with place 0, where the input goes on past them, and 3 where it does not. 10 is not given:
 *   bytes behind a last line begin another text.
 * Each text before that, answer->texts of them, gets the answer that it gets alone. For text t, from
 * 0, answers[t] has the number, place and tests of seamwhisk_exact and the rows of
 * seamwhisk_read_table. 12, 14 and 15 are such answers and do not stop the run; if its number is 0,
 * offsets[64*t] to offsets[64*t+rows-1] are its plan. Every other element of both lists keeps what
 * it had. Empty input holds no text. */
static inline void seamwhisk_plan_texts(const uint8_t *texts, size_t length, uint64_t budget,
                                        seamwhisk_text_answer *answers, size_t answers_room,
                                        uint32_t *offsets, size_t offsets_room,
                                        seamwhisk_run *answer)
{
    size_t held = answers_room < SEAMWHISK_MAX_TEXTS ? answers_room : SEAMWHISK_MAX_TEXTS;
    seamwhisk_plan_texts_flat(texts, length, budget, (uint64_t *)answers, 4 * held, offsets,
                              offsets_room, answer);
}

/* Writes a plan file: the bytes 50 4D 41 01 (hex), then the numbers period, size, rows, and for
 * each row delay and offset. A number goes in groups of seven bits, lowest group first, with the
 * top bit set in each byte but the last, and in as few bytes as it can.
 * Judges 5, 6, 8, 7 (least row), 11 if count is not rows, 17 (least row), 18, and last 11 if room
 * is below the length of the file.
 * Otherwise number is 0 and file[0] to file[length-1] are the file. */
void seamwhisk_write_plan(uint32_t period, uint32_t size, const uint32_t *delays, size_t rows,
                          const uint32_t *offsets, size_t count, uint8_t *file, size_t room,
                          seamwhisk_written *answer);

/* Reads a plan file. It accepts just the files that the writer writes, one for each clear plan.
 * Judges the tag: 16 if one of the first four bytes is wrong, 19 if they are right as far as they
 * go; then each number as it is read: 19 if the file ends inside it, 20 if its fourth byte has the
 * top bit set, 21 if its last byte is 0 and not its only one, then its range: period 5, size 6,
 * rows 8, each delay 7, each offset 17; then 22 if bytes are left over, 18, and last 11 if
 * delays_room or offsets_room is below the rows read. The place is the first byte of the number
 * (the length of the file where it has no byte at all) or of the bytes left over; for the tag and
 * for 11 it is 0, for 18 the later row.
 * At 19 fetch the file again: a file that the writer wrote and that was cut, anywhere, gets 19 and
 * no other number, and no other refusal is mended by bytes that are missing. At 16 it is no plan
 * file, or one of a later version. At the others, 11 apart, its sender is at fault.
 * Otherwise number is 0; period, size and rows are those of the file; delays[0] to delays[rows-1]
 * and offsets[0] to offsets[rows-1] are its delays and offsets. */
void seamwhisk_read_plan(const uint8_t *file, size_t length, uint32_t *delays, size_t delays_room,
                         uint32_t *offsets, size_t offsets_room, seamwhisk_read *answer);

/* The stretch report on a clear plan. A stretch is a longest run of free slots on the period, where
 * slot P-1 is followed by slot 0: free slots at the end and at the start are one stretch.
 * Judges 5, 6, 8, 7 (least row), 11 if count is not rows, 17 (least row), 18.
 * Otherwise number is 0 and the six fields are filled; free_1 and free_2 are both P - rows * T. All
 * offsets moved on by the same number of slots, modulo P, give the same six. */
void seamwhisk_report(uint32_t period, uint32_t size, const uint32_t *delays, size_t rows,
                      const uint32_t *offsets, size_t count, seamwhisk_reported *answer);

#ifdef __cplusplus
}
#endif

#endif
