/* Times the C baseline and Seamwhisk side by side: the same workloads in one run, in turn, several
 * rounds, the best of each. First it sees that both give equal answers and buffers. Prints a
 * markdown table; exit status 1 if an answer differs or is not the one expected. */
#define _POSIX_C_SOURCE 199309L

#include <inttypes.h>
#include <stdbool.h>
#include <stdio.h>
#include <string.h>
#include <time.h>

#include "rules.h"
#include "seamwhisk.h"

#define PERIOD 1000000
#define ROWS SEAMWHISK_MAX_ROWS
#define TEXTS SEAMWHISK_MAX_TEXTS
#define LIGHT 500
#define FULL 15000
#define ROUND_NS 2e6   /* a round is as many calls as take this long, at least one */
#define LEAST_ROUNDS 7 /* so many rounds, and more until all have taken LEAST_NS */
#define LEAST_NS 1e9

/* One side of the comparison. */
struct side {
    void (*check)(uint32_t, uint32_t, const uint32_t *, size_t, const uint32_t *, size_t,
                  seamwhisk_checked *);
    void (*check_records)(uint32_t, uint32_t, const seamwhisk_record *, size_t, seamwhisk_checked *);
    void (*first_fit)(uint32_t, uint32_t, const uint32_t *, size_t, uint32_t *, size_t,
                      seamwhisk_planned *);
    void (*meta_offset)(uint32_t, uint32_t, const uint32_t *, size_t, uint32_t *, size_t,
                        seamwhisk_planned *);
    void (*one_slot)(uint32_t, uint32_t, const uint32_t *, size_t, uint32_t *, size_t,
                     seamwhisk_planned *);
    void (*exact)(uint32_t, uint32_t, const uint32_t *, size_t, uint64_t, uint32_t *, size_t,
                  seamwhisk_searched *);
    uint64_t (*ceiling)(size_t);
    void (*read_table)(const uint8_t *, size_t, uint32_t *, size_t, seamwhisk_read *);
    void (*plan_texts)(const uint8_t *, size_t, uint64_t, uint64_t *, size_t, uint32_t *, size_t,
                       seamwhisk_run *);
    void (*write_plan)(uint32_t, uint32_t, const uint32_t *, size_t, const uint32_t *, size_t,
                       uint8_t *, size_t, seamwhisk_written *);
    void (*read_plan)(const uint8_t *, size_t, uint32_t *, size_t, uint32_t *, size_t,
                      seamwhisk_read *);
    void (*report)(uint32_t, uint32_t, const uint32_t *, size_t, const uint32_t *, size_t,
                   seamwhisk_reported *);
};

static const struct side baseline = {
    rules_check,           rules_check_records, rules_first_fit, rules_meta_offset,
    rules_one_slot,        rules_exact,         rules_ceiling,   rules_read_table,
    rules_plan_texts_flat, rules_write_plan,    rules_read_plan, rules_report};
static const struct side seamwhisk = {
    seamwhisk_check,           seamwhisk_check_records, seamwhisk_first_fit, seamwhisk_meta_offset,
    seamwhisk_one_slot,        seamwhisk_exact,         seamwhisk_ceiling,   seamwhisk_read_table,
    seamwhisk_plan_texts_flat, seamwhisk_write_plan,    seamwhisk_read_plan, seamwhisk_report};

/* What the workloads are run on; made once, the same for both sides. */
static const uint32_t eight_delays[8] = {7, 16, 16, 16, 16, 16, 16, 16};
static uint32_t delays[ROWS], plan[ROWS];
/* Tables that cost the one-slot planner much, found by searching: many rows have no free offset,
 * and many are tried before one gives way. Each has its period in its name. */
static const uint32_t tight_64[ROWS] = {
    0, 57, 53, 39, 45, 4, 52, 36, 41, 37, 27, 60, 38, 39, 49, 51, 47, 44, 41, 47, 41, 36, 31, 31,
    53, 31, 45, 40, 40, 22, 29, 15, 23, 16, 9, 7, 8, 5, 3, 63, 60, 4, 6, 2, 56, 62, 61, 60, 59, 56,
    46, 47, 33, 33, 33, 27, 27, 27, 27, 8, 27, 43, 41, 22};
static const uint32_t tight_65[ROWS] = {
    0, 58, 44, 32, 38, 60, 58, 36, 62, 61, 56, 57, 40, 39, 45, 30, 22, 38, 41, 30, 40, 40, 30, 26,
    35, 34, 18, 30, 19, 27, 32, 21, 10, 13, 6, 5, 1, 5, 63, 60, 57, 2, 63, 60, 55, 52, 63, 53, 57,
    53, 48, 47, 47, 24, 22, 22, 22, 35, 10, 29, 15, 9, 61, 22};
static const uint32_t tight_66[ROWS] = {
    0, 48, 9, 18, 46, 55, 64, 43, 14, 17, 55, 5, 56, 4, 49, 41, 51, 53, 63, 53, 63, 57, 63, 42, 42,
    46, 44, 41, 49, 42, 49, 43, 55, 25, 25, 25, 25, 25, 25, 25, 25, 30, 29, 26, 18, 22, 19, 7, 29,
    29, 18, 15, 4, 7, 5, 62, 28, 23, 4, 3, 65, 47, 47, 13};
/* The worst of all that were found. */
static const uint32_t worst_71[ROWS] = {
    0, 0, 0, 0, 0, 0, 0, 0, 0, 0, 0, 0, 0, 0, 0, 0, 32, 27, 0, 0, 41, 23, 0, 46, 0, 23, 23, 23, 23,
    23, 23, 23, 43, 22, 23, 23, 23, 23, 23, 23, 23, 23, 23, 23, 69, 57, 62, 9, 12, 17, 0, 0, 21, 17,
    26, 16, 0, 23, 0, 70, 0, 0, 23, 0};
/* Here the last row is the only one without a free offset. */
static uint32_t stuck_95[ROWS], moved_126[ROWS];
static seamwhisk_record records[ROWS];
static uint8_t text[SEAMWHISK_MAX_TEXT], file[SEAMWHISK_MAX_FILE];
static size_t text_length, file_length;
static uint8_t long_texts[TEXTS * SEAMWHISK_MAX_TEXT], short_texts[TEXTS * SEAMWHISK_MAX_TEXT];
static size_t long_length, short_length;

/* All that a call can write: the answer and the lent buffers. */
struct result {
    union {
        uint64_t words[8];
        seamwhisk_checked checked;
        seamwhisk_planned planned;
        seamwhisk_searched searched;
        seamwhisk_read read;
        seamwhisk_run run;
        seamwhisk_written written;
        seamwhisk_reported reported;
    } answer;
    uint32_t delays[ROWS], offsets[TEXTS * ROWS];
    uint64_t answers[4 * TEXTS];
    uint8_t file[SEAMWHISK_MAX_FILE];
};

static volatile uint64_t sink;

static void exact(const struct side *side, struct result *r)
{
    side->exact(17, 2, eight_delays, 8, side->ceiling(8), r->offsets, ROWS, &r->answer.searched);
}

static void first_fit_light(const struct side *side, struct result *r)
{
    side->first_fit(PERIOD, LIGHT, delays, ROWS, r->offsets, ROWS, &r->answer.planned);
}

static void first_fit_full(const struct side *side, struct result *r)
{
    side->first_fit(PERIOD, FULL, delays, ROWS, r->offsets, ROWS, &r->answer.planned);
}

static void meta_offset_light(const struct side *side, struct result *r)
{
    side->meta_offset(PERIOD, LIGHT, delays, ROWS, r->offsets, ROWS, &r->answer.planned);
}

static void meta_offset_full(const struct side *side, struct result *r)
{
    side->meta_offset(PERIOD, FULL, delays, ROWS, r->offsets, ROWS, &r->answer.planned);
}

static void one_slot(const struct side *side, struct result *r, uint32_t period,
                     const uint32_t *table)
{
    side->one_slot(period, 1, table, ROWS, r->offsets, ROWS, &r->answer.planned);
}

static void one_slot_64(const struct side *side, struct result *r)
{
    one_slot(side, r, 64, tight_64);
}

static void one_slot_65(const struct side *side, struct result *r)
{
    one_slot(side, r, 65, tight_65);
}

static void one_slot_66(const struct side *side, struct result *r)
{
    one_slot(side, r, 66, tight_66);
}

static void one_slot_71(const struct side *side, struct result *r)
{
    one_slot(side, r, 71, worst_71);
}

static void one_slot_95(const struct side *side, struct result *r)
{
    one_slot(side, r, 95, stuck_95);
}

static void one_slot_126(const struct side *side, struct result *r)
{
    one_slot(side, r, 126, moved_126);
}

static void one_slot_127(const struct side *side, struct result *r)
{
    one_slot(side, r, 127, delays);
}

static void one_slot_long(const struct side *side, struct result *r)
{
    one_slot(side, r, PERIOD, delays);
}

static void check(const struct side *side, struct result *r)
{
    side->check(PERIOD, LIGHT, delays, ROWS, plan, ROWS, &r->answer.checked);
}

static void check_records(const struct side *side, struct result *r)
{
    side->check_records(PERIOD, LIGHT, records, ROWS, &r->answer.checked);
}

static void report(const struct side *side, struct result *r)
{
    side->report(PERIOD, LIGHT, delays, ROWS, plan, ROWS, &r->answer.reported);
}

static void read_table(const struct side *side, struct result *r)
{
    side->read_table(text, text_length, r->delays, ROWS, &r->answer.read);
}

static void plan_long_texts(const struct side *side, struct result *r)
{
    side->plan_texts(long_texts, long_length, 1000, r->answers, 4 * TEXTS, r->offsets, TEXTS * ROWS,
                     &r->answer.run);
}

static void plan_short_texts(const struct side *side, struct result *r)
{
    side->plan_texts(short_texts, short_length, 1000, r->answers, 4 * TEXTS, r->offsets,
                     TEXTS * ROWS, &r->answer.run);
}

static void write_plan(const struct side *side, struct result *r)
{
    side->write_plan(PERIOD, LIGHT, delays, ROWS, plan, ROWS, r->file, sizeof r->file,
                     &r->answer.written);
}

static void read_plan(const struct side *side, struct result *r)
{
    side->read_plan(file, file_length, r->delays, ROWS, r->offsets, ROWS, &r->answer.read);
}

/* A workload: its name, the first words that its answer must have, and the call. */
struct workload {
    const char *name;
    size_t words;
    uint64_t expected[5];
    void (*call)(const struct side *, struct result *);
};

static const struct workload workloads[] = {
    {"exact, 17, 2, (7, then seven times 16): 14 after 33,809,510 tests",
     3, {14, 0, 33809510}, exact},
    {"First Fit, size 500: a plan", 2, {0, 0}, first_fit_light},
    {"First Fit, size 15,000: 13 at row 41", 2, {13, 41}, first_fit_full},
    {"Meta-Offset, size 500: a plan", 2, {0, 0}, meta_offset_light},
    {"Meta-Offset, size 15,000: 13 at row 42", 2, {13, 42}, meta_offset_full},
    {"one-slot, hard table of period 64: 13 at row 63", 2, {13, 63}, one_slot_64},
    {"one-slot, hard table of period 65: a plan", 2, {0, 0}, one_slot_65},
    {"one-slot, hard table of period 66: a plan", 2, {0, 0}, one_slot_66},
    {"one-slot, worst table found, period 71: 13 at row 63", 2, {13, 63}, one_slot_71},
    {"one-slot, period 95, no move for row 63: 13", 2, {13, 63}, one_slot_95},
    {"one-slot, period 126, a move for row 63: a plan", 2, {0, 0}, one_slot_126},
    {"one-slot, period 127: a plan, no move", 2, {0, 0}, one_slot_127},
    {"one-slot, period 1,000,000: a plan, no move", 2, {0, 0}, one_slot_long},
    {"checker, size 500: clear", 5, {0, 0, 0, 0, 0}, check},
    {"checker over records, size 500: clear", 5, {0, 0, 0, 0, 0}, check_records},
    {"stretch report, size 500", 3, {0, 0, PERIOD - ROWS * LIGHT}, report},
    {"text table, read", 5, {0, 0, PERIOD, LIGHT, ROWS}, read_table},
    {"joined texts, 32 of 64 rows: 12 each", 3, {0, 0, TEXTS}, plan_long_texts},
    {"joined texts, 32 of 8 rows: plans", 3, {0, 0, TEXTS}, plan_short_texts},
    {"plan file, written", 2, {0, 0}, write_plan},
    {"plan file, read", 5, {0, 0, PERIOD, LIGHT, ROWS}, read_plan},
};

/* The text of the first delays, and its length. */
static size_t make_text(uint8_t *into, size_t room, size_t rows)
{
    char *at = (char *)into;
    int length = snprintf(at, room, "pma 1\n%d %d\n", PERIOD, LIGHT);
    for (size_t row = 0; row < rows; row++)
        length += snprintf(at + length, room - (size_t)length, "%" PRIu32 "\n", delays[row]);
    length += snprintf(at + length, room - (size_t)length, "end %zu\n", rows);
    return (size_t)length;
}

/* Each row but the last has a free offset. The last has none: at the period 95 no move helps
 * either, at 126 one does. */
static void make_one_slot_tables(void)
{
    for (size_t row = 31; row < ROWS; row++)
        stuck_95[row] = 31;
    stuck_95[32] = 61;
    stuck_95[63] = 30;
    moved_126[63] = 63;
}

/* Pseudo-random delays from a fixed seed; the plan, the texts and the file that go with them. */
static bool make_inputs(void)
{
    uint32_t state = 1;
    for (size_t row = 0; row < ROWS; row++) {
        state = state * 1664525u + 1013904223u;
        delays[row] = state >> 8;
    }
    make_one_slot_tables();
    text_length = make_text(text, sizeof text, ROWS);
    for (size_t t = 0; t < TEXTS; t++) {
        long_length += make_text(long_texts + long_length, sizeof long_texts - long_length, ROWS);
        short_length += make_text(short_texts + short_length, sizeof short_texts - short_length, 8);
    }
    seamwhisk_planned planned;
    seamwhisk_written written;
    rules_first_fit(PERIOD, LIGHT, delays, ROWS, plan, ROWS, &planned);
    for (size_t row = 0; row < ROWS; row++)
        records[row] = (seamwhisk_record){delays[row], plan[row]};
    rules_write_plan(PERIOD, LIGHT, delays, ROWS, plan, ROWS, file, sizeof file, &written);
    file_length = (size_t)written.length;
    return planned.number == 0 && written.number == 0;
}

static void print_answer(const char *name, const uint64_t *words, size_t count)
{
    printf("  %s:", name);
    for (size_t k = 0; k < count; k++)
        printf(" %" PRIu64, words[k]);
    printf("\n");
}

/* Calls both sides once, on buffers that hold the same bytes. */
static bool same_results(const struct workload *workload)
{
    struct result c, s;
    memset(&c, 0xA5, sizeof c);
    memset(&s, 0xA5, sizeof s);
    workload->call(&baseline, &c);
    workload->call(&seamwhisk, &s);
    size_t compared = workload->words * sizeof(uint64_t);
    if (memcmp(&c, &s, sizeof c) == 0 &&
        memcmp(c.answer.words, workload->expected, compared) == 0)
        return true;
    printf("%s: answers or buffers differ\n", workload->name);
    print_answer("expected", workload->expected, workload->words);
    print_answer("C", c.answer.words, 8);
    print_answer("Seamwhisk", s.answer.words, 8);
    return false;
}

/* Nanoseconds of processor time a call, over so many calls. */
static double time_calls(const struct workload *workload, const struct side *side, long calls)
{
    struct result r;
    struct timespec from, to;
    clock_gettime(CLOCK_PROCESS_CPUTIME_ID, &from);
    for (long k = 0; k < calls; k++) {
        workload->call(side, &r);
        sink += r.answer.words[0];
    }
    clock_gettime(CLOCK_PROCESS_CPUTIME_ID, &to);
    double ns = 1e9 * (double)(to.tv_sec - from.tv_sec) + (double)(to.tv_nsec - from.tv_nsec);
    return ns / (double)calls;
}

/* As many calls as take a round; at least one. */
static long calls_in_a_round(const struct workload *workload, const struct side *side)
{
    long calls = 1;
    while (calls < 1000000 && time_calls(workload, side, calls) * (double)calls < ROUND_NS)
        calls *= 2;
    return calls;
}

static void print_time(double ns)
{
    if (ns < 1e5)
        printf(" %.0f ns |", ns);
    else
        printf(" %.2f ms |", ns / 1e6);
}

static void compare(const struct workload *workload)
{
    const struct side *const sides[2] = {&baseline, &seamwhisk};
    double best[2] = {0, 0}, total = 0;
    long calls[2];
    for (int k = 0; k < 2; k++)
        calls[k] = calls_in_a_round(workload, sides[k]);
    for (int round = 0; round < LEAST_ROUNDS || total < LEAST_NS; round++)
        for (int k = 0; k < 2; k++) {
            double ns = time_calls(workload, sides[k], calls[k]);
            total += ns * (double)calls[k];
            if (round == 0 || ns < best[k])
                best[k] = ns;
        }
    printf("| %s |", workload->name);
    print_time(best[0]);
    print_time(best[1]);
    printf(" %.2f |\n", best[1] / best[0]);
    fflush(stdout);
}

int main(void)
{
    const size_t count = sizeof workloads / sizeof workloads[0];
    bool same = make_inputs();
    for (size_t k = 0; k < count; k++)
        same = same_results(&workloads[k]) && same;
    if (!same)
        return 1;
    printf("| workload | C | Seamwhisk | ratio |\n|---|--:|--:|--:|\n");
    for (size_t k = 0; k < count; k++)
        compare(&workloads[k]);
    return 0;
}
