/* Reads the oracle's cases on standard input, calls the C functions on them and prints the answers
 * in the oracle's format, one line a case. Kind 11 has no C function: its line is `-`.
 * It also sees that nothing is written behind the answer or behind a lent buffer.
 * With -DBASELINE it calls the C baseline instead. */
#include <inttypes.h>
#include <stdbool.h>
#include <stdio.h>
#include <stdlib.h>

#ifdef BASELINE
#include "rules.h"
#define CALL(name) rules_##name
#else
#include "seamwhisk.h"
#define CALL(name) seamwhisk_##name
#endif

#define MOST_NUMBERS 2112
#define MOST_BYTES 33024
#define LINE_ROOM 16384
#define MARK UINT64_C(0xA5A5A5A5A5A5A5A5)

/* Each answer has just its numbers. */
#define HAS(type, count) typedef char type##_has_##count[sizeof(type) == 8 * count ? 1 : -1]
HAS(seamwhisk_checked, 5);
HAS(seamwhisk_planned, 2);
HAS(seamwhisk_searched, 3);
HAS(seamwhisk_read, 5);
HAS(seamwhisk_text_answer, 4);
HAS(seamwhisk_run, 3);
HAS(seamwhisk_written, 3);
HAS(seamwhisk_reported, 8);

/* A record has two numbers of 32 bits. */
HAS(seamwhisk_record, 1);

/* Lists have `length` elements. A lent one has `first`, first + 1, .. from start to end of `at`. */
struct numbers {
    uint32_t at[MOST_NUMBERS];
    size_t length;
    uint32_t first;
};

struct bytes {
    uint8_t at[MOST_BYTES];
    size_t length;
    uint32_t first;
};

struct table {
    uint32_t period, size;
    struct numbers delays;
};

/* The rest of the line that is being read; wrong once something was not as it should be. */
static const char *rest;
static bool wrong;

/* Something was written behind an answer or a lent buffer. */
static bool spilt;

/* The next number, at most `most`. Words are parted by one space. */
static uint64_t number(uint64_t most)
{
    uint64_t value = 0;
    if (*rest < '0' || *rest > '9')
        wrong = true;
    for (; *rest >= '0' && *rest <= '9'; rest++) {
        uint64_t digit = (uint64_t)(*rest - '0');
        if (value > (most - digit) / 10)
            wrong = true;
        value = wrong ? 0 : 10 * value + digit;
    }
    if (*rest == ' ')
        rest++;
    return value;
}

static struct numbers list(void)
{
    struct numbers list = {{0}, (size_t)number(MOST_NUMBERS), 0};
    for (size_t k = 0; k < list.length; k++)
        list.at[k] = (uint32_t)number(UINT32_MAX);
    return list;
}

static struct bytes byte_list(void)
{
    struct bytes list = {{0}, (size_t)number(MOST_BYTES), 0};
    for (size_t k = 0; k < list.length; k++)
        list.at[k] = (uint8_t)number(UINT8_MAX);
    return list;
}

static struct numbers lent(void)
{
    struct numbers list;
    list.length = (size_t)number(MOST_NUMBERS);
    list.first = (uint32_t)number(UINT32_MAX);
    for (size_t k = 0; k < MOST_NUMBERS; k++)
        list.at[k] = list.first + (uint32_t)k;
    return list;
}

static struct bytes lent_bytes(void)
{
    struct bytes list;
    list.length = (size_t)number(MOST_BYTES);
    list.first = (uint32_t)number(UINT32_MAX);
    for (size_t k = 0; k < MOST_BYTES; k++)
        list.at[k] = (uint8_t)(list.first + k);
    return list;
}

static struct table table(void)
{
    struct table table;
    table.period = (uint32_t)number(UINT32_MAX);
    table.size = (uint32_t)number(UINT32_MAX);
    table.delays = list();
    return table;
}

/* An answer, as its struct and as the words that are printed. */
union answer {
    uint64_t words[8];
    seamwhisk_checked checked;
    seamwhisk_planned planned;
    seamwhisk_searched searched;
    seamwhisk_read read;
    seamwhisk_run run;
    seamwhisk_written written;
    seamwhisk_reported reported;
};

static const union answer fresh = {{MARK, MARK, MARK, MARK, MARK, MARK, MARK, MARK}};

static void print_answer(const union answer *answer, size_t count)
{
    for (size_t k = 0; k < count; k++)
        printf("%s%" PRIu64, k == 0 ? "" : " ", answer->words[k]);
    for (size_t k = count; k < 8; k++)
        spilt = spilt || answer->words[k] != MARK;
}

static void print_lent(const struct numbers *list)
{
    for (size_t k = 0; k < list->length; k++)
        printf(" %" PRIu32, list->at[k]);
    for (size_t k = list->length; k < MOST_NUMBERS; k++)
        spilt = spilt || list->at[k] != list->first + (uint32_t)k;
}

static void print_lent_bytes(const struct bytes *list)
{
    for (size_t k = 0; k < list->length; k++)
        printf(" %u", list->at[k]);
    for (size_t k = list->length; k < MOST_BYTES; k++)
        spilt = spilt || list->at[k] != (uint8_t)(list->first + k);
}

static void check(void)
{
    struct table t = table();
    struct numbers offsets = list();
    union answer answer = fresh;
    CALL(check)(t.period, t.size, t.delays.at, t.delays.length, offsets.at, offsets.length,
                &answer.checked);
    print_answer(&answer, 5);
}

/* What first_fit, meta_offset and one_slot are called alike. */
typedef void planner(uint32_t, uint32_t, const uint32_t *, size_t, uint32_t *, size_t,
                     seamwhisk_planned *);

static void plan_by(planner *call)
{
    struct table t = table();
    struct numbers offsets = lent();
    union answer answer = fresh;
    call(t.period, t.size, t.delays.at, t.delays.length, offsets.at, offsets.length,
         &answer.planned);
    print_answer(&answer, 2);
    print_lent(&offsets);
}

static void first_fit(void)
{
    plan_by(CALL(first_fit));
}

static void meta_offset(void)
{
    plan_by(CALL(meta_offset));
}

static void one_slot(void)
{
    plan_by(CALL(one_slot));
}

static void exact(void)
{
    uint32_t period = (uint32_t)number(UINT32_MAX);
    uint32_t size = (uint32_t)number(UINT32_MAX);
    uint64_t budget = number(UINT64_MAX);
    struct numbers delays = list();
    struct numbers offsets = lent();
    union answer answer = fresh;
    CALL(exact)(period, size, delays.at, delays.length, budget, offsets.at, offsets.length,
                &answer.searched);
    print_answer(&answer, 3);
    print_lent(&offsets);
}

static void read_table(void)
{
    struct bytes text = byte_list();
    struct numbers delays = lent();
    union answer answer = fresh;
    CALL(read_table)(text.at, text.length, delays.at, delays.length, &answer.read);
    print_answer(&answer, 5);
    print_lent(&delays);
}

/* The parts of joined texts, each so many times over. */
static struct bytes joined(void)
{
    struct bytes texts = {{0}, 0, 0};
    for (uint64_t parts = number(MOST_BYTES); parts > 0 && !wrong; parts--) {
        uint64_t times = number(MOST_BYTES);
        struct bytes part = byte_list();
        for (; times > 0 && !wrong; times--)
            for (size_t k = 0; k < part.length && !wrong; k++) {
                wrong = texts.length == MOST_BYTES;
                if (!wrong)
                    texts.at[texts.length++] = part.at[k];
            }
    }
    return texts;
}

/* The elements that are no longer as they were lent, with their indices. */
static void print_changes(const struct numbers *list)
{
    size_t changed = 0;
    for (size_t k = 0; k < list->length; k++)
        changed += list->at[k] != list->first + (uint32_t)k;
    printf(" %zu", changed);
    for (size_t k = 0; k < list->length; k++)
        if (list->at[k] != list->first + (uint32_t)k)
            printf(" %zu %" PRIu32, k, list->at[k]);
    for (size_t k = list->length; k < MOST_NUMBERS; k++)
        spilt = spilt || list->at[k] != list->first + (uint32_t)k;
}

/* The same of the answers, which are numbers of 64 bits. */
static void print_changed_answers(const uint64_t *answers, const struct numbers *lent)
{
    size_t changed = 0;
    for (size_t k = 0; k < lent->length; k++)
        changed += answers[k] != lent->at[k];
    printf(" %zu", changed);
    for (size_t k = 0; k < lent->length; k++)
        if (answers[k] != lent->at[k])
            printf(" %zu %" PRIu64, k, answers[k]);
    for (size_t k = lent->length; k < MOST_NUMBERS; k++)
        spilt = spilt || answers[k] != lent->at[k];
}

static void plan_texts(void)
{
    uint64_t budget = number(UINT64_MAX);
    struct bytes texts = joined();
    struct numbers first = lent();
    struct numbers offsets = lent();
    uint64_t answers[MOST_NUMBERS];
    for (size_t k = 0; k < MOST_NUMBERS; k++)
        answers[k] = first.at[k];
    union answer answer = fresh;
    CALL(plan_texts_flat)(texts.at, texts.length, budget, answers, first.length, offsets.at,
                          offsets.length, &answer.run);
    print_answer(&answer, 3);
    print_changed_answers(answers, &first);
    print_changes(&offsets);
}

static void write_plan(void)
{
    struct table t = table();
    struct numbers offsets = list();
    struct bytes file = lent_bytes();
    union answer answer = fresh;
    CALL(write_plan)(t.period, t.size, t.delays.at, t.delays.length, offsets.at, offsets.length,
                     file.at, file.length, &answer.written);
    print_answer(&answer, 3);
    print_lent_bytes(&file);
}

static void read_plan(void)
{
    struct bytes file = byte_list();
    struct numbers delays = lent();
    struct numbers offsets = lent();
    union answer answer = fresh;
    CALL(read_plan)(file.at, file.length, delays.at, delays.length, offsets.at, offsets.length,
                    &answer.read);
    print_answer(&answer, 5);
    print_lent(&delays);
    print_lent(&offsets);
}

static void report(void)
{
    struct table t = table();
    struct numbers offsets = list();
    union answer answer = fresh;
    CALL(report)(t.period, t.size, t.delays.at, t.delays.length, offsets.at, offsets.length,
                 &answer.reported);
    print_answer(&answer, 8);
}

static void ceiling(void)
{
    printf("%" PRIu64, CALL(ceiling)((size_t)number(SIZE_MAX)));
}

static void check_records(void)
{
    uint32_t period = (uint32_t)number(UINT32_MAX);
    uint32_t size = (uint32_t)number(UINT32_MAX);
    size_t rows = (size_t)number(MOST_NUMBERS);
    seamwhisk_record records[MOST_NUMBERS];
    for (size_t k = 0; k < rows; k++) {
        records[k].delay = (uint32_t)number(UINT32_MAX);
        records[k].offset = (uint32_t)number(UINT32_MAX);
    }
    union answer answer = fresh;
    CALL(check_records)(period, size, records, rows, &answer.checked);
    print_answer(&answer, 5);
}

/* A kind that has no C function. */
static void none(void)
{
    while (*rest != '\0' && !wrong)
        number(UINT64_MAX);
    printf("-");
}

int main(void)
{
    static void (*const kinds[])(void) = {check,      first_fit,  meta_offset, exact,
                                          read_table, write_plan, read_plan,   report,
                                          ceiling,    check_records, none,     plan_texts,
                                          one_slot};
    static char line[LINE_ROOM];
    for (unsigned long count = 1; fgets(line, sizeof line, stdin) != NULL; count++) {
        char *end = line;
        while (*end != '\0' && *end != '\n')
            end++;
        wrong = *end == '\0';
        *end = '\0';
        rest = line;
        uint64_t kind = number(13);
        if (wrong || kind == 0) {
            fprintf(stderr, "line %lu is not a case\n", count);
            return 1;
        }
        kinds[kind - 1]();
        putchar('\n');
        if (wrong || *rest != '\0' || spilt) {
            fprintf(stderr, "line %lu %s\n", count, spilt ? "wrote too far" : "is not a case");
            return 1;
        }
    }
    return 0;
}
