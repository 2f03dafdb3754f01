/* The C baseline: the rules in plain C. See rules.h. */
#include "rules.h"

#include <stdbool.h>
#include <string.h>

#define MAX_ROWS SEAMWHISK_MAX_ROWS
#define MAX_EXACT_ROWS SEAMWHISK_MAX_EXACT_ROWS

/* A refusal; number 0: none. */
struct fault {
    uint64_t number, place;
};

static const struct fault no_fault = {0, 0};

static struct fault refuse(uint64_t number, uint64_t place)
{
    struct fault fault = {number, place};
    return fault;
}

/* The table that a reader or a planner works on, and its plan. */
struct plan {
    uint32_t period, size;
    size_t rows;
    uint32_t delays[MAX_ROWS], offsets[MAX_ROWS];
};

/* ---- the two crossings ---- */

/* Do messages that start at a and b meet? */
static inline bool meet(uint32_t a, uint32_t b, uint32_t period, uint32_t size)
{
    uint32_t ahead = a >= b ? a - b : a + period - b; /* (a - b) modulo P */
    return ahead < size || ahead > period - size;
}

/* The start in the second crossing, of an offset below the period and a delay in its range. */
static uint32_t second_start(uint32_t offset, uint32_t delay, uint32_t period)
{
    return (offset + delay) % period;
}

/* 5, 6, 8, 7 */
static struct fault judge_table(uint32_t period, uint32_t size, const uint32_t *delays, size_t rows)
{
    if (period < 1 || period > SEAMWHISK_MAX_PERIOD)
        return refuse(SEAMWHISK_PERIOD, 0);
    if (size < 1 || size > period)
        return refuse(SEAMWHISK_SIZE, 0);
    if (rows < 1 || rows > MAX_ROWS)
        return refuse(SEAMWHISK_ROWS, 0);
    for (size_t row = 0; row < rows; row++)
        if (delays[row] > SEAMWHISK_MAX_DELAY)
            return refuse(SEAMWHISK_DELAY, row);
    return no_fault;
}

/* 5, 6, 8, 7, 11 for a list that is too short */
static struct fault judge_room(uint32_t period, uint32_t size, const uint32_t *delays, size_t rows,
                               size_t room)
{
    struct fault fault = judge_table(period, size, delays, rows);
    if (fault.number == 0 && room < rows)
        return refuse(SEAMWHISK_BUFFER, 0);
    return fault;
}

/* 5, 6, 8, 7, 11 for not as many offsets as rows, 17 */
static struct fault judge_plan(uint32_t period, uint32_t size, const uint32_t *delays, size_t rows,
                               const uint32_t *offsets, size_t count)
{
    struct fault fault = judge_table(period, size, delays, rows);
    if (fault.number != 0)
        return fault;
    if (count != rows)
        return refuse(SEAMWHISK_BUFFER, 0);
    for (size_t row = 0; row < rows; row++)
        if (offsets[row] >= period)
            return refuse(SEAMWHISK_OFFSET, row);
    return no_fault;
}

/* ---- checker ---- */

/* Names the collision of a plan that passed judge_plan; crossing 0 if it is clear. */
static seamwhisk_checked find_collision(uint32_t period, uint32_t size, const uint32_t *delays,
                                        size_t rows, const uint32_t *offsets)
{
    seamwhisk_checked found = {0, 0, 0, 0, 0};
    uint32_t seconds[MAX_ROWS];
    for (size_t later = 0; later < rows; later++) {
        uint32_t first = offsets[later];
        uint32_t second = second_start(first, delays[later], period);
        for (size_t earlier = 0; earlier < later; earlier++) {
            bool in_first = meet(first, offsets[earlier], period, size);
            if (in_first || meet(second, seconds[earlier], period, size)) {
                found.earlier = earlier;
                found.later = later;
                found.crossing = in_first ? 1 : 2;
                return found;
            }
        }
        seconds[later] = second;
    }
    return found;
}

/* 18 */
static struct fault judge_clear(uint32_t period, uint32_t size, const uint32_t *delays, size_t rows,
                                const uint32_t *offsets)
{
    seamwhisk_checked found = find_collision(period, size, delays, rows, offsets);
    return found.crossing == 0 ? no_fault : refuse(SEAMWHISK_NOT_CLEAR, found.later);
}

void rules_check(uint32_t period, uint32_t size, const uint32_t *delays, size_t rows,
                 const uint32_t *offsets, size_t count, seamwhisk_checked *answer)
{
    struct fault fault = judge_plan(period, size, delays, rows, offsets, count);
    if (fault.number != 0)
        *answer = (seamwhisk_checked){fault.number, fault.place, 0, 0, 0};
    else
        *answer = find_collision(period, size, delays, rows, offsets);
}

/* Above 64 rows no record has to be read: rules_check refuses before it looks at a list. */
void rules_check_records(uint32_t period, uint32_t size, const seamwhisk_record *records,
                         size_t rows, seamwhisk_checked *answer)
{
    uint32_t delays[MAX_ROWS], offsets[MAX_ROWS];
    for (size_t row = 0; rows <= MAX_ROWS && row < rows; row++) {
        delays[row] = records[row].delay;
        offsets[row] = records[row].offset;
    }
    rules_check(period, size, delays, rows, offsets, rows, answer);
}

/* ---- quick planners ---- */

/* Rows already placed: their starts in both crossings. */
struct placed {
    size_t rows;
    uint32_t firsts[MAX_ROWS], seconds[MAX_ROWS];
};

static inline bool is_free(const struct placed *placed, uint32_t first, uint32_t second,
                           uint32_t period, uint32_t size)
{
    for (size_t row = 0; row < placed->rows; row++)
        if (meet(first, placed->firsts[row], period, size) ||
            meet(second, placed->seconds[row], period, size))
            return false;
    return true;
}

/* Puts the next row at the least free offset of 0, stride, 2 stride, .., (tries-1) stride. */
static bool place_next(struct placed *placed, uint32_t delay, uint32_t period, uint32_t size,
                       uint32_t stride, uint32_t tries)
{
    uint32_t first = 0, second = delay % period;
    for (uint32_t k = 0; k < tries; k++) {
        if (is_free(placed, first, second, period, size)) {
            placed->firsts[placed->rows] = first;
            placed->seconds[placed->rows] = second;
            placed->rows++;
            return true;
        }
        first += stride;
        second += stride;
        if (second >= period)
            second -= period;
    }
    return false;
}

static struct fault place_all(uint32_t period, uint32_t size, const uint32_t *delays, size_t rows,
                              uint32_t stride, uint32_t *offsets, size_t room)
{
    struct fault fault = judge_room(period, size, delays, rows, room);
    if (fault.number != 0)
        return fault;
    struct placed placed;
    placed.rows = 0;
    uint32_t tries = period / stride;
    for (size_t row = 0; row < rows; row++)
        if (!place_next(&placed, delays[row], period, size, stride, tries))
            return refuse(SEAMWHISK_NO_OFFSET, row);
    memcpy(offsets, placed.firsts, rows * sizeof *offsets);
    return no_fault;
}

void rules_first_fit(uint32_t period, uint32_t size, const uint32_t *delays, size_t rows,
                     uint32_t *offsets, size_t room, seamwhisk_planned *answer)
{
    struct fault fault = place_all(period, size, delays, rows, 1, offsets, room);
    *answer = (seamwhisk_planned){fault.number, fault.place};
}

void rules_meta_offset(uint32_t period, uint32_t size, const uint32_t *delays, size_t rows,
                       uint32_t *offsets, size_t room, seamwhisk_planned *answer)
{
    struct fault fault = place_all(period, size, delays, rows, size, offsets, room);
    *answer = (seamwhisk_planned){fault.number, fault.place};
}

/* ---- one-slot planner ---- */

/* A row that gives way, its new offset, and the new row's. */
struct move {
    size_t row;
    uint32_t to, offset;
};

/* The least free offset from this one on; the period if there is none. */
static uint32_t next_free(const struct placed *placed, uint32_t delay, uint32_t period,
                          uint32_t size, uint32_t from)
{
    uint32_t first = from, second = second_start(from, delay, period);
    while (first < period && !is_free(placed, first, second, period, size)) {
        first++;
        second = second + 1 < period ? second + 1 : 0;
    }
    return first;
}

static void put_at(struct placed *placed, size_t row, uint32_t delay, uint32_t period,
                   uint32_t offset)
{
    placed->firsts[row] = offset;
    placed->seconds[row] = second_start(offset, delay, period);
}

/* Offsets for a row that is moved and for a new one, beside the others and each other. */
static bool make_room(struct placed *others, uint32_t moving, uint32_t delay, uint32_t period,
                      uint32_t size, struct move *move)
{
    uint32_t least = next_free(others, delay, period, size, 0);
    /* with no room for the new row even so, no offset of the moved one helps */
    if (least >= period)
        return false;
    move->to = next_free(others, moving, period, size, 0);
    while (move->to < period) {
        put_at(others, others->rows, moving, period, move->to);
        others->rows++;
        move->offset = next_free(others, delay, period, size, least);
        others->rows--;
        if (move->offset < period)
            return true;
        move->to = next_free(others, moving, period, size, move->to + 1);
    }
    return false;
}

/* The rows but one: the last stands in its place. */
static void leave_out(const struct placed *placed, size_t row, struct placed *others)
{
    size_t last = placed->rows - 1;
    memcpy(others->firsts, placed->firsts, last * sizeof *others->firsts);
    memcpy(others->seconds, placed->seconds, last * sizeof *others->seconds);
    others->firsts[row] = placed->firsts[last];
    others->seconds[row] = placed->seconds[last];
    others->rows = last;
}

static bool find_move(const struct placed *placed, const uint32_t *delays, uint32_t delay,
                      uint32_t period, uint32_t size, struct move *move)
{
    struct placed others;
    for (move->row = 0; move->row < placed->rows; move->row++) {
        leave_out(placed, move->row, &others);
        if (make_room(&others, delays[move->row], delay, period, size, move))
            return true;
    }
    return false;
}

/* Puts the next row in by a move. */
static bool move_one(struct placed *placed, const uint32_t *delays, uint32_t period, uint32_t size)
{
    struct move move;
    uint32_t delay = delays[placed->rows];
    if (!find_move(placed, delays, delay, period, size, &move))
        return false;
    put_at(placed, move.row, delays[move.row], period, move.to);
    put_at(placed, placed->rows, delay, period, move.offset);
    placed->rows++;
    return true;
}

static struct fault settle_all(uint32_t period, uint32_t size, const uint32_t *delays, size_t rows,
                               uint32_t *offsets, size_t room)
{
    struct fault fault = judge_room(period, size, delays, rows, room);
    if (fault.number != 0)
        return fault;
    if (size != 1)
        return refuse(SEAMWHISK_NOT_ONE_SLOT, 0);
    struct placed placed;
    placed.rows = 0;
    for (size_t row = 0; row < rows; row++)
        if (!place_next(&placed, delays[row], period, size, 1, period) &&
            !move_one(&placed, delays, period, size))
            return refuse(SEAMWHISK_NO_OFFSET, row);
    memcpy(offsets, placed.firsts, rows * sizeof *offsets);
    return no_fault;
}

void rules_one_slot(uint32_t period, uint32_t size, const uint32_t *delays, size_t rows,
                    uint32_t *offsets, size_t room, seamwhisk_planned *answer)
{
    struct fault fault = settle_all(period, size, delays, rows, offsets, room);
    *answer = (seamwhisk_planned){fault.number, fault.place};
}

/* ---- exact planner ---- */

enum outcome { NO_BUILD, BUILD, SPENT };

struct search {
    uint32_t period, size;
    size_t rows;
    uint64_t budget, tests;
    uint32_t delays[MAX_EXACT_ROWS]; /* modulo P */
    bool is_placed[MAX_EXACT_ROWS];
    uint32_t firsts[MAX_EXACT_ROWS], seconds[MAX_EXACT_ROWS]; /* of the rows that are placed */
    struct placed placed;                                     /* the same, in order of placing */
};

static void put(struct search *s, size_t row, uint32_t first, uint32_t second)
{
    s->is_placed[row] = true;
    s->firsts[row] = first;
    s->seconds[row] = second;
    s->placed.firsts[s->placed.rows] = first;
    s->placed.seconds[s->placed.rows] = second;
    s->placed.rows++;
}

static void take_back(struct search *s, size_t row)
{
    s->is_placed[row] = false;
    s->placed.rows--;
}

/* The starts of row j where it follows row i in the crossing (1 or 2). */
static inline void follow(const struct search *s, size_t j, size_t i, int crossing, uint32_t *first,
                          uint32_t *second)
{
    uint32_t delay = s->delays[j];
    uint32_t start = (crossing == 1 ? s->firsts[i] : s->seconds[i]) + s->size;
    if (start >= s->period)
        start -= s->period;
    if (crossing == 1) {
        *first = start;
        *second = start + delay < s->period ? start + delay : start + delay - s->period;
    } else {
        *first = start >= delay ? start - delay : start + s->period - delay;
        *second = start;
    }
}

/* Tries the steps in order (j, i, crossing); a good one goes one row deeper. */
static enum outcome search(struct search *s)
{
    if (s->placed.rows == s->rows)
        return BUILD;
    for (size_t j = 1; j < s->rows; j++) {
        if (s->is_placed[j])
            continue;
        for (size_t i = 0; i < s->rows; i++) {
            if (!s->is_placed[i])
                continue;
            for (int crossing = 1; crossing <= 2; crossing++) {
                uint32_t first, second;
                if (s->tests == s->budget)
                    return SPENT;
                s->tests++;
                follow(s, j, i, crossing, &first, &second);
                if (!is_free(&s->placed, first, second, s->period, s->size))
                    continue;
                put(s, j, first, second);
                enum outcome outcome = search(s);
                if (outcome != NO_BUILD)
                    return outcome;
                take_back(s, j);
            }
        }
    }
    return NO_BUILD;
}

void rules_exact(uint32_t period, uint32_t size, const uint32_t *delays, size_t rows,
                 uint64_t budget, uint32_t *offsets, size_t room, seamwhisk_searched *answer)
{
    struct fault fault = judge_room(period, size, delays, rows, room);
    if (fault.number == 0 && rows > MAX_EXACT_ROWS)
        fault = refuse(SEAMWHISK_EXACT_ROWS, 0);
    if (fault.number != 0) {
        *answer = (seamwhisk_searched){fault.number, fault.place, 0};
        return;
    }
    struct search s = {.period = period, .size = size, .rows = rows, .budget = budget};
    for (size_t row = 0; row < rows; row++)
        s.delays[row] = delays[row] % period;
    put(&s, 0, 0, s.delays[0]);
    enum outcome outcome = search(&s);
    if (outcome == BUILD)
        memcpy(offsets, s.firsts, rows * sizeof *offsets);
    answer->number = outcome == BUILD      ? SEAMWHISK_NOT_REFUSED
                     : outcome == NO_BUILD ? SEAMWHISK_NO_BUILD
                                           : SEAMWHISK_BUDGET_SPENT;
    answer->place = 0;
    answer->tests = s.tests;
}

uint64_t rules_ceiling(size_t rows)
{
    uint64_t sum = 0, product = 1;
    if (rows > MAX_EXACT_ROWS)
        return 0;
    for (uint64_t k = 1; k < rows; k++) {
        product *= 2 * k * (rows - k);
        sum += product;
    }
    return sum;
}

/* ---- text table ---- */

struct text {
    const uint8_t *bytes;
    size_t length, next; /* next: the first byte of the next line */
};

struct line {
    const uint8_t *bytes;
    size_t length, place;
};

/* The next line, without its byte 10. */
static bool next_line(struct text *text, struct line *line)
{
    const uint8_t *start = text->bytes + text->next;
    const uint8_t *end = memchr(start, '\n', text->length - text->next);
    line->place = text->next;
    if (end == NULL)
        return false;
    line->bytes = start;
    line->length = (size_t)(end - start);
    text->next += line->length + 1;
    return true;
}

/* A number of 1 to 8 digits with no leading zero. */
static bool decimal(const uint8_t *word, size_t length, uint32_t *value)
{
    if (length < 1 || length > 8 || (length > 1 && word[0] == '0'))
        return false;
    *value = 0;
    for (size_t k = 0; k < length; k++) {
        if (word[k] < '0' || word[k] > '9')
            return false;
        *value = 10 * *value + (uint32_t)(word[k] - '0');
    }
    return true;
}

/* 4, 5, 6 */
static struct fault line_two(const struct line *line, struct plan *table)
{
    const uint8_t *space = memchr(line->bytes, ' ', line->length);
    if (space == NULL)
        return refuse(SEAMWHISK_LINE_FORM, line->place);
    size_t before = (size_t)(space - line->bytes);
    if (!decimal(line->bytes, before, &table->period) ||
        !decimal(space + 1, line->length - before - 1, &table->size))
        return refuse(SEAMWHISK_LINE_FORM, line->place);
    if (table->period < 1 || table->period > SEAMWHISK_MAX_PERIOD)
        return refuse(SEAMWHISK_PERIOD, line->place);
    if (table->size < 1 || table->size > table->period)
        return refuse(SEAMWHISK_SIZE, line->place);
    return no_fault;
}

/* 4, 7, 8 */
static struct fault delay_line(const struct line *line, struct plan *table)
{
    uint32_t delay;
    if (!decimal(line->bytes, line->length, &delay))
        return refuse(SEAMWHISK_LINE_FORM, line->place);
    if (delay > SEAMWHISK_MAX_DELAY)
        return refuse(SEAMWHISK_DELAY, line->place);
    if (table->rows == MAX_ROWS)
        return refuse(SEAMWHISK_ROWS, line->place);
    table->delays[table->rows++] = delay;
    return no_fault;
}

/* 4, 8, 9 */
static struct fault end_line(const struct line *line, const struct plan *table)
{
    uint32_t count;
    if (!decimal(line->bytes + 4, line->length - 4, &count))
        return refuse(SEAMWHISK_LINE_FORM, line->place);
    if (table->rows == 0)
        return refuse(SEAMWHISK_ROWS, line->place);
    if (count != table->rows)
        return refuse(SEAMWHISK_END_COUNT, line->place);
    return no_fault;
}

/* The lines up to the last one, behind which text->next is left. */
static struct fault read_lines(struct text *text, struct plan *table)
{
    struct fault fault;
    struct line line;
    if (!next_line(text, &line))
        return refuse(SEAMWHISK_LINE_CUT, line.place);
    if (line.length != 5 || memcmp(line.bytes, "pma 1", 5) != 0)
        return refuse(SEAMWHISK_LINE_ONE, line.place);
    if (!next_line(text, &line))
        return refuse(SEAMWHISK_LINE_CUT, line.place);
    fault = line_two(&line, table);
    table->rows = 0;
    while (fault.number == 0) {
        if (!next_line(text, &line))
            return refuse(SEAMWHISK_LINE_CUT, line.place);
        if (line.length >= 4 && memcmp(line.bytes, "end ", 4) == 0)
            return end_line(&line, table);
        fault = delay_line(&line, table);
    }
    return fault;
}

void rules_read_table(const uint8_t *bytes, size_t length, uint32_t *delays, size_t room,
                      seamwhisk_read *answer)
{
    struct text text = {bytes, length, 0};
    struct plan table;
    struct fault fault = no_fault;
    if (length > SEAMWHISK_MAX_TEXT)
        fault = refuse(SEAMWHISK_TEXT_LENGTH, 0);
    else
        fault = read_lines(&text, &table);
    if (fault.number == 0 && text.next < length)
        fault = refuse(SEAMWHISK_BYTES_AFTER, text.next);
    if (fault.number == 0 && room < table.rows)
        fault = refuse(SEAMWHISK_BUFFER, 0);
    if (fault.number != 0) {
        *answer = (seamwhisk_read){fault.number, fault.place, 0, 0, 0};
        return;
    }
    memcpy(delays, table.delays, table.rows * sizeof *delays);
    *answer = (seamwhisk_read){0, 0, table.period, table.size, table.rows};
}

/* ---- joined texts ---- */

/* One text: its fault, or its four numbers, its plan and its length. */
static struct fault plan_text(const uint8_t *bytes, size_t length, uint64_t budget,
                              uint64_t *numbers, uint32_t *offsets, size_t *used)
{
    struct text text = {bytes, length < SEAMWHISK_MAX_TEXT ? length : SEAMWHISK_MAX_TEXT, 0};
    struct plan table;
    struct fault fault = read_lines(&text, &table);
    if (fault.number == SEAMWHISK_LINE_CUT && length > SEAMWHISK_MAX_TEXT)
        return refuse(SEAMWHISK_TEXT_LENGTH, 0);
    if (fault.number != 0)
        return fault;
    seamwhisk_searched answer;
    rules_exact(table.period, table.size, table.delays, table.rows, budget, offsets, MAX_ROWS,
                &answer);
    numbers[0] = answer.number;
    numbers[1] = answer.place;
    numbers[2] = answer.tests;
    numbers[3] = table.rows;
    *used = text.next;
    return no_fault;
}

void rules_plan_texts_flat(const uint8_t *texts, size_t length, uint64_t budget, uint64_t *answers,
                           size_t numbers, uint32_t *offsets, size_t offsets_room,
                           seamwhisk_run *answer)
{
    struct fault fault = no_fault;
    size_t at = 0, count = 0, used = 0;
    if (length > SEAMWHISK_MAX_JOINED)
        fault = refuse(SEAMWHISK_JOINED, 0);
    else if (numbers < 4 * SEAMWHISK_MAX_TEXTS || offsets_room < MAX_ROWS * SEAMWHISK_MAX_TEXTS)
        fault = refuse(SEAMWHISK_BUFFER, 0);
    while (fault.number == 0 && at < length) {
        if (count == SEAMWHISK_MAX_TEXTS) {
            fault = refuse(SEAMWHISK_TEXTS, at);
            break;
        }
        fault = plan_text(texts + at, length - at, budget, answers + 4 * count,
                          offsets + MAX_ROWS * count, &used);
        if (fault.number == 0) {
            at += used;
            count++;
        }
    }
    *answer = (seamwhisk_run){fault.number, fault.place, count};
}

/* ---- plan file ---- */

static const uint8_t tag[4] = {0x50, 0x4D, 0x41, 0x01};

/* Appends a number below 2^28 and gives the new length. */
static size_t write_number(uint8_t *file, size_t length, uint32_t number)
{
    while (number >= 0x80) {
        file[length++] = (uint8_t)(0x80 | (number & 0x7F));
        number >>= 7;
    }
    file[length++] = (uint8_t)number;
    return length;
}

void rules_write_plan(uint32_t period, uint32_t size, const uint32_t *delays, size_t rows,
                      const uint32_t *offsets, size_t count, uint8_t *file, size_t room,
                      seamwhisk_written *answer)
{
    uint8_t bytes[SEAMWHISK_MAX_FILE];
    size_t length = sizeof tag;
    struct fault fault = judge_plan(period, size, delays, rows, offsets, count);
    if (fault.number == 0)
        fault = judge_clear(period, size, delays, rows, offsets);
    if (fault.number == 0) {
        memcpy(bytes, tag, sizeof tag);
        length = write_number(bytes, length, period);
        length = write_number(bytes, length, size);
        length = write_number(bytes, length, (uint32_t)rows);
        for (size_t row = 0; row < rows; row++) {
            length = write_number(bytes, length, delays[row]);
            length = write_number(bytes, length, offsets[row]);
        }
        if (room < length)
            fault = refuse(SEAMWHISK_BUFFER, 0);
    }
    if (fault.number != 0) {
        *answer = (seamwhisk_written){fault.number, fault.place, 0};
        return;
    }
    memcpy(file, bytes, length);
    *answer = (seamwhisk_written){0, 0, length};
}

struct file {
    const uint8_t *bytes;
    size_t length, next; /* next: the first byte of the next number */
};

/* The next number: 19, 20 or 21 for its form, then its own refusal if it is not least .. most. */
static struct fault read_number(struct file *file, uint32_t least, uint32_t most, uint64_t refusal,
                                uint32_t *number)
{
    size_t place = file->next;
    uint32_t value = 0;
    for (unsigned group = 0; group < 4; group++) {
        if (file->next >= file->length)
            return refuse(SEAMWHISK_FILE_CUT, place);
        uint8_t byte = file->bytes[file->next++];
        value |= (uint32_t)(byte & 0x7F) << (7 * group);
        if (byte >= 0x80)
            continue;
        if (byte == 0 && group > 0)
            return refuse(SEAMWHISK_FILE_GROUP, place);
        if (value < least || value > most)
            return refuse(refusal, place);
        *number = value;
        return no_fault;
    }
    return refuse(SEAMWHISK_FILE_LONG, place);
}

static struct fault read_numbers(struct file *file, struct plan *plan)
{
    uint32_t rows = 0;
    struct fault fault;
    fault = read_number(file, 1, SEAMWHISK_MAX_PERIOD, SEAMWHISK_PERIOD, &plan->period);
    if (fault.number == 0)
        fault = read_number(file, 1, plan->period, SEAMWHISK_SIZE, &plan->size);
    if (fault.number == 0)
        fault = read_number(file, 1, MAX_ROWS, SEAMWHISK_ROWS, &rows);
    for (size_t row = 0; fault.number == 0 && row < rows; row++) {
        fault = read_number(file, 0, SEAMWHISK_MAX_DELAY, SEAMWHISK_DELAY, &plan->delays[row]);
        if (fault.number == 0)
            fault = read_number(file, 0, plan->period - 1, SEAMWHISK_OFFSET, &plan->offsets[row]);
    }
    plan->rows = rows;
    return fault;
}

/* 16, 19; each number's 19, 20, 21 and 5, 6, 8, 7, 17; 22, 18 */
static struct fault read_file(struct file *file, struct plan *plan)
{
    for (size_t at = 0; at < sizeof tag; at++) {
        if (at >= file->length)
            return refuse(SEAMWHISK_FILE_CUT, 0);
        if (file->bytes[at] != tag[at])
            return refuse(SEAMWHISK_FILE_TAG, 0);
    }
    file->next = sizeof tag;
    struct fault fault = read_numbers(file, plan);
    if (fault.number != 0)
        return fault;
    if (file->next < file->length)
        return refuse(SEAMWHISK_FILE_AFTER, file->next);
    return judge_clear(plan->period, plan->size, plan->delays, plan->rows, plan->offsets);
}

void rules_read_plan(const uint8_t *bytes, size_t length, uint32_t *delays, size_t delays_room,
                     uint32_t *offsets, size_t offsets_room, seamwhisk_read *answer)
{
    struct file file = {bytes, length, 0};
    struct plan plan;
    struct fault fault = read_file(&file, &plan);
    if (fault.number == 0 && (delays_room < plan.rows || offsets_room < plan.rows))
        fault = refuse(SEAMWHISK_BUFFER, 0);
    if (fault.number != 0) {
        *answer = (seamwhisk_read){fault.number, fault.place, 0, 0, 0};
        return;
    }
    memcpy(delays, plan.delays, plan.rows * sizeof *delays);
    memcpy(offsets, plan.offsets, plan.rows * sizeof *offsets);
    *answer = (seamwhisk_read){0, 0, plan.period, plan.size, plan.rows};
}

/* ---- stretch report ---- */

static void sort(uint32_t *starts, size_t rows)
{
    for (size_t k = 1; k < rows; k++) {
        uint32_t start = starts[k];
        size_t at = k;
        for (; at > 0 && starts[at - 1] > start; at--)
            starts[at] = starts[at - 1];
        starts[at] = start;
    }
}

/* The gaps between the messages of one crossing, once round; counts[0 .. 2] become free, stretches,
 * widest. */
static void gaps(uint32_t period, uint32_t size, uint32_t *starts, size_t rows, uint64_t *counts)
{
    sort(starts, rows);
    uint32_t free_slots = 0, stretches = 0, widest = 0;
    for (size_t row = 0; row < rows; row++) {
        uint32_t next = row + 1 < rows ? starts[row + 1] : starts[0] + period;
        uint32_t gap = next - starts[row] - size;
        free_slots += gap;
        stretches += gap > 0;
        if (gap > widest)
            widest = gap;
    }
    counts[0] = free_slots;
    counts[1] = stretches;
    counts[2] = widest;
}

void rules_report(uint32_t period, uint32_t size, const uint32_t *delays, size_t rows,
                  const uint32_t *offsets, size_t count, seamwhisk_reported *answer)
{
    struct fault fault = judge_plan(period, size, delays, rows, offsets, count);
    if (fault.number == 0)
        fault = judge_clear(period, size, delays, rows, offsets);
    if (fault.number != 0) {
        *answer = (seamwhisk_reported){fault.number, fault.place, 0, 0, 0, 0, 0, 0};
        return;
    }
    uint32_t starts[MAX_ROWS];
    uint64_t one[3], two[3];
    memcpy(starts, offsets, rows * sizeof *starts);
    gaps(period, size, starts, rows, one);
    for (size_t row = 0; row < rows; row++)
        starts[row] = second_start(offsets[row], delays[row], period);
    gaps(period, size, starts, rows, two);
    *answer = (seamwhisk_reported){0, 0, one[0], one[1], one[2], two[0], two[1], two[2]};
}
