/* The C baseline: the functions of seamwhisk.h, written by the same rules in plain C. Each has
 * the contract that seamwhisk.h gives the function of the same name; the types are those there. */
#ifndef RULES_H
#define RULES_H

#include "seamwhisk.h"

void rules_check(uint32_t period, uint32_t size, const uint32_t *delays, size_t rows,
                 const uint32_t *offsets, size_t count, seamwhisk_checked *answer);

void rules_check_records(uint32_t period, uint32_t size, const seamwhisk_record *records,
                         size_t rows, seamwhisk_checked *answer);

void rules_first_fit(uint32_t period, uint32_t size, const uint32_t *delays, size_t rows,
                     uint32_t *offsets, size_t room, seamwhisk_planned *answer);

void rules_meta_offset(uint32_t period, uint32_t size, const uint32_t *delays, size_t rows,
                       uint32_t *offsets, size_t room, seamwhisk_planned *answer);

void rules_one_slot(uint32_t period, uint32_t size, const uint32_t *delays, size_t rows,
                    uint32_t *offsets, size_t room, seamwhisk_planned *answer);

void rules_exact(uint32_t period, uint32_t size, const uint32_t *delays, size_t rows,
                 uint64_t budget, uint32_t *offsets, size_t room, seamwhisk_searched *answer);

uint64_t rules_ceiling(size_t rows);

void rules_read_table(const uint8_t *text, size_t length, uint32_t *delays, size_t room,
                      seamwhisk_read *answer);

void rules_plan_texts_flat(const uint8_t *texts, size_t length, uint64_t budget, uint64_t *answers,
                           size_t numbers, uint32_t *offsets, size_t offsets_room,
                           seamwhisk_run *answer);

void rules_write_plan(uint32_t period, uint32_t size, const uint32_t *delays, size_t rows,
                      const uint32_t *offsets, size_t count, uint8_t *file, size_t room,
                      seamwhisk_written *answer);

void rules_read_plan(const uint8_t *file, size_t length, uint32_t *delays, size_t delays_room,
                     uint32_t *offsets, size_t offsets_room, seamwhisk_read *answer);

void rules_report(uint32_t period, uint32_t size, const uint32_t *delays, size_t rows,
                  const uint32_t *offsets, size_t count, seamwhisk_reported *answer);

#endif
