/* Reads every string of up to three bytes behind the tag, two headers and a number begun as a plan
 * file, and prints for each prefix and length how many files got each number and a digest of all
 * answers and lists, in the format of `oracle strings` (oracle/README.md). */
#include <inttypes.h>
#include <stdio.h>
#include <string.h>

#include "seamwhisk.h"

#define LONGEST 3
#define NUMBERS 23 /* 0 to 22 */

static const struct prefix {
    const char *name;
    uint8_t bytes[8];
    size_t length;
} prefixes[] = {
    {"tag", {0x50, 0x4D, 0x41, 0x01}, 4},
    {"ten", {0x50, 0x4D, 0x41, 0x01, 0x0A, 0x02, 0x01}, 7},
    {"threehundred", {0x50, 0x4D, 0x41, 0x01, 0xAC, 0x02, 0x02, 0x01}, 8},
    {"number", {0x50, 0x4D, 0x41, 0x01, 0x80, 0x80, 0x80}, 7},
};

/* the numbers that reading a file can give */
static const unsigned given[] = {0, 5, 6, 7, 8, 11, 16, 17, 18, 19, 20, 21, 22};

/* FNV-1a, fed with whole numbers. */
static uint64_t fed(uint64_t digest, uint64_t number)
{
    return (digest ^ number) * UINT64_C(0x100000001b3);
}

/* One file: its answer and what it leaves in the lists, added to the counts and the digest. */
static uint64_t answered(const uint8_t *file, size_t length, uint64_t digest, uint32_t *counts)
{
    uint32_t delays[2] = {7, 8}, offsets[2] = {9, 10};
    seamwhisk_read answer;
    seamwhisk_read_plan(file, length, delays, 2, offsets, 2, &answer);
    counts[answer.number < NUMBERS ? answer.number : NUMBERS]++;
    const uint64_t told[] = {answer.number, answer.place, answer.period, answer.size, answer.rows,
                             delays[0],     delays[1],    offsets[0],    offsets[1]};
    for (size_t k = 0; k < sizeof told / sizeof *told; k++)
        digest = fed(digest, told[k]);
    return digest;
}

/* All strings of one length, the last byte quickest. */
static uint32_t line(const struct prefix *prefix, size_t length)
{
    uint8_t file[sizeof prefix->bytes + LONGEST];
    uint32_t counts[NUMBERS + 1] = {0}, many = UINT32_C(1) << (8 * length);
    uint64_t digest = UINT64_C(0xcbf29ce484222325);
    memcpy(file, prefix->bytes, prefix->length);
    for (uint32_t string = 0; string < many; string++) {
        for (size_t k = 0; k < length; k++)
            file[prefix->length + k] = (uint8_t)(string >> (8 * (length - 1 - k)));
        digest = answered(file, prefix->length + length, digest, counts);
    }
    printf("%s %zu %" PRIu32, prefix->name, length, many);
    for (size_t k = 0; k < sizeof given / sizeof *given; k++)
        printf(" %" PRIu32, counts[given[k]]);
    printf(" %016" PRIx64 "\n", digest);
    return many;
}

int main(void)
{
    uint64_t total = 0;
    for (size_t k = 0; k < sizeof prefixes / sizeof *prefixes; k++)
        for (size_t length = 0; length <= LONGEST; length++)
            total += line(&prefixes[k], length);
    printf("total %" PRIu64 "\n", total);
    return 0;
}
