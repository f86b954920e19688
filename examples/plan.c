/* Plans Job A four times and prints each plan: without pins, with unit 1 pinned
   at choice 1, with that pin lifted again, and with both units pinned at choice
   0, for which there is no plan. Then plans it for a line with two buckets. Of
   several best plans each is the one that sends early, as `plan` prints it.

       gcc -Wall -Wextra -Iinclude examples/plan.c libupload.a

   A plan's first line has N, T and the words of the table. Then comes a line
   for each interval: its number, what it sends, the choice of the unit that is
   decoded or -, the levels of decoder and of each bucket. Last the totals:
   distortion, source grains, channel grains, unused grains of each bucket. */

#include <inttypes.h>
#include <stdint.h>
#include <stdio.h>
#include <stdlib.h>

#include "upload.h"

/* Two bytes and four bytes, the lowest first. */
#define U16(n) (n) & 255, (n) >> 8
#define U32(n) U16((n) & 65535), U16((n) >> 16)

/* units, delay, decoder size, bucket size, drain, both starting levels, rates,
   choices */
#define FIELDS U16(2), U16(1), U16(4), U16(3), U16(2), U16(0), U16(0), U16(3), U16(2)

/* the rates in grains; for each unit grains and distortion of its choices */
#define RATES_AND_UNITS \
    U16(8), U16(2), U16(0), U16(2), U16(4), \
    U16(14), U16(3), U16(4), U32(10), U16(2), U32(30), \
    U16(14), U16(3), U16(5), U32(12), U16(2), U32(40)

/* The header starts with its length and kind. A second bucket has size, drain and
   starting level. */
static const uint8_t job_a[] = {U16(20), U16(UPLOAD_ONE_BUCKET), FIELDS, RATES_AND_UNITS};
static const uint8_t two_buckets[] = {
    U16(26), U16(UPLOAD_TWO_BUCKETS), FIELDS, U16(1), U16(2), U16(0), RATES_AND_UNITS,
};

/* Room for a list. One without numbers has a byte, so that no pointer is null. */
static void *room(size_t bytes)
{
    void *list = malloc(bytes > 0 ? bytes : 1);
    if (list == NULL) {
        fprintf(stderr, "no memory\n");
        exit(1);
    }
    return list;
}

/* Reads a job back: its rates, UPLOAD_RATES_MOST at most, and how many buckets its
   line has. What the units take is read too, and not kept: an interval's line names
   a choice by its index. */
static uint32_t read_back(const uint8_t *job, size_t job_len, uint16_t *rates, size_t *buckets)
{
    uint16_t fields[UPLOAD_FIELDS_MOST];
    uint64_t values[UPLOAD_READ_VALUES];
    size_t most = job_len / 6; /* long enough for every job of so many bytes */
    uint16_t *sizes = room(most * sizeof *sizes);
    uint32_t *distortions = room(most * sizeof *distortions);

    uint32_t refusal = upload_read(job, job_len, fields, UPLOAD_FIELDS_MOST,
                                   rates, UPLOAD_RATES_MOST, sizes, most, distortions, most,
                                   values, UPLOAD_READ_VALUES);
    if (refusal == UPLOAD_OK)
        *buckets = values[1] == UPLOAD_FIELDS_MOST ? 2 : 1;
    free(sizes);
    free(distortions);
    return refusal;
}

/* An entry is a rate's index, then a choice as two bytes, the lower first. */
enum { ENTRY = 3 };

static unsigned choice_of(const uint8_t *entry)
{
    return entry[1] | (unsigned)entry[2] << 8;
}

static void print_interval(unsigned t, unsigned sent, unsigned choice, const uint16_t *levels,
                           size_t levels_len)
{
    printf("%u %u ", t, sent);
    if (choice == UPLOAD_NO_UNIT)
        printf("-");
    else
        printf("%u", choice);
    for (size_t i = 0; i < levels_len; i++)
        printf(" %u", levels[i]);
    printf("\n");
}

/* Plans with these calls for the least total, replays the plan for its levels, and
   prints it. */
static uint32_t plan(const uint8_t *job, size_t job_len, const uint16_t *calls, size_t calls_len)
{
    uint64_t opened[UPLOAD_OPEN_VALUES];
    uint16_t rates[UPLOAD_RATES_MOST];
    size_t buckets;
    uint32_t refusal = upload_open(job, job_len, opened, UPLOAD_OPEN_VALUES);
    if (refusal == UPLOAD_OK)
        refusal = read_back(job, job_len, rates, &buckets);
    if (refusal != UPLOAD_OK)
        return refusal;
    size_t intervals = opened[2], words = opened[3];
    size_t each = 1 + buckets; /* levels of an interval */

    uint64_t totals[UPLOAD_PLAN_VALUES_MOST], replayed[UPLOAD_REPLAY_VALUES_MOST];
    uint8_t *answers = room(calls_len / 3);
    uint32_t *table = room(words * sizeof *table);
    uint8_t *entries = room(ENTRY * intervals);
    uint16_t *levels = room(each * intervals * sizeof *levels);

    refusal = upload_plan(job, job_len, calls, calls_len, UPLOAD_TOTAL, UPLOAD_EARLY,
                          answers, calls_len / 3, table, words, entries, ENTRY * intervals,
                          totals, 3 + buckets);
    if (refusal == UPLOAD_OK)
        refusal = upload_replay(job, job_len, calls, calls_len, entries, ENTRY * intervals,
                                levels, each * intervals, replayed, 5 + buckets);
    if (refusal == UPLOAD_OK) {
        printf("plan %" PRIu64 " %zu %zu\n", opened[1], intervals, words);
        for (size_t i = 0; i < intervals; i++) {
            const uint8_t *entry = entries + ENTRY * i;
            print_interval((unsigned)i + 1, rates[entry[0]], choice_of(entry),
                           levels + each * i, each);
        }
        printf("total");
        for (size_t i = 0; i < 3 + buckets; i++)
            printf(" %" PRIu64, totals[i]);
        printf("\n");
    }
    free(answers);
    free(table);
    free(entries);
    free(levels);
    return refusal;
}

int main(void)
{
    const uint16_t calls[] = {
        UPLOAD_PIN, 1, 1, UPLOAD_LIFT, 1, 0, /* unit 1 pinned at 1, and lifted */
        UPLOAD_PIN, 1, 0, UPLOAD_PIN, 2, 0,  /* both units pinned at 0 */
    };
    const struct {
        const uint8_t *job;
        size_t job_len, from, count;
    } sessions[] = {
        {job_a, sizeof job_a, 0, 0},
        {job_a, sizeof job_a, 0, 3},
        {job_a, sizeof job_a, 0, 6},
        {job_a, sizeof job_a, 6, 6},
        {two_buckets, sizeof two_buckets, 0, 0},
    };

    for (size_t i = 0; i < sizeof sessions / sizeof *sessions; i++) {
        uint32_t refusal = plan(sessions[i].job, sessions[i].job_len,
                                calls + sessions[i].from, sessions[i].count);
        if (refusal != UPLOAD_OK)
            printf("refused %" PRIu32 "\n", refusal);
    }
    return 0;
}
