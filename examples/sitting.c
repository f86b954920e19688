/* A sitting over Job A: a plan that sends late, pins and lifts with the least total that
   each leaves, a plan that sends early. A refusal ends the program with its number.

       gcc -Wall -Wextra -Iinclude -o sitting examples/sitting.c libupload.a
       ./sitting < examples/job_a.bin */

#include <inttypes.h>
#include <stdio.h>
#include <stdlib.h>

#include "upload.h"

static uint8_t job[32768], *entries;
static uint32_t set[UPLOAD_SET_NUMBERS], *table; /* both kept from click to click */
static size_t job_len, entries_len, words;

static void must(uint32_t refusal)
{
    if (refusal != UPLOAD_OK)
        exit((int)refusal);
}

static void plan(const char *name, uint32_t order)
{
    uint64_t totals[UPLOAD_PLAN_VALUES_MOST];
    must(upload_plan_set(job, job_len, set, UPLOAD_SET_NUMBERS, UPLOAD_TOTAL, order, table, words,
                         entries, entries_len, totals, UPLOAD_PLAN_VALUES_MOST));
    printf("%s: total %" PRIu64 ", sent %" PRIu64 "\n", name, totals[0], totals[2]);
}

/* Pins the unit at the choice, or lifts its pin where that is UPLOAD_NO_PIN. */
static void click(uint16_t unit, uint16_t choice)
{
    uint64_t total;
    must(choice == UPLOAD_NO_PIN
             ? upload_lift_and_see(job, job_len, set, UPLOAD_SET_NUMBERS, unit, table, words,
                                   &total, UPLOAD_SEE_VALUES)
             : upload_pin_and_see(job, job_len, set, UPLOAD_SET_NUMBERS, unit, choice, table,
                                  words, &total, UPLOAD_SEE_VALUES));
    printf(choice == UPLOAD_NO_PIN ? "unit %u free: " : "unit %u at %u: ", unit, choice);
    printf(total == UPLOAD_NEVER ? "no plan\n" : "total %" PRIu64 "\n", total);
}

int main(void)
{
    uint64_t opened[UPLOAD_OPEN_VALUES];
    job_len = fread(job, 1, sizeof job, stdin);
    must(upload_open(job, job_len, opened, UPLOAD_OPEN_VALUES));
    entries_len = 3 * opened[2], words = opened[3];
    if (!(entries = malloc(entries_len)) || !(table = malloc(words * sizeof *table)))
        abort();
    must(upload_set(job, job_len, set, UPLOAD_SET_NUMBERS));
    plan("late", UPLOAD_LATE); /* 10 + 40; the table is now that of the set */
    click(1, 1);               /* 30 + 40 */
    click(1, UPLOAD_NO_PIN);
    click(2, 0); /* takes five grains, and the decoder holds four */
    click(2, UPLOAD_NO_PIN);
    click(1, 0);
    plan("early", UPLOAD_EARLY); /* 4 + 0 + 4 grains in the place of 0 + 4 + 2 */
}
