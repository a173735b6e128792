/* What the form check of a full table costs, an admission at its last place, the interpretation of that place, a retiring, a
 * taking back, the watch and a block built from it, as ratios to the digest of the longest block and to the admission. Every
 * call on a table begins with the form check, and every admission has such a digest in it.
 * It prints what it measures and judges no speed. An answer other than the expected one ends it with status 1. */
#include <stdio.h>
#include <string.h>

#include "campaigns.h"
#include "expect.h"
#include "timing.h"

enum { CALLS = 2000 };

static uint8_t full[GT_TABLE_BYTES];     /* with all 64 blocks, all interpreted */
static uint8_t unmarked[GT_TABLE_BYTES]; /* before the last of them was interpreted */
static uint8_t but_one[GT_TABLE_BYTES];  /* before it was admitted */
static uint8_t lent[GT_TABLE_BYTES];     /* filled anew for each call that changes it */
static uint16_t records[GT_RECORDS_NUMBERS];
static uint16_t moving[GT_RECORDS_NUMBERS]; /* for retirings, by which records move on */
static built_block last;
static uint8_t sites;

static void fill_tables(const campaign *c)
{
    last = c->blocks[LAST_PLACE];
    sites = c->sites;
    hold_first(c, GT_MAX_PLACES, full, records);
    hold_first(c, LAST_PLACE, but_one, records);
    memcpy(unmarked, but_one, GT_TABLE_BYTES);
    expect(gt_admit(unmarked, GT_TABLE_BYTES, last.bytes, last.length, 1).refusal == 0, "the last block was refused");
}

/* ---- The calls. Each says whether it was answered as expected. */

static bool call_digest(void)
{
    uint8_t digest[GT_DIGEST_BYTES];

    return gt_digest(last.bytes, last.length, digest, GT_DIGEST_BYTES).refusal == 0;
}

static bool call_in_form(void) { return gt_in_form(full, GT_TABLE_BYTES); }

/* The table is put back before each admission; that copy is in the time. */
static bool call_admit(void)
{
    memcpy(lent, but_one, GT_TABLE_BYTES);
    gt_answer answer = gt_admit(lent, GT_TABLE_BYTES, last.bytes, last.length, 1);
    return answer.refusal == 0 && answer.value == LAST_PLACE;
}

/* The mark is cleared before each interpretation, by a copy that is in the time. */
static bool call_interpret(void)
{
    memcpy(lent, unmarked, GT_TABLE_BYTES);
    return gt_interpret(lent, GT_TABLE_BYTES, LAST_PLACE, records, GT_RECORDS_NUMBERS).refusal == 0;
}

/* The block is put back before each retiring, by a copy that is in the time. */
static bool call_retire(void)
{
    memcpy(lent, full, GT_TABLE_BYTES);
    return gt_retire(lent, GT_TABLE_BYTES, moving, GT_RECORDS_NUMBERS).refusal == 0;
}

/* The block is put back before each taking back, by a copy that is in the time. */
static bool call_take_back(void)
{
    memcpy(lent, unmarked, GT_TABLE_BYTES);
    return gt_take_back(lent, GT_TABLE_BYTES).refusal == 0;
}

static bool call_forks(void)
{
    gt_forked_sites forks = gt_forks(full, GT_TABLE_BYTES);
    return forks.refusal == 0 && forks.count == 0;
}

/* The last place rests on all rounds before its own. */
static bool call_ancestors(void)
{
    return gt_ancestors(full, GT_TABLE_BYTES, LAST_PLACE).count == (uint32_t)(GT_MAX_PLACES - sites);
}

/* Site 0 refers to its own block of the last round and to the 15 others. */
static bool call_build(void)
{
    uint8_t output[GT_MAX_BLOCK_BYTES];
    const uint8_t *requests = last.bytes + last.length - GT_MAX_REQUEST_LIST_BYTES;
    gt_answer answer = gt_build(full, GT_TABLE_BYTES, 0, requests, GT_MAX_REQUEST_LIST_BYTES, output, sizeof output);

    return answer.refusal == 0 && answer.value == GT_MAX_BLOCK_BYTES;
}

enum { DIGEST, IN_FORM, ADMIT, INTERPRET, RETIRE, TAKE_BACK, FORKS, ANCESTORS, BUILD, KINDS };

/* clang-format off */
static const struct {
    const char *name;
    bool (*call)(void);
} kinds[KINDS] = {
    [DIGEST] = {"gt_digest, longest block", call_digest},
    [IN_FORM] = {"gt_in_form, 64 places", call_in_form},
    [ADMIT] = {"gt_admit, at place 63", call_admit},
    [INTERPRET] = {"gt_interpret, of place 63", call_interpret},
    [RETIRE] = {"gt_retire, of 64 places", call_retire},
    [TAKE_BACK] = {"gt_take_back, of place 63", call_take_back},
    [FORKS] = {"gt_forks, 64 places", call_forks},
    [ANCESTORS] = {"gt_ancestors, of place 63", call_ancestors},
    [BUILD] = {"gt_build, longest block", call_build},
};
/* clang-format on */

/* ---- Batches */

static void call_often(size_t kind, const void *context)
{
    bool all = true;

    (void)context;
    for (int i = 0; i < CALLS; i++)
        all = kinds[kind].call() && all;
    expect(all, "a call was answered otherwise than expected");
}

static void print_kind(const timing timings[KINDS], size_t kind)
{
    printf("%-28s %12.2f %8.2f %10.2f\n", kinds[kind].name, 1e6 * median_seconds(&timings[kind]) / CALLS,
           median_ratio(&timings[kind], &timings[DIGEST]), median_ratio(&timings[kind], &timings[ADMIT]));
}

int main(void)
{
    static campaign busy;
    static timing timings[KINDS];

    busy = busy_campaign();
    fill_tables(&busy);
    time_in_turn(KINDS, timings, call_often, NULL);

    puts("A full table: its form check, the admission that fills it, the interpretation of its last place, the retiring of its");
    puts("first, the taking back of its last, the watch and a longest block built from it, against the digest of such a block and");
    puts("against that admission.");
    puts("The table has 16 sites and 64 blocks: four rounds, each block with references to all 16 of the round before; the");
    puts("last block hears 16 sites in all eight slots.");
    printf("Measured in CPU time: medians of %d repetitions, each a batch of %d calls of each kind in turn, after a batch\n",
           REPETITIONS, CALLS);
    puts("of each to warm up. Before each admission, interpretation, retiring and taking back the table is put back; that copy");
    printf("of %d bytes is counted with it. The record buffer is not cleared. A ratio is the median of the ratios within\n",
           GT_TABLE_BYTES);
    puts("the repetitions.");
    puts("");
    puts("call                         microseconds  digests admissions");
    for (size_t kind = 0; kind < KINDS; kind++)
        print_kind(timings, kind);
    return 0;
}
