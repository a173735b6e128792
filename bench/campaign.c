/* Whole campaigns, ours against the baseline in C: a fresh table, then 64 blocks, each admitted and interpreted; and with all
 * blocks but the last of each site retired; or admitted alone, and all taken back. And the form check of the full table, which
 * begins every call on it.
 * It prints what it measures and judges no speed. A difference between two answers or records ends it with status 1. */
#include <stdio.h>

#include "expect.h"
#include "implementations.h"
#include "same.h"
#include "timing.h"

enum { CAMPAIGNS = 10, FORM_CHECKS = 2000, RANDOM_CALLS = 100000 };

/* What is timed of a campaign beside all its admissions: its interpretations, the retirings after these, or the takings back
 * where nothing is interpreted. */
typedef struct {
    const campaign *of;
    bool interpreted, retired, taken_back;
} timed_campaign;

/* Whether nothing was refused. */
static bool runs(const implementation *of, const timed_campaign *timed)
{
    const campaign *c = timed->of;
    bool all = of->fresh(c->sites, c->owners).refusal == 0;

    for (size_t place = 0; place < GT_MAX_PLACES; place++) {
        all = of->admit(c->blocks[place].bytes, c->blocks[place].length, 1).refusal == 0 && all;
        if (timed->interpreted)
            all = of->interpret(place).refusal == 0 && all;
    }
    for (size_t left = GT_MAX_PLACES; timed->retired && left > c->sites; left--)
        all = of->retire().refusal == 0 && all;
    for (size_t left = GT_MAX_PLACES; timed->taken_back && left > 0; left--)
        all = of->take_back().refusal == 0 && all;
    return all;
}

static void run_often(size_t kind, const void *context)
{
    bool all = true;

    for (size_t i = 0; i < CAMPAIGNS; i++)
        all = runs(&implementations[kind], context) && all;
    expect(all, "a call of the campaign was refused");
}

static void check_form_often(size_t kind, const void *context)
{
    bool all = true;

    (void)context;
    for (size_t i = 0; i < FORM_CHECKS; i++)
        all = implementations[kind].in_form() && all;
    expect(all, "the full table is not in form");
}

static void compare_batches(const char *name, batch run, const void *context, size_t runs)
{
    timing timings[COMPARED];

    time_in_turn(COMPARED, timings, run, context);
    printf("%-42s", name);
    print_microseconds(COMPARED, timings, runs);
    print_ratio(&timings[IN_C], &timings[OURS]);
    puts("");
}

static void compare_campaign(const campaign *c)
{
    const timed_campaign interpreted = {.of = c, .interpreted = true}, admitted = {.of = c},
                         retired = {.of = c, .interpreted = true, .retired = true}, taken_back = {.of = c, .taken_back = true};

    expect_same(c);
    printf("\n%-42s    ours us       C us     C/ours\n", c->name);
    compare_batches("form of the full table", check_form_often, NULL, FORM_CHECKS);
    compare_batches("admitted and interpreted", run_often, &interpreted, CAMPAIGNS);
    compare_batches("only admitted", run_often, &admitted, CAMPAIGNS);
    compare_batches("interpreted, then retired as far as can be", run_often, &retired, CAMPAIGNS);
    compare_batches("only admitted, then all taken back", run_often, &taken_back, CAMPAIGNS);
}

int main(void)
{
    static campaign busy, ordinary;

    busy = busy_campaign();
    ordinary = ordinary_campaign();
    puts("Whole campaigns: the proved core (ours) against C, each with its own table and SHA-256.");
    puts("A campaign is a fresh table and 64 blocks. Every block refers to all blocks of the round before.");
    puts("Before timing, each of the two runs the campaign, with refused calls and takings back among it, and");
    printf("%d random calls; all answers and all 20,480 numbers of the records are compared.\n", RANDOM_CALLS);
    printf("Measured in CPU time: medians of %d repetitions, each a batch of %d campaigns or %d form checks of each in turn,\n",
           REPETITIONS, CAMPAIGNS, FORM_CHECKS);
    puts("after a batch of each to warm up. Making the table fresh is in the time; the record buffers are not cleared between");
    puts("campaigns. The last column is C's time over ours, the median of the repetitions' ratios: above 1 ours is the faster");
    puts("one.");
    expect_same_at_random(RANDOM_CALLS);
    compare_campaign(&busy);
    compare_campaign(&ordinary);
    return 0;
}
