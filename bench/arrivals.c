/* Arrivals of a controller with a full shelf, ours against the baseline in C.
 * It prints what it measures and judges no speed. A difference between two answers, outcomes, tables or shelves ends it with
 * status 1. */
#include <stdio.h>

#include "expect.h"
#include "same_arrivals.h"
#include "timing.h"
#include "waiting.h"

enum { RANDOM_ARRIVALS = 100000 };

static campaign busy;
static chain waiting_chain;

/* ---- What is timed */

/* Fills the shelf of both, and keeps that state. */
static void fill_both(bool reversed)
{
    full_shelf s = full_shelf_of(&waiting_chain, reversed);

    start_both(busy.sites, busy.owners);
    for (size_t place = 0; place < HELD_BEFORE; place++)
        expect(arrive_at_both(0, &busy.blocks[place], 1).answer.refusal == 0, "a block was refused");
    for (size_t i = 0; i < GT_SHELF_PLACES; i++)
        expect(arrive_at_both(s.sent[i].campaign, &s.sent[i].block, 1).answer.refusal == 9, "a block does not wait");
    expect(form_at_both(), "the full shelf is not in form");
    for (size_t i = 0; i < COMPARED; i++)
        controllers[i].keep();
}

static bool check_form(const controller *of) { return of->shelf_in_form(); }

/* Nothing changes, so nothing is put back. */
static bool send_the_same_bytes(const controller *of)
{
    const built_block *last = &waiting_chain.blocks[CHAIN_BLOCKS - 1];

    return of->arrive(0, last->bytes, last->length, 1).answer.refusal == 20;
}

/* The table and the shelf are put back before each; that copy is in the time. */
static bool let_in_ten(const controller *of)
{
    const built_block *first = &waiting_chain.blocks[0];

    of->put_back();
    arrived a = of->arrive(0, first->bytes, first->length, 1);
    return a.answer.refusal == 0 && a.ended == GT_SHELF_MOST && a.outcomes[GT_SHELF_MOST - 1].value == LAST_PLACE;
}

/* A call on one of the two, and whether it was answered as expected. */
typedef struct {
    const char *name;
    bool (*call)(const controller *of);
    bool reversed;
    size_t calls; /* in a batch */
} timed;

static const timed rows[] = {
    {"form of the full shelf", check_form, false, 1000},
    {"an arrival answered 20", send_the_same_bytes, false, 500},
    {"ten let in by one pass", let_in_ten, false, 100},
    {"ten let in by ten passes", let_in_ten, true, 50},
};

/* ---- Comparison and timing */

/* Before timing, each call that is timed is made on both and compared. */
static void expect_same_calls(bool reversed)
{
    fill_both(reversed);
    expect(arrive_at_both(0, &waiting_chain.blocks[CHAIN_BLOCKS - 1], 1).answer.refusal == 20, "the same bytes wait twice");
    expect(arrive_at_both(0, &waiting_chain.blocks[0], 1).ended == GT_SHELF_MOST, "not all ten were let in");
}

static void call_often(size_t kind, const void *context)
{
    const timed *row = context;
    bool all = true;

    for (size_t i = 0; i < row->calls; i++)
        all = row->call(&controllers[kind]) && all;
    expect(all, "a call was answered otherwise than expected");
}

static void compare_row(const timed *row)
{
    timing timings[COMPARED];

    fill_both(row->reversed);
    time_in_turn(COMPARED, timings, call_often, row);
    printf("%-28s %10zu", row->name, row->calls);
    print_microseconds(COMPARED, timings, row->calls);
    print_ratio(&timings[IN_C], &timings[OURS]);
    puts("");
}

int main(void)
{
    busy = busy_campaign();
    waiting_chain = chain_of(&busy);

    puts("Arrivals at a controller whose shelf is full: the proved one (ours) against C, each with its own tables and shelf.");
    puts("16 longest blocks wait, ten for campaign 0 and two for each other. Campaign 0 has 16 sites and holds 53 blocks.");
    puts("The ten refer to 15 of these and each to the one before, the first to the block that arrives and lets in all ten: in");
    puts("one pass if they came in their order, in ten if they came last first. The block answered 20 is the last of the ten.");
    puts("In an arrival C checks the table's form once, and reads and digests each waiting block once for all passes.");
    printf("Before timing, both get these arrivals and %d random ones for four campaigns; all answers, outcomes, tables and\n",
           RANDOM_ARRIVALS);
    puts("shelves are compared.");
    printf("Measured in CPU time: medians of %d repetitions, each a batch of calls of each of the two in turn, after a batch of\n",
           REPETITIONS);
    printf("each to warm up. Where blocks are let in, the table and the shelf are put back before each call; that copy, of %d\n",
           GT_TABLE_BYTES + GT_SHELF_BYTES);
    puts("bytes in ours, is counted with it. The last column is C's time over ours, the median of the repetitions' ratios: above");
    puts("1 ours is the faster one.");
    puts("");
    expect_same_arrivals_at_random(RANDOM_ARRIVALS);
    expect_same_calls(false);
    expect_same_calls(true);
    puts("call                              batch    ours us       C us     C/ours");
    for (size_t i = 0; i < sizeof rows / sizeof *rows; i++)
        compare_row(&rows[i]);
    return 0;
}
