/* The two implementations answer alike on random campaigns. The campaigns that are timed hear whole rounds at once; here
 * quorums come together piece by piece, sites fork, places wait for others, and blocks leave, the oldest or the last, and come
 * again. */
#include <string.h>

#include "chance.h"
#include "expect.h"
#include "implementations.h"
#include "same.h"

enum { CALLS_IN_A_CAMPAIGN = 200 };

static known_blocks held;
static built_block blocks[GT_MAX_PLACES]; /* those held, by place */

/* The ways by which blocks leave: the last block that did, and how many did and came again. */
enum { RETIRED, TAKEN_BACK, WAYS };
static struct {
    built_block last;
    size_t left, came_again;
} gone[WAYS];

static const implementation *const ours = &implementations[OURS], *const other = &implementations[IN_C];

/* What both answered. */
static gt_answer common(gt_answer x, gt_answer y)
{
    expect(alike(x, y), "two answers to a random call differ");
    return x;
}

static void interpret_at_both(size_t place) { common(ours->interpret(place), other->interpret(place)); }

/* A block that left is not one that others are built on. */
static void forget(size_t place, size_t way)
{
    gone[way].last = blocks[place];
    gone[way].left++;
    held.count--;
    memmove(held.blocks + place, held.blocks + place + 1, (held.count - place) * sizeof held.blocks[0]);
    memmove(blocks + place, blocks + place + 1, (held.count - place) * sizeof blocks[0]);
}

static void retire_at_both(void)
{
    if (common(ours->retire(), other->retire()).refusal == 0)
        forget(0, RETIRED);
}

static void take_back_at_both(void)
{
    if (common(ours->take_back(), other->take_back()).refusal == 0)
        forget(held.count - 1, TAKEN_BACK);
}

static void admit_at_both(void)
{
    size_t way = below(WAYS);
    bool again = gone[way].last.length > 0 && one_in(12), damaged = one_in(20);
    built_block block = again ? gone[way].last : some_block(&held);

    if (one_in(30))
        repeat_slot(&block);
    if (damaged)
        damage(&block);
    uint8_t verdict = one_in(30) ? 0 : 1;
    gt_answer answer = common(ours->admit(block.bytes, block.length, verdict), other->admit(block.bytes, block.length, verdict));
    if (answer.refusal == 0) {
        gone[way].came_again += again && !damaged;
        blocks[held.count] = block;
        know(&held, &block);
        if (!one_in(4))
            interpret_at_both(answer.value);
    }
}

static void start_campaign(void)
{
    uint8_t owners[GT_SLOTS];

    held.sites = some_sites();
    held.count = 0;
    for (size_t way = 0; way < WAYS; way++)
        gone[way].last.length = 0;
    for (size_t slot = 0; slot < GT_SLOTS; slot++)
        owners[slot] = (uint8_t)below(held.sites);
    expect(common(ours->fresh(held.sites, owners), other->fresh(held.sites, owners)).refusal == 0, "the setup was refused");
}

void expect_same_at_random(size_t calls)
{
    for (size_t call = 0; call < calls; call++) {
        if (call % CALLS_IN_A_CAMPAIGN == 0) {
            expect_same_records();
            start_campaign();
        }
        if (one_in(5))
            retire_at_both();
        else if (one_in(8))
            take_back_at_both();
        else if (one_in(3))
            interpret_at_both(below(held.count + 1));
        else
            admit_at_both();
    }
    expect_same_records();
    for (size_t way = 0; way < WAYS; way++)
        expect(gone[way].left > 0 && gone[way].came_again > 0, "no block left in one of the two ways and came again");
}
