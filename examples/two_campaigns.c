/* One controller follows two campaigns, and their blocks arrive out of order and mixed. A block that comes before one that
 * it refers to waits on the shelf, which both campaigns share, and is let in once the other has come.
 *
 *   make host
 *   gcc -std=c11 -Ihost -o two_campaigns examples/two_campaigns.c target/staticlib/libc_interface.a
 *   ./two_campaigns
 */
#include "giangotum_core.h"

#include <inttypes.h>
#include <stdio.h>
#include <stdlib.h>

enum { NORTH, SOUTH, CAMPAIGNS };

static const char *const names[CAMPAIGNS] = {"north", "south"};

/* What the refusals of an arrival mean, but for 9. */
static const char *const causes[] = {
    [2] = "a table or the shelf is damaged",
    [3] = "these bytes are no block",
    [4] = "there is no such site in the campaign",
    [5] = "the link found its signature bad",
    [6] = "one of its requests is bad",
    [7] = "it has a reference twice",
    [8] = "it is held already",
    [10] = "it does not refer to its site's block before",
    [11] = "the table is full",
    [17] = "the outcomes are too short",
    [18] = "it has a slot twice",
    [19] = "there is no place for it on the shelf",
    [20] = "it waits already",
    [21] = "there is no such campaign",
};

enum { NOT_HELD = 9 };

/* The value of a call that nothing here gives a reason to refuse. */
static size_t expected(gt_answer answer)
{
    if (answer.refusal != 0) {
        fprintf(stderr, "refused with %d\n", answer.refusal);
        exit(EXIT_FAILURE);
    }
    return answer.value;
}

/* ---- The sites: one for each campaign, with a table of its own */

typedef struct {
    uint8_t bytes[GT_MAX_BLOCK_BYTES];
    size_t length;
} block;

/* A single site, which owns all slots, makes a campaign of its own. */
static void start(uint8_t table[GT_TABLE_BYTES])
{
    const uint8_t owners[GT_SLOTS] = {0};

    expected(gt_fresh(1, owners, GT_SLOTS, table, GT_TABLE_BYTES));
}

/* The site builds its next block, and holds it from then on. */
static block next_block(uint8_t table[GT_TABLE_BYTES], const uint8_t *requests, size_t length)
{
    block b;

    b.length = expected(gt_build(table, GT_TABLE_BYTES, 0, requests, length, b.bytes, sizeof b.bytes));
    expected(gt_admit(table, GT_TABLE_BYTES, b.bytes, b.length, 1));
    return b;
}

/* ---- The controller: a table and records for each campaign, and one shelf */

static uint8_t tables[CAMPAIGNS][GT_TABLE_BYTES];
static uint16_t records[CAMPAIGNS][GT_RECORDS_NUMBERS];
static uint8_t shelf[GT_SHELF_BYTES]; /* all zero: empty */

/* A new place is interpreted at once; the last number of a slot's record is what this block delivers. */
static void interpret(uint8_t campaign, size_t place)
{
    expected(gt_interpret(tables[campaign], GT_TABLE_BYTES, place, records[campaign], GT_RECORDS_NUMBERS));
    for (size_t slot = 0; slot < GT_SLOTS; slot++) {
        size_t end = GT_PART_NUMBERS * place + GT_RECORD_NUMBERS * (slot + 1);
        if (records[campaign][end - 1] != 0)
            printf("  place %zu delivers number %" PRIu16 " in slot %zu\n", place, records[campaign][end - 1], slot);
    }
}

/* A waiting block was let in at a place, or dropped by a refusal. */
static void end_waiting(uint8_t campaign, uint64_t refusal, uint64_t place)
{
    if (refusal != 0) {
        printf("  a waiting block was dropped: %s\n", causes[refusal]);
    } else {
        printf("  a waiting block was let in at place %" PRIu64 "\n", place);
        interpret(campaign, (size_t)place);
    }
}

/* The link's verdict on each block here is 1: its signature is good. */
static void arrive(uint8_t campaign, const char *what, const block *b)
{
    uint64_t outcomes[GT_OUTCOMES_NUMBERS];
    gt_arrival arrival = gt_arrive(tables[campaign], GT_TABLE_BYTES, shelf, sizeof shelf, campaign, b->bytes, b->length, 1,
                                   outcomes, GT_OUTCOMES_NUMBERS);

    printf("%s, %s: ", names[campaign], what);
    if (arrival.answer.refusal == 0) {
        printf("admitted at place %zu\n", arrival.answer.value);
        interpret(campaign, arrival.answer.value);
    } else if (arrival.answer.refusal == NOT_HELD) {
        printf("waits, as reference %zu is not held\n", arrival.answer.value);
    } else {
        printf("refused: %s\n", causes[arrival.answer.refusal]);
    }
    for (size_t i = 0; i < arrival.ended; i++)
        end_waiting(campaign, outcomes[2 * i], outcomes[2 * i + 1]);
}

int main(void)
{
    static uint8_t north_site[GT_TABLE_BYTES], south_site[GT_TABLE_BYTES];
    const uint8_t seven_in_slot_2[] = {2, 0, 7};
    block north[4], south[2], wrong;

    start(north_site);
    start(south_site);
    for (size_t i = 0; i < 4; i++)
        north[i] = next_block(north_site, seven_in_slot_2, i == 0 ? sizeof seven_in_slot_2 : 0);
    for (size_t i = 0; i < 2; i++)
        south[i] = next_block(south_site, NULL, 0);
    wrong = north[2];
    wrong.bytes[2] = 9; /* its sequence number: the block before is not of number 8 */

    start(tables[NORTH]);
    start(tables[SOUTH]);
    arrive(NORTH, "block 3", &north[3]);
    arrive(SOUTH, "block 1", &south[1]);
    arrive(NORTH, "block 2", &north[2]);
    arrive(NORTH, "a wrong block", &wrong);
    arrive(NORTH, "block 2 again", &north[2]);
    arrive(SOUTH, "block 0", &south[0]);
    arrive(NORTH, "block 0", &north[0]);
    arrive(NORTH, "block 1", &north[1]);
    arrive(SOUTH, "block 1 again", &south[1]);
    return 0;
}
