/* A device keeps a campaign going past the 64 blocks that a table holds: where the table is full, it retires the oldest block
 * and admits the new one. What was delivered before stays delivered, and what is requested later is delivered too.
 *
 *   make host
 *   gcc -std=c11 -Ihost -o long_campaign examples/long_campaign.c target/staticlib/libc_interface.a
 *   ./long_campaign
 */
#include "giangotum_core.h"

#include <inttypes.h>
#include <stdio.h>
#include <stdlib.h>

enum { SITES = 4, ROUNDS = 50 };

/* What these calls are refused with here. */
enum { NOT_HELD = 9, FULL = 11, NOT_RETIRED = 29 };

/* The value of a call that nothing here gives a reason to refuse. */
static size_t expected(gt_answer answer)
{
    if (answer.refusal != 0) {
        fprintf(stderr, "refused with %d\n", answer.refusal);
        exit(EXIT_FAILURE);
    }
    return answer.value;
}

/* ---- What the owners request, each in a round of its own */

typedef struct {
    size_t round;
    uint8_t site, slot;
    uint16_t number;
} request;

static const request requests[] = {{0, 0, 0, 42}, {20, 1, 5, 7}, {45, 3, 3, 1610}};

/* The bytes of a site's request in a round, if it has one. */
static size_t request_of(uint8_t site, size_t round, uint8_t bytes[3])
{
    for (size_t i = 0; i < sizeof requests / sizeof requests[0]; i++)
        if (requests[i].site == site && requests[i].round == round) {
            bytes[0] = requests[i].slot;
            bytes[1] = (uint8_t)(requests[i].number >> 8);
            bytes[2] = (uint8_t)requests[i].number;
            return 3;
        }
    return 0;
}

/* ---- The device: a table, its records, and how many blocks have come and have left */

static uint8_t table[GT_TABLE_BYTES];
static uint16_t records[GT_RECORDS_NUMBERS]; /* of any content */
static size_t came, left;

typedef struct {
    uint8_t bytes[GT_MAX_BLOCK_BYTES];
    size_t length;
} block;

/* The link's verdict on each block here is 1: its signature is good. */
static gt_answer admit(const block *b) { return gt_admit(table, sizeof table, b->bytes, b->length, 1); }

/* The block at place 0 leaves. It is refused only until its site has a later block, and while a block that refers to it, or
 * itself, is not interpreted. */
static void retire(void)
{
    expected(gt_retire(table, sizeof table, records, GT_RECORDS_NUMBERS));
    left++;
}

/* The last number of a slot's record is what this block delivers. */
static void interpret(const block *b, size_t place)
{
    expected(gt_interpret(table, sizeof table, place, records, GT_RECORDS_NUMBERS));
    for (size_t slot = 0; slot < GT_SLOTS; slot++) {
        size_t end = GT_PART_NUMBERS * place + GT_RECORD_NUMBERS * (slot + 1);
        if (records[end - 1] != 0)
            printf("block %zu, of site %d: delivers %" PRIu16 " in slot %zu; %zu blocks have left\n", came, b->bytes[0],
                   records[end - 1], slot, left);
    }
}

/* A block arrives. Where the table is full, the oldest one makes room for it. */
static void hold(const block *b)
{
    gt_answer answer = admit(b);

    if (answer.refusal == FULL) {
        retire();
        answer = admit(b);
    }
    interpret(b, expected(answer));
    came++;
}

/* ---- The campaign: in each round every site builds on the blocks of the round before */

static block next_block(uint8_t site, size_t round)
{
    uint8_t bytes[3];
    size_t length = request_of(site, round, bytes);
    block b;

    b.length = expected(gt_build(table, sizeof table, site, bytes, length, b.bytes, sizeof b.bytes));
    return b;
}

/* Gives the round's first block. */
static block run_round(size_t round)
{
    block blocks[SITES];

    for (uint8_t site = 0; site < SITES; site++)
        blocks[site] = next_block(site, round);
    for (size_t i = 0; i < SITES; i++)
        hold(&blocks[i]);
    return blocks[0];
}

/* A block that has left comes again, as a late copy from another site. */
static void come_again(const char *what, const block *b)
{
    gt_answer answer = admit(b);

    if (answer.refusal == NOT_HELD)
        printf("%s comes again: refused with 9, its reference %zu has left\n", what, answer.value);
    else
        printf("%s comes again: admitted at place %zu, to be interpreted anew\n", what, expected(answer));
}

int main(void)
{
    static const uint8_t owners[GT_SLOTS] = {0, 1, 2, 3, 0, 1, 2, 3};
    block first, second;

    expected(gt_fresh(SITES, owners, GT_SLOTS, table, sizeof table));
    first = run_round(0);
    if (gt_retire(table, sizeof table, records, GT_RECORDS_NUMBERS).refusal == NOT_RETIRED)
        puts("after a round: no block can be retired yet, each is its site's last");
    second = run_round(1);
    for (size_t round = 2; round < ROUNDS; round++)
        run_round(round);
    printf("%zu blocks have come, %zu have left, %d are held\n", came, left, table[GT_TABLE_COUNT]);
    retire();
    come_again("the first block", &first);
    retire();
    come_again("the fifth block", &second);
    return 0;
}
