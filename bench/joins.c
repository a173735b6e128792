/* The join of two tables with their records, ours against the baseline in C and against a digest.
 * It prints what it measures and judges no speed. A difference between two answers, tables or third buffers ends it with
 * status 1. */
#include <stdio.h>

#include "campaigns.h"
#include "expect.h"
#include "layout.h"
#include "same_joins.h"
#include "timing.h"

enum { SITES = 7, LEFT_SITES = 4, SIDE_BLOCKS = 32, RANDOM_PAIRS = 5000, CALLS = 1000 };

/* ---- What is joined: two controllers of one campaign whose sites lost each other */

static void start(side *s)
{
    const uint8_t owners[GT_SLOTS] = {0, 1, 2, 3, 4, 5, 6, 0};

    expect(gt_fresh(SITES, owners, GT_SLOTS, s->table, GT_TABLE_BYTES).refusal == 0, "the setup was refused");
    s->numbers = GT_RECORDS_NUMBERS;
}

/* Blocks of the first round have a request. */
static built_block next_block(const side *s, uint8_t site)
{
    const uint8_t request[] = {site, 0, 42};

    return build_next(s->table, site, request, s->table[GT_TABLE_COUNT] == 0 ? sizeof request : 0);
}

static void hold(side *s, const built_block *b)
{
    expect(admit_and_interpret(s->table, s->records, b).refusal == 0, "a block was refused");
}

/* Sites build in rounds, each block on all of the round before, until the side holds so many blocks. The other side, if
 * there is one, gets the blocks of a round last first. */
static void go_on(side *s, side *other, uint8_t first, uint8_t last, size_t blocks)
{
    while (s->table[GT_TABLE_COUNT] < blocks) {
        built_block round[SITES];
        size_t missing = blocks - s->table[GT_TABLE_COUNT], sites = last - first + 1u, built = missing < sites ? missing : sites;

        for (size_t i = 0; i < built; i++)
            round[i] = next_block(s, (uint8_t)(first + i));
        for (size_t i = 0; i < built; i++)
            hold(s, &round[i]);
        for (size_t i = built; other != NULL && i-- > 0;)
            hold(other, &round[i]);
    }
}

/* Each side holds 32 blocks, of which so many are in common. */
static void part_after(pair *p, size_t common)
{
    start(&p->left);
    start(&p->right);
    go_on(&p->left, &p->right, 0, SITES - 1, common);
    go_on(&p->left, NULL, 0, LEFT_SITES - 1, SIDE_BLOCKS);
    go_on(&p->right, NULL, LEFT_SITES, SITES - 1, SIDE_BLOCKS);
}

/* ---- What is timed */

typedef struct {
    const char *name;
    size_t common;
    size_t joined; /* blocks in the result */
} row;

static const row rows[] = {
    {"32 and 32, none in common", 0, 64},
    {"32 and 32, 16 in common", 16, 48},
    {"32 and 32, all in common", 32, 32},
};

static pair parted;
static uint16_t third[GT_RECORDS_NUMBERS];

enum { DIGEST = COMPARED, KINDS };

static bool call_digest(void)
{
    static const uint8_t message[GT_MAX_BLOCK_BYTES];
    uint8_t digest[GT_DIGEST_BYTES];

    return gt_digest(message, sizeof message, digest, sizeof digest).refusal == 0;
}

/* The left's table is put back before each join; that copy is in the time. */
static bool call_join(const joiner *of, size_t joined)
{
    gt_answer answer = of->join(&parted, third, GT_RECORDS_NUMBERS);

    return answer.refusal == 0 && answer.value == joined;
}

static void call_often(size_t kind, const void *context)
{
    const row *timed = context;
    bool all = true;

    for (int i = 0; i < CALLS; i++)
        all = (kind == DIGEST ? call_digest() : call_join(&joiners[kind], timed->joined)) && all;
    expect(all, "a call was answered otherwise than expected");
}

static void compare_row(const row *timed)
{
    static timing timings[KINDS];

    part_after(&parted, timed->common);
    expect(join_at_both(&parted, GT_RECORDS_NUMBERS).value == timed->joined, "a pair was joined otherwise than expected");
    time_in_turn(KINDS, timings, call_often, timed);
    printf("%-28s %10zu", timed->name, timed->joined);
    print_microseconds(COMPARED, timings, CALLS);
    print_ratio(&timings[OURS], &timings[DIGEST]);
    print_ratio(&timings[IN_C], &timings[OURS]);
    puts("");
}

int main(void)
{
    puts("The join of two tables of 32 blocks with their records: the proved one (ours) against C, and against gt_digest of the");
    puts("longest block. 7 sites build in rounds, each block on all of the round before; blocks that both sides hold are of");
    puts("all sites, and stand in another order on the right. Then the left goes on with sites 0 to 3, the right with the");
    puts("others. All blocks are interpreted on their sides, so that each takes a part of 640 bytes to the third buffer.");
    printf("Before timing, both get these pairs and %d random ones, changed ones among them; all answers, tables and third\n",
           RANDOM_PAIRS);
    puts("buffers are compared.");
    printf("Measured in CPU time: medians of %d repetitions, each a batch of %d calls of each in turn, after a batch of each to\n",
           REPETITIONS, CALLS);
    printf("warm up. The left's table is put back before each join; that copy, of %d bytes in ours, is counted with it. The third\n",
           GT_TABLE_BYTES);
    puts("buffer is not cleared. Digests are our time over that of a digest, C/ours is C's time over ours, each the median of the");
    puts("repetitions' ratios: where C/ours is above 1, ours is the faster one.");
    puts("");
    expect_same_joins_at_random(RANDOM_PAIRS);
    puts("pair                             result    ours us       C us    digests     C/ours");
    for (size_t i = 0; i < sizeof rows / sizeof *rows; i++)
        compare_row(&rows[i]);
    return 0;
}
