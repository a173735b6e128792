/* The two join alike on random pairs. */
#include "same_joins.h"

#include <string.h>

#include "chance.h"
#include "expect.h"
#include "layout.h"

enum { MOST_BLOCKS = 110, REFUSALS = 32 };

/* ---- Joins at both */

static uint16_t thirds[COMPARED][GT_RECORDS_NUMBERS];

/* Numbers that no other buffer has at the same index. */
static void fill(uint16_t records[GT_RECORDS_NUMBERS], uint16_t first)
{
    for (size_t i = 0; i < GT_RECORDS_NUMBERS; i++)
        records[i] = (uint16_t)(first + i);
}

gt_answer join_at_both(const pair *of, size_t numbers)
{
    uint8_t tables[COMPARED][GT_TABLE_BYTES];
    gt_answer answers[COMPARED];

    for (size_t i = 0; i < COMPARED; i++) {
        fill(thirds[i], 2);
        joiners[i].take(of);
        answers[i] = joiners[i].join(of, thirds[i], numbers);
        joiners[i].see(tables[i]);
    }
    expect(alike(answers[OURS], answers[IN_C]), "two answers to a join differ");
    expect(memcmp(tables[OURS], tables[IN_C], sizeof tables[OURS]) == 0, "two joined tables differ");
    expect(memcmp(thirds[OURS], thirds[IN_C], sizeof thirds[OURS]) == 0, "two third buffers differ");
    return answers[OURS];
}

/* ---- Pairs that calls made */

/* The blocks that a side holds, or both, in an order in which they can be held. */
typedef struct {
    known_blocks known;
    built_block blocks[GT_MAX_PLACES];
} knowledge;

static knowledge of_left, of_right, of_both;

static void learn(knowledge *k, const built_block *block)
{
    k->blocks[k->known.count] = *block;
    know(&k->known, block);
}

static bool hold(side *s, const built_block *block)
{
    return gt_admit(s->table, GT_TABLE_BYTES, block->bytes, block->length, 1).refusal == 0;
}

static bool offer(side *s, knowledge *k, const built_block *block)
{
    bool held = hold(s, block);

    if (held)
        learn(k, block);
    return held;
}

/* A block on what both know, which is sent to both. */
static void go_on_together(pair *p)
{
    built_block block = some_block(&of_both.known);
    bool at_left = offer(&p->left, &of_left, &block), at_right = offer(&p->right, &of_right, &block);

    if (at_left && at_right)
        learn(&of_both, &block);
}

static void go_on_alone(side *s, knowledge *k)
{
    built_block block = some_block(&k->known);

    offer(s, k, &block);
}

/* Passes over the blocks, of which the last takes what is left. */
static void hold_in_some_order(side *s, const knowledge *k)
{
    for (size_t passes = 3; passes > 0; passes--)
        for (size_t i = 0; i < k->known.count; i++)
            if (passes == 1 || one_in(2))
                hold(s, &k->blocks[i]);
}

/* Into other records than the side's: in these one must see which side a part was copied from. */
static void interpret_some(side *s)
{
    static uint16_t records[GT_RECORDS_NUMBERS];
    size_t left_out = 1 + below(20);

    for (size_t place = 0; place < s->table[GT_TABLE_COUNT]; place++)
        if (!one_in(left_out))
            gt_interpret(s->table, GT_TABLE_BYTES, place, records, GT_RECORDS_NUMBERS);
}

static void fresh(side *s, uint8_t sites)
{
    static const uint8_t owners[GT_SLOTS];

    expect(gt_fresh(sites, owners, GT_SLOTS, s->table, GT_TABLE_BYTES).refusal == 0, "the setup was refused");
}

static void start(side *s, knowledge *k, uint8_t sites)
{
    fresh(s, sites);
    s->numbers = GT_RECORDS_NUMBERS;
    k->known.sites = sites;
    k->known.count = 0;
}

/* Of four blocks so many are sent to both. */
static void go_on(pair *p, size_t together)
{
    if (below(4) < together)
        go_on_together(p);
    else if (one_in(2))
        go_on_alone(&p->left, &of_left);
    else
        go_on_alone(&p->right, &of_right);
}

static void make_pair(pair *p)
{
    uint8_t sites = some_sites(), sites_of_right = one_in(20) ? some_sites() : sites;
    size_t together = below(5);

    start(&p->left, &of_left, sites);
    start(&p->right, &of_right, sites_of_right);
    of_both.known = of_left.known;
    for (size_t blocks = below(MOST_BLOCKS); blocks > 0; blocks--)
        go_on(p, together);
    fresh(&p->right, sites_of_right);
    hold_in_some_order(&p->right, &of_right);
    interpret_some(&p->left);
    interpret_some(&p->right);
}

/* ---- Pairs that no calls made */

/* Of those held, or the one behind them. */
static uint8_t *some_row(side *s)
{
    size_t count = s->table[GT_TABLE_COUNT];

    return s->table + GT_TABLE_ROWS + GT_ROW_BYTES * below(count < GT_MAX_PLACES ? count + 1 : GT_MAX_PLACES);
}

/* An owner; whether something was retired; a row's digest, to that of a row of the other side; its site or its sequence
 * number; or a bit of its fields. */
static void change(side *s, side *other)
{
    if (one_in(6))
        s->table[1 + below(GT_SLOTS)] = (uint8_t)below(2);
    else if (one_in(8))
        s->table[GT_TABLE_RETIRED] = (uint8_t)below(3);
    else if (one_in(3))
        memcpy(some_row(s), some_row(other), GT_DIGEST_BYTES);
    else if (one_in(2))
        some_row(s)[GT_ROW_SITE + 2 * below(2)] = (uint8_t)below(2);
    else
        some_row(s)[GT_ROW_SITE + below(GT_ROW_BYTES - GT_ROW_SITE)] ^= (uint8_t)(1 << below(8));
}

static size_t some_numbers(void) { return one_in(40) ? below(GT_RECORDS_NUMBERS) : GT_RECORDS_NUMBERS; }

static void change_some(pair *p)
{
    for (size_t changes = below(4); changes > 0; changes--)
        if (one_in(2))
            change(&p->left, &p->right);
        else
            change(&p->right, &p->left);
    p->left.numbers = some_numbers();
    p->right.numbers = some_numbers();
}

/* ---- Joins */

static size_t answered[REFUSALS], just_full;

static void join_some(void)
{
    static pair p;

    make_pair(&p);
    fill(p.left.records, 0);
    fill(p.right.records, 1);
    if (one_in(2))
        change_some(&p);
    gt_answer answer = join_at_both(&p, one_in(2) ? some_numbers() : GT_RECORDS_NUMBERS);
    answered[answer.refusal]++;
    just_full += answer.refusal == 0 && answer.value == GT_MAX_PLACES && p.left.table[GT_TABLE_COUNT] < GT_MAX_PLACES;
}

void expect_same_joins_at_random(size_t pairs)
{
    static const uint8_t answers[] = {0, 2, 12, 23, 24, 25, 31};

    for (size_t i = 0; i < pairs; i++)
        join_some();
    for (size_t i = 0; i < sizeof answers; i++)
        expect(answered[answers[i]] > 0, "a refusal did not come at random");
    expect(just_full > 0, "no table was just filled");
}
