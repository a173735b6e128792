/* Calls taking back at the edges of what it takes, and other calls after it. Writes a line for each check, and ends with exit
 * status 1 if one fails. The table of a taking back lies in an allocation of its own length, so that valgrind sees an access
 * past its end. */
#include "lists.h"
#include "sides.h"

#include <stdio.h>
#include <stdlib.h>
#include <string.h>

/* ---- Takings back, on exact copies. What a call left is put back. */

static gt_answer take_back_of_length(table *t, size_t length)
{
    uint8_t *lent = exact_copy(t->bytes, length);
    gt_answer answer = gt_take_back(lent, length);

    take_over(t->bytes, lent, length);
    return answer;
}

static gt_answer take_back(table *t) { return take_back_of_length(t, GT_TABLE_BYTES); }

/* Refused, with nothing changed. */
static bool refused_of_length(table t, size_t length, uint8_t refusal)
{
    table before = t;

    return is(take_back_of_length(&t, length), refusal, 0) && same(&t, &before);
}

static bool refused(table t, uint8_t refusal) { return refused_of_length(t, GT_TABLE_BYTES, refusal); }

/* Taken back to this table. */
static bool taken_back(table t, table wanted) { return is(take_back(&t), 0, 0) && same(&t, &wanted); }

/* ---- 2: a table not in form, and of another length */

/* The table with another byte in a row. */
static table changed(table t, size_t place, size_t at, uint8_t byte)
{
    row(&t, place)[at] = byte;
    return t;
}

static void check_form(void)
{
    table t = chain(4, 2);

    check("taking back, a table of 0 bytes", refused_of_length(t, 0, 2));
    check("taking back, a table of 3850 bytes", refused_of_length(t, GT_TABLE_BYTES - 1, 2));
    check("taking back, a table of 3852 bytes", refused_of_length(t, GT_TABLE_BYTES + 1, 2));
    check("taking back, nothing lent", is(gt_take_back(NULL, 0), 2, 0));
    check("taking back, all zeros", refused(filled_with(0), 2));
    check("taking back, all ones", refused(filled_with(255), 2));
    check("taking back, the retired byte 2", refused(having_retired(t, 2), 2));
    check("taking back, the last mark 2", refused(changed(t, 1, MARK, 2), 2));
    check("taking back, a byte behind the last place", refused(changed(t, 2, 0, 1), 2));
    check("taking back, a first place that refers to itself", refused(changed(t, 0, REFERENCES, 1), 2));
}

/* ---- 32, 33, and the order of the checks */

/* Two blocks that do not refer to each other; these places are interpreted. */
static table twins(uint64_t places) { return interpreted(with_row(chain(4, 1), twin_block(), 0), places); }

static void check_refused(void)
{
    for (size_t i = 0; i < sizeof lawful; i++)
        check_with("32, an empty table, n", lawful[i], refused(empty_table(lawful[i]), 32));
    check("32, an empty table that has retired something", refused(having_retired(empty_table(4), 1), 32));
    check("33, a single place", refused(whole(chain(4, 1)), 33));
    check("33, the last of 64 places", refused(whole(chain(1, 64)), 33));
    check("33, a table that has retired something", refused(having_retired(whole(chain(4, 2)), 1), 33));
    check("33, the last place alone is interpreted", refused(twins(2), 33));
    check("33, another place alone is: taken back", taken_back(twins(1), interpreted(chain(4, 1), 1)));
}

/* An empty table in form has no interpreted place, so 32 and 33 never meet. */
static void check_order(void)
{
    table none = empty_table(4);

    check("taking back: 2 before 32", refused(having_retired(none, 2), 2) && refused(empty_table(3), 2));
    check("taking back: 2 before 33", refused(having_retired(whole(chain(4, 1)), 2), 2));
    check("taking back, a mark on an empty table", refused(interpreted(none, 1), 2));
    check("taking back, every mark on an empty table", refused(interpreted(none, UINT64_MAX), 2));
}

/* ---- An admission undone, byte for byte */

/* Admitted at the next place, and taken back: the table is the one before. */
static bool undone(table before, block b)
{
    table t = before;

    return is(admit(&t, b), 0, before.bytes[COUNT]) && !same(&t, &before) && taken_back(t, before);
}

/* A block of each of 16 sites, the last of a site whose earlier ones were retired. */
static table sixteen_blocks(void)
{
    table t = empty_table(16);

    for (uint8_t site = 0; site < 16; site++)
        put_row(&t, block_of(site, 0), 0);
    memcpy(row(&t, 15) + SEQUENCE, (uint8_t[]){1, 254}, 2);
    return having_retired(whole(t), 1);
}

/* It refers to all of them, and has as many requests as a block can have, of the last slots. */
static block longest_block(void)
{
    block b = block_of(15, 511);

    for (uint8_t site = 0; site < 16; site++)
        b = referring_to(b, block_of(site, 0));
    for (uint8_t slot = GT_SLOTS - GT_MAX_REQUESTS; slot < GT_SLOTS; slot++)
        b = with_request(b, slot, 65535);
    return b;
}

/* A row of the longest block whose request of each slot is 65,535: none of its fields is zero but the mark. A table in form may
 * have it, though no block has as many requests. */
static table with_each_request(table t)
{
    put_row(&t, longest_block(), 0xffff);
    memset(row(&t, 16) + REQUESTS, 255, 2 * GT_SLOTS);
    return t;
}

/* The mark that something was retired stays. */
static bool undone_after_a_retiring(void)
{
    side s = fresh_side(1);

    return hold(&s, example_block(0), 0) && hold(&s, example_block(1), 1) && is(retire(&s), 0, 0) && s.table.bytes[RETIRED] == 1
        && undone(s.table, example_block(2));
}

/* Each table on the way down is the one on the way up, and the last is the fresh one. */
static bool down_to_empty(void)
{
    static table reached[GT_MAX_PLACES + 1];
    table t;

    gt_fresh(1, owners_for(1), GT_SLOTS, reached[0].bytes, GT_TABLE_BYTES);
    for (uint16_t i = 0; i < GT_MAX_PLACES; i++) {
        reached[i + 1] = reached[i];
        if (!is(admit(&reached[i + 1], chain_block(i)), 0, i))
            return false;
    }
    t = reached[GT_MAX_PLACES];
    for (size_t left = GT_MAX_PLACES; left-- > 0;)
        if (!is(take_back(&t), 0, 0) || !same(&t, &reached[left]))
            return false;
    return refused(t, 32);
}

static void check_undone(void)
{
    table below = whole(chain(4, 2));

    for (size_t i = 0; i < sizeof lawful; i++)
        check_with("undone, a first block, n", lawful[i], undone(empty_table(lawful[i]), block_of(0, 0)));
    check("undone, the 64th block", undone(chain(1, 63), chain_block(63)));
    check("undone, a longest block", longest_block().length == GT_MAX_BLOCK_BYTES && undone(sixteen_blocks(), longest_block()));
    check("undone, a row with a request of each slot", taken_back(with_each_request(sixteen_blocks()), sixteen_blocks()));
    check("undone, after a retiring", undone_after_a_retiring());
    check("undone, from 64 blocks down to none", down_to_empty());
    check("undone, above interpreted places", undone(below, chain_block(2)) && refused(below, 33));
}

/* ---- Other calls after a taking back */

/* While it is held, the same block gets 8; taken back, it gets its place again. */
static bool comes_again(void)
{
    table t = chain(4, 2), held;
    block b = with_request(chain_block(2), 5, 9);

    if (!is(admit(&t, b), 0, 2))
        return false;
    held = t;
    return is(admit(&t, b), 8, 2) && is(take_back(&t), 0, 0) && is(admit(&t, b), 0, 2) && same(&t, &held);
}

static bool makes_room(void)
{
    table t = chain(1, 64);

    return is(admit(&t, twin_block()), 11, 0) && is(take_back(&t), 0, 0) && is(admit(&t, twin_block()), 0, 63)
        && is(admit(&t, chain_block(63)), 11, 0);
}

/* A block that refers to it gets 9, until it has come again. */
static bool referred_to(void)
{
    table t = chain(4, 2);
    block b = referring_to(referring_to(block_of(1, 0), chain_block(0)), chain_block(1));

    return is(take_back(&t), 0, 0) && is(admit(&t, b), 9, 1) && is(admit(&t, chain_block(1)), 0, 1) && is(admit(&t, b), 0, 2);
}

/* At each place a wrong block comes first: table and records go on as if it had never come. */
static bool goes_on(void)
{
    side s = fresh_side(1), straight = s;

    for (uint16_t i = 0; i < 4; i++)
        if (!is(admit(&s.table, with_request(example_block(i), 5, 9)), 0, i) || !is(take_back(&s.table), 0, 0)
            || !hold(&s, example_block(i), i) || !hold(&straight, example_block(i), i))
            return false;
    return same_side(&s, &straight);
}

/* A site's next block, without requests; of length 0 if it is refused. */
static block built(const table *t, uint8_t site)
{
    block b;

    b.length = gt_build(t->bytes, GT_TABLE_BYTES, site, NULL, 0, b.bytes, GT_MAX_BLOCK_BYTES).value;
    return b;
}

static bool same_block(block x, block y) { return x.length == y.length && memcmp(x.bytes, y.bytes, x.length) == 0; }

/* While a site's block is held, that site builds the next one and the others refer to it; then all build what they built
 * before. */
static bool builds_as_before(void)
{
    table before = chain(4, 2), with = before, after;
    bool as_before = is(admit(&with, built(&before, 0)), 0, 2);

    after = with;
    as_before = as_before && is(take_back(&after), 0, 0);
    for (uint8_t site = 0; site < 4; site++)
        as_before = as_before && !same_block(built(&with, site), built(&before, site))
            && same_block(built(&after, site), built(&before, site));
    return as_before;
}

static uint32_t forked_sites(const table *t) { return gt_forks(t->bytes, GT_TABLE_BYTES).count; }

static bool fork_undone(void)
{
    table t = chain(4, 1);

    return is(admit(&t, twin_block()), 0, 1) && forked_sites(&t) == 1 && is(take_back(&t), 0, 0) && forked_sites(&t) == 0
        && gt_forks(t.bytes, GT_TABLE_BYTES).refusal == 0;
}

static void check_afterwards(void)
{
    check("afterwards, the same block", comes_again());
    check("afterwards, room for another", makes_room());
    check("afterwards, a block that refers to it", referred_to());
    check("afterwards, table and records", goes_on());
    check("afterwards, building", builds_as_before());
    check("afterwards, the watch", fork_undone());
}

/* ---- Blocks let in from the shelf: each is an admission of its own */

typedef struct {
    table table;
    uint8_t shelf[GT_SHELF_BYTES];
} controller;

static gt_arrival arrive(controller *c, block b)
{
    uint64_t outcomes[GT_OUTCOMES_NUMBERS];

    return gt_arrive(c->table.bytes, GT_TABLE_BYTES, c->shelf, GT_SHELF_BYTES, 0, b.bytes, b.length, 1, outcomes,
                     GT_OUTCOMES_NUMBERS);
}

/* The chain's next blocks wait, last first, and one that refers to a block that nobody has. Then its first block comes. */
static controller with_let_in(uint16_t blocks)
{
    controller c = {.table = empty_table(4)};

    arrive(&c, with_reference(block_of(1, 0), not_held(1)));
    for (uint16_t i = blocks; i > 0; i--)
        arrive(&c, chain_block(i));
    arrive(&c, chain_block(0));
    return c;
}

/* One after the other leaves, and the block that arrived is the last to leave. The shelf keeps what the arrival left there. */
static bool let_in_undone(uint16_t blocks)
{
    controller c = with_let_in(blocks), after = c;

    for (uint16_t left = (uint16_t)(blocks + 1); left > 0; left--) {
        table wanted = chain(4, (uint16_t)(left - 1));
        if (!is(take_back(&c.table), 0, 0) || !same(&c.table, &wanted))
            return false;
    }
    return refused(c.table, 32) && c.shelf[0] == 1 && memcmp(c.shelf, after.shelf, GT_SHELF_BYTES) == 0;
}

/* Taken back, a block does not wait: the first one comes again and lets none in, and the second waits as one that is new. */
static bool waits_no_more(void)
{
    controller c = with_let_in(2), alone;
    gt_arrival second, first;

    take_back(&c.table);
    take_back(&c.table);
    take_back(&c.table);
    alone = c;
    second = arrive(&c, chain_block(1));
    first = arrive(&alone, chain_block(0));
    return is(second.answer, 9, 0) && c.shelf[0] == 2 && is(first.answer, 0, 0) && first.ended == 0;
}

static void check_let_in(void)
{
    for (uint16_t blocks = 0; blocks < 4; blocks++)
        check_with("let in, and taken back with the arrival:", blocks, let_in_undone(blocks));
    check("let in, and taken back: it waits no more", waits_no_more());
}

/* ---- A list of calls with takings back leaves what single calls leave */

/* A call on a table of n 1: of a block of the example's chain, of a place, or of neither. */
typedef struct {
    enum { ADMISSION, INTERPRETATION, RETIRING, TAKING_BACK } kind;
    uint16_t number;
    gt_answer answer;
} call;

static const call calls[] = {
    {TAKING_BACK, 0, {32, 0}},   {ADMISSION, 0, {0, 0}},   {TAKING_BACK, 0, {0, 0}},    {TAKING_BACK, 0, {32, 0}},
    {ADMISSION, 1, {9, 0}},      {ADMISSION, 0, {0, 0}},   {INTERPRETATION, 0, {0, 0}}, {TAKING_BACK, 0, {33, 0}},
    {ADMISSION, 1, {0, 1}},      {TAKING_BACK, 0, {0, 0}}, {TAKING_BACK, 0, {33, 0}},   {ADMISSION, 1, {0, 1}},
    {RETIRING, 0, {29, 0}},      {ADMISSION, 2, {0, 2}},   {INTERPRETATION, 1, {0, 0}}, {RETIRING, 0, {0, 0}},
    {TAKING_BACK, 0, {0, 0}},    {RETIRING, 0, {29, 0}},   {TAKING_BACK, 0, {33, 0}},   {ADMISSION, 2, {0, 1}},
    {INTERPRETATION, 1, {0, 0}},
};

enum { CALLS = sizeof calls / sizeof calls[0] };

/* Puts the call on the list, and makes it at the side. */
static gt_answer put_and_made(list *l, side *s, call c)
{
    switch (c.kind) {
    case ADMISSION:
        put_admission(l, example_block(c.number), 1);
        return admit(&s->table, example_block(c.number));
    case INTERPRETATION:
        put_interpretation(l, c.number);
        return gt_interpret(s->table.bytes, GT_TABLE_BYTES, c.number, s->records.numbers, GT_RECORDS_NUMBERS);
    case RETIRING:
        put_retiring(l);
        return retire(s);
    default:
        put_taking_back(l);
        return take_back(&s->table);
    }
}

static bool replayed(void)
{
    list l = {.length = 0};
    side s = fresh_side(1), singly = s;
    uint64_t answers[2 * CALLS] = {0};
    bool answered = true;

    for (size_t i = 0; i < CALLS; i++)
        answered = is(put_and_made(&l, &singly, calls[i]), calls[i].answer.refusal, calls[i].answer.value) && answered;
    answered = answered && replay(&s.table, &s.records, &l, l.length, answers, 2 * CALLS) == CALLS;
    for (size_t i = 0; i < CALLS; i++)
        answered = answered && answers[2 * i] == calls[i].answer.refusal && answers[2 * i + 1] == calls[i].answer.value;
    return answered && same_side(&s, &singly);
}

/* A taking back is one byte: the byte after it begins a call, and one above 3 ends the list. No number of the records
 * changes. */
static bool ended_by(uint8_t byte)
{
    list l = {.bytes = {3, 3, 3, byte, 3}, .length = 5};
    side s = {chain(1, 3), of_number(UNTOUCHED)}, wanted = fresh_side(1);
    uint64_t answers[10] = {[6] = UNTOUCHED};

    return replay(&s.table, &s.records, &l, l.length, answers, 10) == 3 && same_side(&s, &wanted) && answers[4] == 0
        && answers[6] == UNTOUCHED;
}

static void check_replay(void)
{
    check("replay, takings back among other calls", replayed());
    check("replay, bytes 3 and 4", ended_by(4));
    check("replay, bytes 3 and 255", ended_by(255));
}

int main(void)
{
    check_form();
    check_refused();
    check_order();
    check_undone();
    check_afterwards();
    check_let_in();
    check_replay();
    check("a list of calls stays as it was", only_read);
    return all_ok ? EXIT_SUCCESS : EXIT_FAILURE;
}
