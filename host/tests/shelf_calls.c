/* Calls arrivals and the form of a shelf at the edges of what they take. Writes a line for each check, and ends with exit
 * status 1 if one fails. All that is lent lies in an allocation of its own length, so that valgrind sees an access past its
 * end. */
#include "campaigns.h"
#include "lent.h"

#include <stdio.h>
#include <stdlib.h>
#include <string.h>

/* What outcomes have before a call, and the number of a block that waits nowhere yet. */
enum { UNTOUCHED = 99, ANOTHER = 99 };

/* ---- Shelves */

/* Where the entries of a shelf begin, and the fields of an entry. */
enum { ENTRIES = 1, CAMPAIGN = 0, LENGTH = 1, BLOCK = 3, ENTRY_BYTES = GT_SHELF_ENTRY_BYTES };

typedef struct {
    uint8_t bytes[GT_SHELF_BYTES + 1]; /* room for a buffer that is too long */
} shelf;

static const shelf empty_shelf;

static uint8_t *entry(shelf *s, size_t place) { return s->bytes + ENTRIES + ENTRY_BYTES * place; }

/* The shelf with one waiting block more, as the layout has it. */
static shelf with_waiting(shelf s, uint8_t campaign, block b)
{
    uint8_t *e = entry(&s, s.bytes[0]++);

    e[CAMPAIGN] = campaign;
    e[LENGTH] = (uint8_t)(b.length >> 8);
    e[LENGTH + 1] = (uint8_t)b.length;
    memcpy(e + BLOCK, b.bytes, b.length);
    return s;
}

/* A block that refers to one that nobody has. Another number makes another block. */
static block lost_block(uint16_t number) { return with_request(with_reference(block_of(0, 0), not_held(1)), 0, number); }

/* A longest one: its entry has no byte behind it. */
static block longest_lost_block(uint16_t number)
{
    block b = block_of(0, 0);

    for (uint8_t i = 0; i < GT_MAX_REFERENCES; i++)
        b = with_reference(b, not_held(i));
    for (uint8_t slot = 0; slot < GT_MAX_REQUESTS; slot++)
        b = with_request(b, slot, number);
    return b;
}

/* How many places each campaign holds. */
typedef struct {
    size_t of[GT_CAMPAIGNS];
} holders;

/* A shelf with so many blocks of each campaign, the campaigns in turn. Equal bytes wait for all of them. */
static shelf shelf_of(holders held, block of_number(uint16_t))
{
    shelf s = empty_shelf;

    for (uint16_t i = 0; i < GT_SHELF_PLACES; i++)
        for (uint8_t campaign = 0; campaign < GT_CAMPAIGNS; campaign++)
            if (i < held.of[campaign])
                s = with_waiting(s, campaign, of_number((uint16_t)(i + 1)));
    return s;
}

static shelf holding(size_t first, size_t second, size_t third, size_t fourth)
{
    return shelf_of((holders){{first, second, third, fourth}}, lost_block);
}

/* ---- Arrivals, on exact copies. What a call left is put back, and the block must stay. */

/* All that an arrival may change: the campaign's table, the shelf and the outcomes. */
typedef struct {
    table table;
    shelf shelf;
    uint64_t outcomes[GT_OUTCOMES_NUMBERS + 1]; /* room for one that isn't lent */
} state;

static state state_of(table t, shelf s)
{
    state made = {.table = t, .shelf = s};

    for (size_t i = 0; i < GT_OUTCOMES_NUMBERS + 1; i++)
        made.outcomes[i] = UNTOUCHED;
    return made;
}

static bool same_shelf(const shelf *x, const shelf *y) { return memcmp(x->bytes, y->bytes, sizeof x->bytes) == 0; }

static bool same_state(const state *x, const state *y)
{
    return same(&x->table, &y->table) && same_shelf(&x->shelf, &y->shelf)
        && memcmp(x->outcomes, y->outcomes, sizeof x->outcomes) == 0;
}

/* How much of each buffer is lent. */
typedef struct {
    size_t table, shelf, outcomes;
} lengths;

static const lengths right = {GT_TABLE_BYTES, GT_SHELF_BYTES, GT_OUTCOMES_NUMBERS};

static gt_arrival arrive_of_lengths(state *s, lengths l, uint8_t campaign, block b, uint8_t verdict)
{
    uint8_t *lent_table = exact_copy(s->table.bytes, l.table), *lent_shelf = exact_copy(s->shelf.bytes, l.shelf);
    uint8_t *lent_block = exact_copy(b.bytes, b.length);
    uint64_t *lent_outcomes = exact_copy(s->outcomes, 8 * l.outcomes);
    gt_arrival answer = gt_arrive(lent_table, l.table, lent_shelf, l.shelf, campaign, lent_block, b.length, verdict,
                                  lent_outcomes, l.outcomes);

    give_back(lent_block, b.bytes, b.length);
    take_over(s->table.bytes, lent_table, l.table);
    take_over(s->shelf.bytes, lent_shelf, l.shelf);
    take_over(s->outcomes, lent_outcomes, 8 * l.outcomes);
    return answer;
}

/* Refused, with nothing ended and nothing changed. */
static bool refused_of_lengths(state s, lengths l, uint8_t campaign, block b, uint8_t verdict, uint8_t refusal, size_t value)
{
    state before = s;
    gt_arrival answer = arrive_of_lengths(&s, l, campaign, b, verdict);

    return is(answer.answer, refusal, value) && answer.ended == 0 && same_state(&s, &before);
}

static bool refused_with(state s, uint8_t campaign, block b, uint8_t refusal, size_t value)
{
    return refused_of_lengths(s, right, campaign, b, 1, refusal, value);
}

static bool refused(state s, uint8_t campaign, block b, uint8_t refusal) { return refused_with(s, campaign, b, refusal, 0); }

/* Answered 9: the block stands behind what waits already, and nothing else has changed. */
static bool waits(state s, uint8_t campaign, block b, size_t index)
{
    state wanted = state_of(s.table, with_waiting(s.shelf, campaign, b));
    gt_arrival answer = arrive_of_lengths(&s, right, campaign, b, 1);

    return is(answer.answer, 9, index) && answer.ended == 0 && same_state(&s, &wanted);
}

/* What an admission ended: two numbers for each waiting block. */
typedef struct {
    size_t count;
    uint64_t numbers[GT_OUTCOMES_NUMBERS];
} outcomes;

static const outcomes none;

/* Admitted at the next place with these outcomes; then the table and the shelf are these, and all other outcomes stay. */
static bool admitted_of_lengths(state s, lengths l, uint8_t campaign, block b, outcomes ended, table t, shelf left)
{
    state wanted = state_of(t, left);
    size_t place = s.table.bytes[COUNT];
    gt_arrival answer = arrive_of_lengths(&s, l, campaign, b, 1);

    memcpy(wanted.outcomes, ended.numbers, 16 * ended.count);
    return is(answer.answer, 0, place) && answer.ended == ended.count && same_state(&s, &wanted);
}

static bool admitted(state s, uint8_t campaign, block b, outcomes ended, table t, shelf left)
{
    return admitted_of_lengths(s, right, campaign, b, ended, t, left);
}

/* ---- Blocks and tables of most checks: n is 4, the first block is of site 0, and others of sequence number 0 refer to it. */

static block first_block(void) { return block_of(0, 0); }

static block child_of(uint8_t site) { return referring_to(block_of(site, 0), first_block()); }

/* ---- Before admission: 21, 17, 2 */

static shelf of_byte(uint8_t byte)
{
    shelf s;

    memset(s.bytes, byte, sizeof s.bytes);
    return s;
}

static bool nothing_lent(uint8_t campaign, uint8_t refusal, size_t value)
{
    gt_arrival answer = gt_arrive(NULL, 0, NULL, 0, campaign, NULL, 0, 1, NULL, 0);

    return is(answer.answer, refusal, value) && answer.ended == 0;
}

static void check_campaign_and_room(void)
{
    state s = state_of(empty_table(4), holding(1, 1, 1, 1)), bad = state_of(filled_with(0), of_byte(255));
    lengths no_room = {GT_TABLE_BYTES, GT_SHELF_BYTES, 0}, little = {GT_TABLE_BYTES, GT_SHELF_BYTES, GT_OUTCOMES_NUMBERS - 1};

    check("arrival, campaign 4", refused(s, 4, first_block(), 21));
    check("arrival, campaign 255", refused(s, 255, first_block(), 21));
    for (uint8_t campaign = 0; campaign < GT_CAMPAIGNS; campaign++)
        check_with("arrival, campaign", campaign, admitted(s, campaign, first_block(), none, chain(4, 1), s.shelf));
    check("arrival, nothing lent for campaign 4", nothing_lent(4, 21, 0));
    check("arrival, nothing lent for campaign 3", nothing_lent(3, 17, 20));
    check("arrival, outcomes of 0 numbers", refused_of_lengths(s, no_room, 0, first_block(), 1, 17, 20));
    check("arrival, outcomes of 19 numbers", refused_of_lengths(s, little, 0, first_block(), 1, 17, 20));
    check("arrival: 21 before 17 and 2", refused_of_lengths(bad, no_room, 4, of_length(first_block(), 4), 0, 21, 0));
    check("arrival: 17 before 2", refused_of_lengths(bad, little, 3, of_length(first_block(), 4), 0, 17, 20));
}

static bool shelf_of_length_refused(size_t length)
{
    lengths l = {GT_TABLE_BYTES, length, GT_OUTCOMES_NUMBERS};

    return refused_of_lengths(state_of(empty_table(4), empty_shelf), l, 0, first_block(), 1, 2, 0);
}

static bool table_of_length_refused(size_t length)
{
    lengths l = {length, GT_SHELF_BYTES, GT_OUTCOMES_NUMBERS};

    return refused_of_lengths(state_of(empty_table(4), empty_shelf), l, 0, first_block(), 1, 2, 0);
}

static void check_shelf_and_table(void)
{
    state bad_shelf = state_of(empty_table(4), with_waiting(holding(1, 0, 0, 0), 0, lost_block(1)));
    state bad_table = state_of(filled_with(0), holding(1, 0, 0, 0));
    state slot_twice = state_of(empty_table(4), with_waiting(empty_shelf, 0, with_request(lost_block(1), 0, 2)));

    check("arrival, a shelf of 0 bytes", shelf_of_length_refused(0));
    check("arrival, a shelf of a byte too few", shelf_of_length_refused(GT_SHELF_BYTES - 1));
    check("arrival, a shelf of a byte too many", shelf_of_length_refused(GT_SHELF_BYTES + 1));
    check("arrival, a shelf not in form", refused(bad_shelf, 0, first_block(), 2));
    check("arrival, a shelf not in form and a block that would wait", refused(bad_shelf, 0, lost_block(2), 2));
    check("arrival, a shelf of ones", refused(state_of(empty_table(4), of_byte(255)), 0, first_block(), 2));
    check("arrival, a table of 0 bytes", table_of_length_refused(0));
    check("arrival, a table of 3850 bytes", table_of_length_refused(GT_TABLE_BYTES - 1));
    check("arrival, a table of 3852 bytes", table_of_length_refused(GT_TABLE_BYTES + 1));
    check("arrival, a table not in form", refused(bad_table, 0, first_block(), 2));
    check("arrival, a table not in form and a block that would wait", refused(bad_table, 0, lost_block(2), 2));
    check("arrival, a shelf on which a block requests a slot twice", refused(slot_twice, 0, first_block(), 2));
    check("arrival: 2 of the shelf before 3", refused(bad_shelf, 0, of_length(first_block(), 4), 2));
    check("arrival: 2 of the table before 3", refused(bad_table, 0, of_length(first_block(), 4), 2));
    check("arrival: 2 of the shelf before 20", refused(bad_shelf, 0, lost_block(1), 2));
    check("arrival: 2 of the table before 20", refused(bad_table, 0, lost_block(1), 2));
}

/* ---- Refused as by an admission. A waiting block could be let in, and stays: nothing is tried. */

static void check_refused_as_by_admission(void)
{
    state s = state_of(chain(4, 2), with_waiting(empty_shelf, 0, child_of(1)));
    state full = state_of(chain(1, 64), with_waiting(empty_shelf, 0, lost_block(1)));
    block b = block_of(2, 0), missing = with_reference(b, not_held(1)), lost = lost_block(1);

    check("arrival, 4 bytes", refused(s, 0, of_length(b, 4), 3));
    check("arrival, no bytes", refused(s, 0, of_length(b, 0), 3));
    check("arrival, a site that is n", refused(s, 0, block_of(4, 0), 4));
    check("arrival, verdict 0", refused_of_lengths(s, right, 0, b, 0, 5, 0));
    check("arrival, verdict 2", refused_of_lengths(s, right, 0, b, 2, 5, 0));
    check("arrival, slot 8 in request 1", refused_with(s, 0, with_request(with_request(b, 7, 1), 8, 1), 6, 1));
    check("arrival, a slot twice", refused_with(s, 0, with_request(with_request(b, 7, 1), 7, 2), 18, 1));
    check("arrival, a reference twice", refused_with(s, 0, with_reference(missing, not_held(1)), 7, 1));
    check("arrival, the second block again", refused_with(s, 0, chain_block(1), 8, 1));
    check("arrival, sequence 1 without its parent", refused(s, 0, block_of(2, 1), 10));
    check("arrival, the 65th block", refused(full, 0, chain_block(64), 11));
    check("arrival, the 65th block repeats the last", refused_with(full, 0, chain_block(63), 8, 63));

    check("arrival: 3 before 20", refused(full, 0, of_length(lost, lost.length - 1), 3));
    check("arrival: 4 before 9", refused(s, 0, with_reference(block_of(4, 0), not_held(1)), 4));
    check("arrival: 5 before 9", refused_of_lengths(s, right, 0, missing, 0, 5, 0));
    check("arrival: 5 before 20", refused_of_lengths(full, right, 0, lost, 0, 5, 0));
    check("arrival: 6 before 9", refused_with(s, 0, with_request(missing, 0, 0), 6, 0));
    check("arrival: 18 before 9", refused_with(s, 0, with_request(with_request(missing, 0, 1), 0, 2), 18, 1));
}

/* ---- A block that waits */

/* Four of each campaign, until the shelf is full to its last byte. */
static bool sixteen_longest_wait(void)
{
    shelf s = empty_shelf;

    for (uint16_t i = 0; i < GT_SHELF_PLACES; i++) {
        uint8_t campaign = i % GT_CAMPAIGNS;
        if (!waits(state_of(empty_table(4), s), campaign, longest_lost_block((uint16_t)(i + 1)), 0))
            return false;
        s = with_waiting(s, campaign, longest_lost_block((uint16_t)(i + 1)));
    }
    return s.bytes[GT_SHELF_BYTES - 1] == GT_SHELF_PLACES;
}

static void check_waits(void)
{
    state s = state_of(chain(4, 2), empty_shelf), full = state_of(chain(1, 64), empty_shelf);
    block third = with_reference(with_reference(child_of(1), not_held(1)), not_held(2));
    block orphan = with_reference(block_of(1, 7), not_held(1));

    check("waiting, reference 0 not held", waits(s, 0, lost_block(1), 0));
    check("waiting, references 1 and 2 not held", waits(s, 0, third, 1));
    check("waiting, for campaign 3", waits(s, 3, third, 1));
    check("waiting, behind those of all campaigns", waits(state_of(s.table, holding(3, 2, 1, 2)), 2, third, 1));
    check("waiting, a sequence number without its parent", waits(s, 0, orphan, 0));
    check("waiting, for a full table", waits(full, 0, lost_block(1), 0));
    check("waiting, longest blocks, until the shelf is full", sixteen_longest_wait());
    /* The first block is held, so that one that waits could be let in; but nothing is admitted that lets it in. */
    s.shelf = with_waiting(empty_shelf, 0, child_of(1));
    check("waiting, beside one that could be let in", waits(s, 0, lost_block(1), 0));
}

/* ---- The same bytes again */

static void check_same_bytes(void)
{
    state s = state_of(empty_table(4), holding(1, 1, 0, 0)), full = state_of(empty_table(4), holding(10, 2, 2, 2));
    state held = state_of(chain(4, 2), with_waiting(empty_shelf, 0, chain_block(1)));
    block b = lost_block(1), tenth = lost_block(10), half_lost = with_reference(child_of(1), not_held(1));

    check("the same bytes, for their campaign", refused(s, 0, b, 20) && refused(s, 1, b, 20));
    check("the same bytes, for another campaign", waits(s, 2, b, 0) && waits(s, 3, b, 0));
    check("the same bytes, reference 1 not held: 20 has no value",
          refused(state_of(chain(4, 1), with_waiting(empty_shelf, 0, half_lost)), 0, half_lost, 20));
    check("the same bytes, a full shelf: 20 before 19", refused(full, 0, tenth, 20) && refused(full, 1, lost_block(2), 20));
    check("the same bytes of another campaign, a full shelf", refused(full, 1, tenth, 19));
    check("the same bytes, held meanwhile: 8 before 20", refused_with(held, 0, chain_block(1), 8, 1));
    check("other bytes, only the last differs", waits(s, 0, lost_block(2), 0));
    check("other bytes, another length", waits(s, 0, with_request(b, 1, 1), 0));
}

/* ---- The shelf rule */

static size_t lack(size_t held) { return held < GT_SHELF_RESERVED ? GT_SHELF_RESERVED - held : 0; }

/* What all campaigns lack of their two places. */
static size_t lack_of_all(holders held) { return lack(held.of[0]) + lack(held.of[1]) + lack(held.of[2]) + lack(held.of[3]); }

static size_t sum(holders held) { return held.of[0] + held.of[1] + held.of[2] + held.of[3]; }

static state with_holders(holders held) { return state_of(empty_table(4), shelf_of(held, lost_block)); }

/* A further block of a campaign is taken, or gets 19. */
static bool takes(size_t campaign, holders held) { return waits(with_holders(held), (uint8_t)campaign, lost_block(ANOTHER), 0); }

static bool gets_19(size_t campaign, holders held)
{
    return refused(with_holders(held), (uint8_t)campaign, lost_block(ANOTHER), 19);
}

static bool answered_by_the_rule(size_t campaign, holders held)
{
    size_t own = held.of[campaign], others_lack = lack_of_all(held) - lack(own), left = GT_SHELF_PLACES - sum(held);
    bool may = own < GT_SHELF_MOST && left > others_lack;

    return may ? takes(campaign, held) : own >= GT_SHELF_RESERVED && gets_19(campaign, held);
}

/* Every shelf in form, by how many places are held; which campaign asks changes from one to the next. The other three in
 * falling order: which of them is which is no matter to the rule. */
static bool rule_holds_for_all(void)
{
    size_t campaign = 0;
    bool all = true;

    for (size_t own = 0; own <= GT_SHELF_MOST; own++)
        for (size_t x = 0; x <= GT_SHELF_MOST; x++)
            for (size_t y = 0; y <= x; y++)
                for (size_t z = 0; z <= y; z++) {
                    holders held = {{0}};
                    campaign = (campaign + 1) % GT_CAMPAIGNS;
                    held.of[campaign] = own;
                    held.of[(campaign + 1) % GT_CAMPAIGNS] = x;
                    held.of[(campaign + 2) % GT_CAMPAIGNS] = y;
                    held.of[(campaign + 3) % GT_CAMPAIGNS] = z;
                    if (sum(held) + lack_of_all(held) <= GT_SHELF_PLACES)
                        all = answered_by_the_rule(campaign, held) && all;
                }
    return all;
}

static void check_shelf_rule(void)
{
    check("shelf rule, alone, holding 9", takes(0, (holders){{9, 0, 0, 0}}));
    check("shelf rule, alone, holding 10", gets_19(0, (holders){{10, 0, 0, 0}}));
    check("shelf rule, holding 9, the last free place", takes(3, (holders){{2, 2, 2, 9}}));
    check("shelf rule, holding 0 beside 10, 2 and 2", takes(0, (holders){{0, 10, 2, 2}}));
    check("shelf rule, holding 1 beside 10, 2 and 2", takes(0, (holders){{1, 10, 2, 2}}));
    check("shelf rule, holding 2 beside 10, 2 and 2", gets_19(0, (holders){{2, 10, 2, 2}}));
    check("shelf rule, holding 1, the others lack 4 of 5 free", takes(2, (holders){{10, 0, 1, 0}}));
    check("shelf rule, holding 2, the others lack 4 of 4 free", gets_19(2, (holders){{10, 0, 2, 0}}));
    check("shelf rule, holding 5, the others lack 4 of 5 free", takes(0, (holders){{5, 6, 0, 0}}));
    check("shelf rule, holding 6, the others lack 4 of 4 free", gets_19(0, (holders){{6, 6, 0, 0}}));
    check("shelf rule, holding 2, the others lack 1 of 2 free", takes(0, (holders){{2, 9, 2, 1}}));
    check("shelf rule, holding 3, the others lack 1 of 1 free", gets_19(0, (holders){{3, 9, 2, 1}}));
    check("shelf rule, the one that lacks it takes that one", takes(3, (holders){{3, 9, 2, 1}}));
    check("shelf rule, reference 1 not held: 19 has no value",
          refused(state_of(chain(4, 1), holding(10, 2, 2, 2)), 1, with_reference(child_of(1), not_held(1)), 19));
    check("shelf rule, every shelf in form", rule_holds_for_all());
}

/* ---- Blocks let in */

/* The chain's next blocks wait, in this order. */
static shelf with_chain(shelf s, uint8_t campaign, const uint16_t *order, size_t blocks)
{
    for (size_t i = 0; i < blocks; i++)
        s = with_waiting(s, campaign, chain_block(order[i]));
    return s;
}

/* Places 1 to 10. */
static const outcomes ten = {10, {0, 1, 0, 2, 0, 3, 0, 4, 0, 5, 0, 6, 0, 7, 0, 8, 0, 9, 0, 10}};

/* Ten blocks of a chain wait, last first, and among them two of each other campaign, one of which refers to the block that
 * arrives. This lets in all ten, one in each pass, and none of another campaign. */
static bool ten_came_reversed(size_t room)
{
    lengths l = {GT_TABLE_BYTES, GT_SHELF_BYTES, room};
    shelf s = empty_shelf, others = empty_shelf;

    for (uint16_t sequence = 10; sequence > 0; sequence--) {
        s = with_waiting(s, 2, chain_block(sequence));
        if (sequence > 4) {
            uint8_t campaign = (uint8_t[]){0, 1, 3}[sequence % 3];
            s = with_waiting(s, campaign, chain_block(sequence - 4));
            others = with_waiting(others, campaign, chain_block(sequence - 4));
        }
    }
    return s.bytes[0] == GT_SHELF_PLACES
        && admitted_of_lengths(state_of(empty_table(1), s), l, 2, chain_block(0), ten, chain(1, 11), others);
}

static bool ten_came_in_order(void)
{
    shelf s = with_chain(empty_shelf, 0, (const uint16_t[]){1, 2, 3, 4, 5, 6, 7, 8, 9, 10}, 10);

    return admitted(state_of(empty_table(1), s), 0, chain_block(0), ten, chain(1, 11), empty_shelf);
}

/* The first that waits refers to the second. It is let in by the second pass, after the third, which the first pass let in. */
static bool second_pass(void)
{
    block grandchild = referring_to(block_of(2, 0), child_of(1));
    shelf s = with_waiting(with_waiting(with_waiting(empty_shelf, 0, grandchild), 0, child_of(1)), 0, child_of(3));
    table t = with_row(with_row(with_row(chain(4, 1), child_of(1), 1), child_of(3), 1), grandchild, 2);

    return admitted(state_of(empty_table(4), s), 0, first_block(), (outcomes){3, {0, 1, 0, 2, 0, 3}}, t, empty_shelf);
}

/* What a pass has let in is held for the rest of it: of 3, 1, 2, 4 the first pass lets in 1 and 2, the second 3 and 4. */
static bool order_of_a_pass(void)
{
    shelf s = with_chain(empty_shelf, 1, (const uint16_t[]){3, 1, 2, 4}, 4);

    return admitted(state_of(empty_table(4), s), 1, chain_block(0), (outcomes){4, {0, 1, 0, 2, 0, 3, 0, 4}}, chain(4, 5),
                    empty_shelf);
}

/* Its fields come into the row: sequence number, requests, references by place; marks of other rows stay. */
static bool row_of_a_block_let_in(void)
{
    block b = with_request(referring_to(child_of(1), chain_block(1)), 5, 0x0102);
    table before = chain(4, 1), after = with_row(chain(4, 2), b, 3);

    put_request(&after, 2, 5, 1, 2);
    row(&before, 0)[MARK] = row(&after, 0)[MARK] = 1;
    return admitted(state_of(before, with_waiting(empty_shelf, 0, b)), 0, chain_block(1), (outcomes){1, {0, 2}}, after,
                    empty_shelf);
}

/* An arrival that nothing waits for, beside blocks that wait for another or for another campaign. */
static bool nothing_ready(void)
{
    shelf s = with_waiting(with_waiting(holding(2, 1, 0, 0), 1, chain_block(1)), 0, chain_block(2));

    return admitted(state_of(empty_table(4), s), 0, chain_block(0), none, chain(4, 1), s);
}

static void check_let_in(void)
{
    check("let in, ten that came in order", ten_came_in_order());
    check("let in, ten that came reversed", ten_came_reversed(GT_OUTCOMES_NUMBERS));
    check("let in, ten, outcomes of 21 numbers", ten_came_reversed(GT_OUTCOMES_NUMBERS + 1));
    check("let in, a second pass after the first has ended", second_pass());
    check("let in, two passes over 3, 1, 2, 4", order_of_a_pass());
    check("let in, the row", row_of_a_block_let_in());
    check("let in, nothing is ready", nothing_ready());
    /* What it waited for is held already, and any admission has it tried. */
    check("let in, by an admission of another block",
          admitted(state_of(chain(4, 1), with_waiting(empty_shelf, 0, child_of(1))), 0, block_of(2, 0), (outcomes){1, {0, 2}},
                   with_row(with_row(chain(4, 1), block_of(2, 0), 0), child_of(1), 1), empty_shelf));
}

/* ---- Blocks dropped */

/* Of site 1 and sequence number 1, and it refers to the first block alone: it has no parent. */
static block orphan(void) { return referring_to(block_of(1, 1), first_block()); }

/* The block itself arrives while it waits: the waiting one is then held. */
static bool arrives_while_waiting(void)
{
    shelf s = with_waiting(with_waiting(empty_shelf, 3, chain_block(1)), 3, lost_block(1));

    return admitted(state_of(chain(4, 1), s), 3, chain_block(1), (outcomes){1, {8, 0}}, chain(4, 2),
                    with_waiting(empty_shelf, 3, lost_block(1)));
}

/* Held at place 1, and the outcome has no place. */
static bool held_meanwhile(void)
{
    shelf s = with_waiting(empty_shelf, 0, chain_block(1));

    return admitted(state_of(chain(4, 2), s), 0, child_of(1), (outcomes){1, {8, 0}}, with_row(chain(4, 2), child_of(1), 1),
                    empty_shelf);
}

static bool parent_missing(void)
{
    return admitted(state_of(empty_table(4), with_waiting(empty_shelf, 0, orphan())), 0, first_block(), (outcomes){1, {10, 0}},
                    chain(4, 1), empty_shelf);
}

/* Arrivals put no such block on a shelf, but its form allows it. */
static bool site_that_is_n(void)
{
    shelf s = with_waiting(empty_shelf, 0, with_reference(block_of(4, 0), not_held(1)));

    return admitted(state_of(empty_table(4), s), 0, first_block(), (outcomes){1, {4, 0}}, chain(4, 1), empty_shelf);
}

/* The arrival takes the last place; one that waits for a block that nobody has goes on waiting. */
static bool full_by_the_arrival(void)
{
    shelf s = with_waiting(holding(1, 0, 1, 0), 0, chain_block(64)), left = holding(1, 0, 1, 0);

    s = with_waiting(s, 0, with_request(chain_block(64), 0, 1));
    return admitted(state_of(chain(1, 63), s), 0, chain_block(63), (outcomes){2, {11, 0, 11, 0}}, chain(1, 64), left);
}

static bool full_by_one_let_in(void)
{
    shelf s = with_chain(empty_shelf, 0, (const uint16_t[]){65, 63, 64}, 3);

    return admitted(state_of(chain(1, 62), s), 0, chain_block(62), (outcomes){2, {0, 63, 11, 0}}, chain(1, 64),
                    with_waiting(empty_shelf, 0, chain_block(65)));
}

/* Let in and dropped in one pass, and in the next; the last pass lets none in, and what still waits stays. */
static bool mixed(void)
{
    block grandchild = referring_to(block_of(2, 0), child_of(1)), late_orphan = referring_to(block_of(3, 9), child_of(1));
    block of_another = child_of(1);
    shelf s = with_waiting(with_waiting(with_waiting(empty_shelf, 0, late_orphan), 1, of_another), 0, grandchild);
    shelf left = with_waiting(with_waiting(empty_shelf, 1, of_another), 0, lost_block(1));
    table t = with_row(with_row(with_row(chain(4, 1), child_of(1), 1), child_of(3), 1), grandchild, 2);

    s = with_waiting(with_waiting(with_waiting(s, 0, orphan()), 0, child_of(1)), 0, lost_block(1));
    s = with_waiting(s, 0, child_of(3));
    return admitted(state_of(empty_table(4), s), 0, first_block(), (outcomes){5, {10, 0, 0, 1, 0, 2, 10, 0, 0, 3}}, t, left);
}

/* The orphans are dropped by the only pass, since it lets none in; ten of them fill the outcomes. */
static bool ten_dropped(void)
{
    shelf s = holding(0, 2, 2, 2);

    for (uint16_t i = 1; i <= GT_SHELF_MOST; i++)
        s = with_waiting(s, 0, with_request(orphan(), 0, i));
    return admitted(state_of(empty_table(4), s), 0, first_block(),
                    (outcomes){10, {10, 0, 10, 0, 10, 0, 10, 0, 10, 0, 10, 0, 10, 0, 10, 0, 10, 0, 10, 0}}, chain(4, 1),
                    holding(0, 2, 2, 2));
}

static void check_dropped(void)
{
    check("dropped with 8, it arrives while it waits", arrives_while_waiting());
    check("dropped with 8, held meanwhile", held_meanwhile());
    check("dropped with 10, its parent is missing", parent_missing());
    check("dropped with 11, the arrival fills the table", full_by_the_arrival());
    check("dropped with 11, one that was let in fills the table", full_by_one_let_in());
    check("dropped with 4, a site that is n", site_that_is_n());
    check("dropped and let in, two passes", mixed());
    check("dropped, ten in a pass that is the last", ten_dropped());
}

/* ---- Form */

static bool in_form_of_length(shelf s, size_t length)
{
    uint8_t *lent = exact_copy(s.bytes, length);
    bool answer = gt_shelf_in_form(lent, length);

    give_back(lent, s.bytes, length);
    return answer;
}

static bool in_form(shelf s) { return in_form_of_length(s, GT_SHELF_BYTES); }

/* Two blocks wait; one byte of the shelf is changed. */
static shelf changed_at(size_t offset, uint8_t byte)
{
    shelf s = holding(1, 1, 0, 0);

    s.bytes[offset] = byte;
    return s;
}

static shelf with_count(shelf s, uint8_t count)
{
    s.bytes[0] = count;
    return s;
}

/* The first or the last entry of a full shelf says this length. */
static shelf with_length(size_t place, uint16_t length)
{
    shelf s = shelf_of((holders){{10, 2, 2, 2}}, longest_lost_block);

    entry(&s, place)[LENGTH] = (uint8_t)(length >> 8);
    entry(&s, place)[LENGTH + 1] = (uint8_t)length;
    return s;
}

static shelf of_block(block b) { return with_waiting(empty_shelf, 0, b); }

/* No campaign above 10, and the free places cover what is lacking: for every number of places held, in falling order. */
static bool places_in_form(void)
{
    bool all = true;

    for (size_t w = 0; w <= GT_SHELF_PLACES; w++)
        for (size_t x = 0; x <= w; x++)
            for (size_t y = 0; y <= x; y++)
                for (size_t z = 0; z <= y; z++) {
                    holders held = {{z, w, y, x}};
                    bool good = w <= GT_SHELF_MOST && sum(held) + lack_of_all(held) <= GT_SHELF_PLACES;
                    if (sum(held) <= GT_SHELF_PLACES)
                        all = in_form(shelf_of(held, lost_block)) == good && all;
                }
    return all;
}

static void check_places_in_form(void)
{
    check("shelf, places 10, 2, 2, 2", in_form(holding(10, 2, 2, 2)));
    check("shelf, places 4, 4, 4, 4", in_form(holding(4, 4, 4, 4)));
    check("shelf, places 10, 2, 0, 0: 4 free, 4 lacking", in_form(holding(10, 2, 0, 0)));
    check("shelf, places 10, 3, 0, 0: 3 free, 4 lacking", !in_form(holding(10, 3, 0, 0)));
    check("shelf, places 9, 4, 2, 1: 0 free, 1 lacking", !in_form(holding(9, 4, 2, 1)));
    check("shelf, places 10, 0, 0, 0", in_form(holding(10, 0, 0, 0)));
    check("shelf, places 11, 0, 0, 0", !in_form(holding(11, 0, 0, 0)));
    check("shelf, places 0, 0, 0, 11", !in_form(holding(0, 0, 0, 11)));
    check("shelf, places 16, 0, 0, 0", !in_form(holding(16, 0, 0, 0)));
    check("shelf, every number of places", places_in_form());
}

static void check_blocks_in_form(void)
{
    block b = lost_block(1), first = first_block();
    block repeated = with_reference(with_reference(first, not_held(1)), not_held(1));
    shelf again = with_waiting(of_block(b), 0, lost_block(2));
    const uint16_t longest = GT_MAX_BLOCK_BYTES;

    check("shelf, a block without references", in_form(of_block(first)));
    check("shelf, site 255", in_form(of_block(block_of(255, 65535))));
    check("shelf, a longest block", in_form(of_block(longest_lost_block(1))));
    check("shelf, a cut block", !in_form(of_block(of_length(b, b.length - 1))));
    check("shelf, a block with a byte more", !in_form(of_block(of_length(b, b.length + 1))));
    check("shelf, a block of 4 bytes", !in_form(of_block(of_length(first, 4))));
    check("shelf, a block of 0 bytes", !in_form(of_block(of_length(first, 0))));
    check("shelf, the most requests", in_form(of_block(block_with(0, GT_MAX_REQUESTS))));
    check("shelf, a request too many", !in_form(of_block(block_with(0, GT_MAX_REQUESTS + 1))));
    check("shelf, slot 8", !in_form(of_block(with_request(first, 8, 1))));
    check("shelf, number 0", !in_form(of_block(with_request(first, 7, 0))));
    check("shelf, a slot twice", !in_form(of_block(with_request(with_request(first, 7, 1), 7, 2))));
    check("shelf, slots 0 to 3 and 0", !in_form(of_block(with_request(block_with(0, 4), 0, 1))));
    check("shelf, a reference twice", !in_form(of_block(repeated)));
    check("shelf, a length of a byte more", !in_form(with_length(0, longest + 1)) && !in_form(with_length(15, longest + 1)));
    check("shelf, a length of 65535", !in_form(with_length(0, 65535)) && !in_form(with_length(15, 65535)));
    check("shelf, longest blocks in all places", in_form(with_length(15, longest)));
    check("shelf, the same bytes twice for a campaign", !in_form(with_waiting(again, 0, b)));
    check("shelf, the same bytes for two campaigns", in_form(with_waiting(again, 3, b)));
    check("shelf, a longest block twice for a campaign",
          !in_form(with_waiting(of_block(longest_lost_block(1)), 0, longest_lost_block(1))));
}

static void check_form(void)
{
    shelf full = holding(10, 2, 2, 2);
    size_t second = ENTRIES + ENTRY_BYTES, third = second + ENTRY_BYTES;

    check("shelf, all zeros", in_form(empty_shelf));
    check("shelf, all ones", !in_form(of_byte(255)));
    check("shelf, 0 bytes at NULL", !gt_shelf_in_form(NULL, 0));
    check("shelf, 0 bytes", !in_form_of_length(empty_shelf, 0));
    check("shelf, a byte too few", !in_form_of_length(empty_shelf, GT_SHELF_BYTES - 1));
    check("shelf, a byte too many", !in_form_of_length(empty_shelf, GT_SHELF_BYTES + 1));
    check("shelf, count 17", !in_form(with_count(full, 17)));
    check("shelf, count 255", !in_form(with_count(full, 255)));
    check("shelf, count 3 of two that wait", !in_form(with_count(holding(1, 1, 0, 0), 3)));
    check("shelf, count 1 of two that wait", !in_form(with_count(holding(1, 1, 0, 0), 1)));
    check("shelf, campaign 3", in_form(changed_at(second + CAMPAIGN, 3)));
    check("shelf, campaign 4", !in_form(changed_at(second + CAMPAIGN, 4)));
    check("shelf, campaign 255", !in_form(changed_at(second + CAMPAIGN, 255)));
    check("shelf, a byte behind a block", !in_form(changed_at(second + BLOCK + lost_block(1).length, 1)));
    check("shelf, the last byte of an entry", !in_form(changed_at(third - 1, 1)));
    check("shelf, a byte behind the last entry", !in_form(changed_at(third, 1)));
    check("shelf, the last byte", !in_form(changed_at(GT_SHELF_BYTES - 1, 1)));
}

int main(void)
{
    check_campaign_and_room();
    check_shelf_and_table();
    check_refused_as_by_admission();
    check_waits();
    check_same_bytes();
    check_shelf_rule();
    check_let_in();
    check_dropped();
    check_form();
    check_places_in_form();
    check_blocks_in_form();
    check("blocks, and shelves whose form is asked, stay as they were", only_read);
    return all_ok ? EXIT_SUCCESS : EXIT_FAILURE;
}
