/* Calls joining at the edges of what it takes. Writes a line for each check, and ends with exit status 1 if one fails. All
 * that is lent lies in an allocation of its own length, so that valgrind sees an access past its end. */
#include "campaigns.h"
#include "lent.h"
#include "records.h"

#include <stdio.h>
#include <stdlib.h>
#include <string.h>

/* What the left's records, the right's and the third buffer have where a check has nothing else in them. */
enum { LEFT_NUMBER = 5, RIGHT_NUMBER = 6, UNTOUCHED = 99 };

/* The entry of a record that has what is delivered. */
enum { DELIVERED = 3 };

/* ---- Record buffers */

/* The buffer with one place's numbers all equal to this one. */
static buffer with_part(buffer b, size_t place, uint16_t number)
{
    for (size_t i = 0; i < GT_PART_NUMBERS; i++)
        b.numbers[GT_PART_NUMBERS * place + i] = number;
    return b;
}

/* ---- Joins, on exact copies. What a call left is put back, and what it may only read must stay. */

/* A controller's table and records. */
typedef struct {
    table table;
    buffer records;
} side;

static side left_of(table t) { return (side){t, of_number(LEFT_NUMBER)}; }

static side right_of(table t) { return (side){t, of_number(RIGHT_NUMBER)}; }

/* How much of each buffer is lent. */
typedef struct {
    size_t left, right, left_records, right_records, third;
} lengths;

static const lengths whole = {GT_TABLE_BYTES, GT_TABLE_BYTES, GT_RECORDS_NUMBERS, GT_RECORDS_NUMBERS, GT_RECORDS_NUMBERS};

static gt_answer join_of_lengths(side *left, const side *right, buffer *third, lengths l)
{
    uint8_t *lent_left = exact_copy(left->table.bytes, l.left), *lent_right = exact_copy(right->table.bytes, l.right);
    uint16_t *lent_left_records = exact_copy(left->records.numbers, 2 * l.left_records);
    uint16_t *lent_right_records = exact_copy(right->records.numbers, 2 * l.right_records);
    uint16_t *lent_third = exact_copy(third->numbers, 2 * l.third);
    gt_answer answer = gt_join(lent_left, l.left, lent_right, l.right, lent_left_records, l.left_records, lent_right_records,
                               l.right_records, lent_third, l.third);

    give_back(lent_right, right->table.bytes, l.right);
    give_back(lent_left_records, left->records.numbers, 2 * l.left_records);
    give_back(lent_right_records, right->records.numbers, 2 * l.right_records);
    take_over(left->table.bytes, lent_left, l.left);
    take_over(third->numbers, lent_third, 2 * l.third);
    return answer;
}

/* Refused, with nothing changed. */
static bool refused_of_lengths(table left, table right, lengths l, uint8_t refusal, size_t value)
{
    side one = left_of(left), other = right_of(right);
    buffer third = of_number(UNTOUCHED), before = third;

    return is(join_of_lengths(&one, &other, &third, l), refusal, value) && same(&one.table, &left)
        && same_numbers(&third, &before);
}

static bool refused(table left, table right, uint8_t refusal, size_t value)
{
    return refused_of_lengths(left, right, whole, refusal, value);
}

/* Joined to this table. The third buffer, untouched before, is then this one. */
static bool joined_with(side left, side right, table wanted, buffer wanted_third)
{
    buffer third = of_number(UNTOUCHED);

    return is(join_of_lengths(&left, &right, &third, whole), 0, wanted.bytes[COUNT]) && same(&left.table, &wanted)
        && same_numbers(&third, &wanted_third);
}

/* The same, with nothing interpreted at either side. */
static bool joined(table left, table right, table wanted)
{
    return joined_with(left_of(left), right_of(right), wanted, of_number(UNTOUCHED));
}

/* ---- Blocks and tables of most checks: n is 4, and blocks of sequence number 0 refer to nothing. */

static table with_count(table t, uint8_t count)
{
    t.bytes[COUNT] = count;
    return t;
}

static table with_owner(table t, size_t slot, uint8_t owner)
{
    t.bytes[OWNERS + slot] = owner;
    return t;
}

/* The first places are interpreted. */
static table interpreted(table t, size_t places)
{
    for (size_t place = 0; place < places; place++)
        row(&t, place)[MARK] = 1;
    return t;
}

/* The table with another byte in a row. */
static table changed(table t, size_t place, size_t at, uint8_t byte)
{
    row(&t, place)[at] = byte;
    return t;
}

/* A block of a site that has no reference. Another number makes another block. */
static block lone_block(uint8_t site, uint8_t number) { return with_request(block_of(site, 0), 3, number); }

/* The table with lone blocks of a site, from one number to another. */
static table with_lone(table t, uint8_t site, int first, int last)
{
    for (int number = first; number <= last; number++) {
        put_row(&t, lone_block(site, (uint8_t)number), 0);
        put_request(&t, t.bytes[COUNT] - 1u, 3, 0, (uint8_t)number);
    }
    return t;
}

static table lone(uint8_t site, int first, int last) { return with_lone(empty_table(4), site, first, last); }

/* ---- 2: a table not in form, and of another length */

static bool left_of_length_refused(size_t length)
{
    lengths l = whole;

    l.left = length;
    return refused_of_lengths(chain(4, 1), chain(4, 2), l, 2, 0);
}

static bool right_of_length_refused(size_t length)
{
    lengths l = whole;

    l.right = length;
    return refused_of_lengths(chain(4, 1), chain(4, 2), l, 2, 0);
}

static bool nothing_lent(void) { return is(gt_join(NULL, 0, NULL, 0, NULL, 0, NULL, 0, NULL, 0), 2, 0); }

static void check_form(void)
{
    table good = chain(4, 2), bad = with_count(chain(4, 2), 65), unmarked = changed(chain(4, 2), 1, MARK, 1);

    check("join, a left of 0 bytes", left_of_length_refused(0));
    check("join, a left of 3850 bytes", left_of_length_refused(GT_TABLE_BYTES - 1));
    check("join, a left of 3852 bytes", left_of_length_refused(GT_TABLE_BYTES + 1));
    check("join, a right of 0 bytes", right_of_length_refused(0));
    check("join, a right of 3850 bytes", right_of_length_refused(GT_TABLE_BYTES - 1));
    check("join, a right of 3852 bytes", right_of_length_refused(GT_TABLE_BYTES + 1));
    check("join, nothing lent", nothing_lent());
    check("join, a left of zeros", refused(filled_with(0), good, 2, 0));
    check("join, a right of zeros", refused(good, filled_with(0), 2, 0));
    check("join, two tables of zeros", refused(filled_with(0), filled_with(0), 2, 0));
    check("join, a left of ones", refused(filled_with(255), good, 2, 0));
    check("join, a right of ones", refused(good, filled_with(255), 2, 0));
    check("join, a left of count 65", refused(bad, good, 2, 0));
    check("join, a right of count 65", refused(good, bad, 2, 0));
    check("join, a left with a mark above none", refused(unmarked, good, 2, 0));
    check("join, a right with a mark above none", refused(good, unmarked, 2, 0));
}

/* ---- 12: a record buffer of another length */

static const size_t wrong[] = {0, GT_PART_NUMBERS, GT_RECORDS_NUMBERS - 1, GT_RECORDS_NUMBERS + 1};

/* Which of the three buffers is lent with another length. */
enum { LEFT_RECORDS, RIGHT_RECORDS, THIRD };

static lengths with_wrong(int which, size_t length)
{
    lengths l = whole;

    *(which == LEFT_RECORDS ? &l.left_records : which == RIGHT_RECORDS ? &l.right_records : &l.third) = length;
    return l;
}

static bool wrong_length_refused(int which, table left, table right)
{
    bool all = true;

    for (size_t i = 0; i < sizeof wrong / sizeof wrong[0]; i++)
        all = refused_of_lengths(left, right, with_wrong(which, wrong[i]), 12, 0) && all;
    return all;
}

static void check_lengths(void)
{
    table one = interpreted(chain(4, 1), 1), none = empty_table(4);
    lengths all_short = {GT_TABLE_BYTES, GT_TABLE_BYTES, 0, 0, 0};

    check("join, left records of other lengths", wrong_length_refused(LEFT_RECORDS, one, one));
    check("join, right records of other lengths", wrong_length_refused(RIGHT_RECORDS, one, one));
    check("join, a third buffer of other lengths", wrong_length_refused(THIRD, one, one));
    check("join, left records of other lengths, empty sides", wrong_length_refused(LEFT_RECORDS, none, none));
    check("join, right records of other lengths, empty sides", wrong_length_refused(RIGHT_RECORDS, none, none));
    check("join, a third buffer of other lengths, empty sides", wrong_length_refused(THIRD, none, none));
    check("join, no records at all", refused_of_lengths(one, one, all_short, 12, 0));
}

/* ---- 23: other setups */

static void check_setups(void)
{
    table four = empty_table(4), one = chain(4, 1), seven = empty_table(4);

    seven.bytes[0] = 7;
    check("join, n 4 and 7 with the same owners", refused(four, seven, 23, 0) && refused(seven, four, 23, 0));
    check("join, n 4 and 7 with their own owners", refused(four, empty_table(7), 23, 0));
    check("join, the same block in both", refused(one, with_owner(one, 0, 1), 23, 0));
    for (int slot = 0; slot < GT_SLOTS; slot++) {
        table other = with_owner(four, (size_t)slot, (uint8_t)((four.bytes[OWNERS + slot] + 1) % 4));
        check_with("join, another owner of slot", slot, refused(four, other, 23, 0) && refused(other, four, 23, 0));
    }
}

/* ---- 24: equal digests with other fields */

/* A table of four: a block of site 0 and its child, another block of site 0 without references, and one of site 2 that refers
 * to the first two. */
static table four_blocks(void)
{
    block first = block_of(0, 0), child = referring_to(block_of(0, 1), first), other = lone_block(0, 7);
    block last = referring_to(referring_to(block_of(2, 0), first), child);

    return with_row(with_row(with_row(with_row(empty_table(4), first, 0), child, 1), other, 0), last, 3);
}

/* Either way round the block is other, whose place is the same at both sides. */
static bool clashes(table changed_table, size_t place)
{
    return refused(four_blocks(), changed_table, 24, place) && refused(changed_table, four_blocks(), 24, place);
}

/* A lone block, then the others: so each has another place at the two sides. */
static table moved(table t)
{
    table m = lone(3, 200, 200);

    for (size_t place = 0; place < 4; place++) {
        memcpy(row(&m, place + 1), row(&t, place), ROW_BYTES);
        for (int i = 7; i >= 0; i--) {
            uint8_t *set = row(&m, place + 1) + REFERENCES;
            set[i] = (uint8_t)(set[i] << 1 | (i > 0 ? set[i - 1] >> 7 : 0));
        }
    }
    return with_count(m, 5);
}

/* Site 0's blocks 1 and 2 come in one order at the left, in the other at the right, and are other blocks there. */
static bool lowest_left_place(void)
{
    table left = lone(0, 1, 2), right = with_lone(lone(0, 2, 2), 0, 1, 1);

    right = changed(changed(right, 0, SITE, 1), 1, SITE, 1);
    return refused(left, right, 24, 0) && refused(right, left, 24, 0) && refused(left, changed(right, 1, SITE, 0), 24, 1)
        && refused(left, changed(right, 0, SITE, 0), 24, 0);
}

/* The last of 64 places. */
static bool last_place(void)
{
    table t = chain(1, 64);

    return refused(t, changed(t, 63, REQUESTS, 1), 24, 63) && refused(changed(t, 63, REQUESTS, 1), t, 24, 63);
}

static void check_other_fields(void)
{
    table t = four_blocks(), marked = interpreted(four_blocks(), 4);
    table first_and_last = changed(changed(t, 0, REQUESTS, 1), 3, SITE, 1);
    table second_and_last = changed(changed(t, 1, REQUESTS + 15, 1), 3, REFERENCES, 1);

    check("equal digests, another site", clashes(changed(t, 3, SITE, 1), 3));
    check("equal digests, another sequence number", clashes(changed(t, 1, SEQUENCE + 1, 0), 1));
    check("equal digests, the high byte of slot 0's request", clashes(changed(t, 0, REQUESTS, 1), 0));
    check("equal digests, the low byte of slot 0's request", clashes(changed(t, 0, REQUESTS + 1, 1), 0));
    check("equal digests, the high byte of slot 7's request", clashes(changed(t, 3, REQUESTS + 14, 1), 3));
    check("equal digests, the low byte of slot 7's request", clashes(changed(t, 3, REQUESTS + 15, 1), 3));
    check("equal digests, a reference less", clashes(changed(t, 3, REFERENCES, 1), 3));
    check("equal digests, a reference more", clashes(changed(t, 3, REFERENCES, 7), 3));
    check("equal digests, another reference", clashes(changed(t, 3, REFERENCES, 5), 3));
    check("equal digests, no reference", clashes(changed(t, 3, REFERENCES, 0), 3));
    check("equal digests, two other blocks", clashes(first_and_last, 0) && clashes(second_and_last, 1));
    check("equal digests, another request of an interpreted block", refused(marked, changed(marked, 0, REQUESTS, 1), 24, 0));
    check("equal digests, another request and another mark", refused(t, changed(marked, 0, REQUESTS, 1), 24, 0));
    check("equal digests, references at other places",
          joined(moved(t), t, moved(t)) && joined(t, moved(t), with_lone(t, 3, 200, 200)));
    check("equal digests, the left's place is named",
          refused(moved(changed(t, 2, REQUESTS, 1)), t, 24, 3) && refused(t, moved(changed(t, 2, REQUESTS, 1)), 24, 2));
    check("equal digests, equal places but other references", refused(moved(t), moved(changed(t, 3, REFERENCES, 5)), 24, 4));
    check("equal digests, the lowest left place", lowest_left_place());
    check("equal digests, the last of 64 places", last_place());
}

/* ---- 25: more than 64 blocks */

static void check_count(void)
{
    table left = lone(0, 1, 32), full = lone(0, 1, 64);

    check("join, 32 and 32 blocks", joined(left, lone(1, 1, 32), with_lone(left, 1, 1, 32)));
    check("join, 32 and 33 blocks", refused(left, lone(1, 1, 33), 25, 0));
    check("join, 33 and 32 blocks", refused(lone(0, 1, 33), lone(1, 1, 32), 25, 0));
    check("join, 63 blocks and another", joined(lone(0, 1, 63), lone(1, 1, 1), with_lone(lone(0, 1, 63), 1, 1, 1)));
    check("join, 64 blocks and another", refused(full, lone(1, 1, 1), 25, 0));
    check("join, another and 64 blocks", refused(lone(1, 1, 1), full, 25, 0));
    check("join, 64 blocks and the same", joined(full, full, full));
    check("join, 64 blocks and the last 63 with another", refused(full, lone(0, 2, 65), 25, 0));
    check("join, 64 blocks and some of them", joined(full, lone(0, 30, 64), full));
    check("join, 32 blocks and 64 with these", joined(left, lone(0, 1, 64), full));
    check("join, two full sides with nothing in common", refused(full, lone(1, 1, 64), 25, 0));
    check("join, 40 and 40 blocks of which 16 are common", joined(lone(0, 1, 40), lone(0, 25, 64), full));
    check("join, 40 and 40 blocks of which 15 are common", refused(lone(0, 1, 40), lone(0, 26, 65), 25, 0));
}

/* ---- The order of the checks, by two causes each */

static void check_order(void)
{
    table good = four_blocks(), bad = with_count(good, 65), other_setup = with_owner(good, 7, 0), full = lone(0, 1, 64);
    table clash = changed(good, 0, REQUESTS, 1), clash_in_full = changed(lone(0, 2, 65), 5, REQUESTS, 1);
    lengths short_third = with_wrong(THIRD, GT_RECORDS_NUMBERS - 1);

    check("join: 2 of the left before 12", refused_of_lengths(bad, good, short_third, 2, 0));
    check("join: 2 of the right before 12", refused_of_lengths(good, bad, short_third, 2, 0));
    check("join: 2 before 23", refused(bad, other_setup, 2, 0) && refused(other_setup, bad, 2, 0));
    check("join: 2 before 24", refused(good, with_count(clash, 65), 2, 0));
    check("join: 2 before 25", refused(full, with_count(lone(1, 1, 1), 65), 2, 0));
    check("join: 12 before 23", refused_of_lengths(good, other_setup, short_third, 12, 0));
    check("join: 12 before 24", refused_of_lengths(good, clash, short_third, 12, 0));
    check("join: 12 before 25", refused_of_lengths(full, lone(1, 1, 1), short_third, 12, 0));
    check("join: 23 before 24", refused(good, with_owner(clash, 7, 0), 23, 0));
    check("join: 23 before 25", refused(full, with_owner(lone(1, 1, 1), 7, 0), 23, 0));
    check("join: 24 before 25", refused(full, clash_in_full, 24, 6));
}

/* ---- The table: the left's places first, then the right's others in their order, with references to where those stand */

/* The table with blocks of the chain, from one to another. The one before the first of these is at the place named. */
static table with_chain(table t, uint16_t first, uint16_t last, size_t before)
{
    for (uint16_t sequence = first; sequence <= last; sequence++) {
        size_t place = t.bytes[COUNT];
        put_row(&t, chain_block(sequence), sequence == 0 ? 0 : (uint64_t)1 << before);
        before = place;
    }
    return t;
}

/* A chain comes behind so many blocks: its references move by as many places. */
static bool chain_moves(int blocks, uint16_t length)
{
    table left = lone(1, 1, blocks);

    return joined(left, chain(4, length), with_chain(left, 0, (uint16_t)(length - 1), 0));
}

/* The left holds the first two of the chain behind another block; the right has two more, on top of the left's. */
static bool on_top_of_the_lefts(void)
{
    table left = with_chain(lone(1, 1, 1), 0, 1, 0);

    return joined(left, chain(4, 4), with_chain(left, 2, 3, 2));
}

/* At the right other blocks stand between those of the chain, of which the left has the first. */
static bool between_others(void)
{
    table right = with_chain(with_lone(with_chain(with_lone(empty_table(4), 1, 1, 1), 0, 0, 0), 1, 2, 2), 1, 1, 1);

    return joined(chain(4, 1), right, with_chain(with_lone(chain(4, 1), 1, 1, 2), 1, 1, 0));
}

/* A block of the right refers to sixteen, of which the left holds every other one, last first. */
static bool sixteen_references(void)
{
    table left = empty_table(4), right = lone(1, 1, 16), wanted;
    block last = block_of(2, 0);

    for (uint8_t number = 1; number <= 16; number++)
        last = referring_to(last, lone_block(1, number));
    for (int number = 15; number > 0; number -= 2)
        left = with_lone(left, 1, number, number);
    left = with_lone(left, 3, 1, 1);
    wanted = left;
    for (int number = 2; number <= 16; number += 2)
        wanted = with_lone(wanted, 1, number, number);
    return joined(left, with_row(right, last, 0xffff), with_row(wanted, last, 0x1feff));
}

/* Three controllers, two of them joined first. */
static bool a_third_one(void)
{
    side left = left_of(lone(0, 1, 3)), second = right_of(lone(1, 1, 3)), third = right_of(lone(0, 3, 5));
    buffer records = of_number(UNTOUCHED);

    return is(join_of_lengths(&left, &second, &records, whole), 0, 6)
        && joined(left.table, third.table, with_lone(with_lone(lone(0, 1, 3), 1, 1, 3), 0, 4, 5));
}

static void check_table(void)
{
    table none = empty_table(4), some = four_blocks();

    check("table, two empty sides", joined(none, none, none));
    check("table, an empty left", joined(none, some, some));
    check("table, an empty right", joined(some, none, some));
    check("table, two equal sides", joined(some, some, some));
    check("table, the right inside the left", joined(chain(4, 5), chain(4, 2), chain(4, 5)));
    check("table, the left inside the right", joined(chain(4, 2), chain(4, 5), chain(4, 5)));
    check("table, the right's others in their order",
          joined(lone(0, 3, 4), with_lone(lone(0, 5, 6), 0, 1, 4), with_lone(lone(0, 3, 6), 0, 1, 2)));
    check("table, a chain behind one block", chain_moves(1, 3));
    check("table, a chain behind seven blocks", chain_moves(7, 3));
    check("table, a chain behind 30 blocks", chain_moves(30, 10));
    check("table, a chain behind 60 blocks", chain_moves(60, 4));
    check("table, a chain on top of the left's", on_top_of_the_lefts());
    check("table, others between those of a chain", between_others());
    check("table, a block with sixteen references", sixteen_references());
    check("table, requests and sites of new blocks",
          joined(lone(3, 255, 255), lone(2, 254, 255), with_lone(lone(3, 255, 255), 2, 254, 255)));
    for (size_t i = 0; i < sizeof lawful / sizeof lawful[0]; i++)
        check_with("table, n", lawful[i], joined(chain(lawful[i], 1), chain(lawful[i], 2), chain(lawful[i], 2)));
    check("table, joined to a third one", a_third_one());
}

/* ---- Marks and records */

/* Each place's part has a number of its own, from this one on. */
static side with_parts(table t, uint16_t first)
{
    side s = {t, of_number(0)};

    for (size_t place = 0; place < GT_MAX_PLACES; place++)
        s.records = with_part(s.records, place, (uint16_t)(first + place));
    return s;
}

/* The third buffer with parts copied from so many places of a side whose numbers begin with this one. */
static buffer with_copied(buffer b, size_t place, uint16_t first, size_t places)
{
    for (size_t i = 0; i < places; i++)
        b = with_part(b, place + i, (uint16_t)(first + i));
    return b;
}

enum { LEFT_FIRST = 1000, RIGHT_FIRST = 2000 };

/* Two sides with the same five blocks, of which they have interpreted so many. */
static bool marks_of(size_t left, size_t right)
{
    side one = with_parts(interpreted(chain(4, 5), left), LEFT_FIRST);
    side other = with_parts(interpreted(chain(4, 5), right), RIGHT_FIRST);
    size_t more = right > left ? right - left : 0;
    buffer third = with_copied(of_number(UNTOUCHED), 0, LEFT_FIRST, left);

    third = with_copied(third, left, (uint16_t)(RIGHT_FIRST + left), more);
    return joined_with(one, other, interpreted(chain(4, 5), left + more), third);
}

/* The left holds the chain behind two other blocks; the right has interpreted its first two. */
static bool at_another_place(void)
{
    table left = with_chain(lone(1, 1, 2), 0, 2, 0), wanted = changed(changed(left, 2, MARK, 1), 3, MARK, 1);
    buffer third = with_copied(of_number(UNTOUCHED), 2, RIGHT_FIRST, 2);

    return joined_with(with_parts(left, LEFT_FIRST), with_parts(interpreted(chain(4, 3), 2), RIGHT_FIRST), wanted, third);
}

/* New blocks with their marks, and parts from where they stand at the right. */
static bool new_blocks_interpreted(void)
{
    table left = changed(lone(1, 1, 3), 1, MARK, 1), right = interpreted(chain(4, 3), 2), wanted = with_chain(left, 0, 2, 0);
    buffer third = with_copied(with_copied(of_number(UNTOUCHED), 1, LEFT_FIRST + 1, 1), 3, RIGHT_FIRST, 2);

    row(&wanted, 3)[MARK] = row(&wanted, 4)[MARK] = 1;
    return joined_with(with_parts(left, LEFT_FIRST), with_parts(right, RIGHT_FIRST), wanted, third);
}

/* All 64 places of the result have a part: 32 of the left's, then 32 of the right's. */
static bool all_parts(void)
{
    table left = interpreted(lone(0, 1, 32), 32), right = interpreted(lone(1, 1, 32), 32);
    table wanted = interpreted(with_lone(left, 1, 1, 32), 64);
    buffer third = with_copied(with_copied(of_number(UNTOUCHED), 0, LEFT_FIRST, 32), 32, RIGHT_FIRST, 32);

    return joined_with(with_parts(left, LEFT_FIRST), with_parts(right, RIGHT_FIRST), wanted, third);
}

/* Every number of a part is copied, in its order. */
static bool numbers_of_a_part(void)
{
    side left = left_of(lone(1, 1, 2)), right = right_of(interpreted(chain(4, 1), 1));
    buffer third = of_number(UNTOUCHED);

    for (uint16_t i = 0; i < GT_PART_NUMBERS; i++)
        right.records.numbers[i] = third.numbers[2 * GT_PART_NUMBERS + i] = (uint16_t)(65535 - i);
    return joined_with(left, right, changed(with_chain(left.table, 0, 0, 0), 2, MARK, 1), third);
}

/* The same bytes and numbers in two buffers. */
static bool equal_content(table t, size_t places)
{
    side s = with_parts(interpreted(t, places), LEFT_FIRST);

    return joined_with(s, s, s.table, with_copied(of_number(UNTOUCHED), 0, LEFT_FIRST, places));
}

static bool one_side_empty(void)
{
    side none = with_parts(empty_table(4), LEFT_FIRST), some = with_parts(interpreted(chain(4, 4), 3), RIGHT_FIRST);
    buffer third = with_copied(of_number(UNTOUCHED), 0, RIGHT_FIRST, 3);

    return joined_with(none, some, some.table, third) && joined_with(some, none, some.table, third);
}

static void check_records(void)
{
    check("records, nothing interpreted", marks_of(0, 0));
    check("records, interpreted at the left alone", marks_of(2, 0) && marks_of(5, 0));
    check("records, interpreted at the right alone", marks_of(0, 2) && marks_of(0, 5));
    check("records, interpreted at both", marks_of(3, 3) && marks_of(5, 5));
    check("records, more interpreted at the left", marks_of(4, 1));
    check("records, more interpreted at the right", marks_of(1, 4));
    check("records, interpreted at the right at another place", at_another_place());
    check("records, new blocks that are interpreted", new_blocks_interpreted());
    check("records, the parts of all 64 places", all_parts());
    check("records, every number of a part", numbers_of_a_part());
    check("records, the same content in two buffers", equal_content(chain(4, 3), 2) && equal_content(chain(1, 64), 64));
    check("records, one side empty", one_side_empty());
}

/* ---- Document 01's chain of four at two controllers: n is 1, and the first block requests 7 in slot 0. */

/* A controller that got so many of the blocks and interpreted so many. */
static side example(uint16_t blocks, size_t places)
{
    side s = {empty_table(1), of_number(UNTOUCHED)};

    for (uint16_t i = 0; i < blocks; i++)
        admit(&s.table, example_block(i));
    for (size_t place = 0; place < places; place++)
        gt_interpret(s.table.bytes, GT_TABLE_BYTES, place, s.records.numbers, GT_RECORDS_NUMBERS);
    return s;
}

/* What is joined is as if one controller had got all; and it goes on to the delivery. */
static bool goes_on(side left, side right)
{
    side all = example(3, 3), last = example(4, 4);
    buffer third = of_number(UNTOUCHED);

    return is(join_of_lengths(&left, &right, &third, whole), 0, 3) && same(&left.table, &all.table)
        && same_numbers(&third, &all.records) && is(admit(&left.table, example_block(3)), 0, 3)
        && is(gt_interpret(left.table.bytes, GT_TABLE_BYTES, 3, third.numbers, GT_RECORDS_NUMBERS), 0, 0)
        && same(&left.table, &last.table) && same_numbers(&third, &last.records)
        && third.numbers[GT_PART_NUMBERS * 3 + DELIVERED] == 7;
}

static void check_example(void)
{
    check("the chain, its start at the left", goes_on(example(1, 1), example(3, 3)));
    check("the chain, its start at the right", goes_on(example(3, 3), example(1, 1)));
    check("the chain, held at the left and interpreted at the right", goes_on(example(3, 0), example(3, 3)));
    check("the chain, held at the right and interpreted at the left", goes_on(example(3, 3), example(3, 0)));
    check("the chain, at both", goes_on(example(3, 2), example(3, 3)));
    check("the chain, an empty left", goes_on(example(0, 0), example(3, 3)));
}

int main(void)
{
    check_form();
    check_lengths();
    check_setups();
    check_other_fields();
    check_count();
    check_order();
    check_table();
    check_records();
    check_example();
    check("the right's table, and the records of both sides, stay as they were", only_read);
    return all_ok ? EXIT_SUCCESS : EXIT_FAILURE;
}
