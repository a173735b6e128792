/* Calls retiring at the edges of what it takes, and the other calls on tables that have retired something. Writes a line for
 * each check, and ends with exit status 1 if one fails. All that is lent lies in an allocation of its own length, so that
 * valgrind sees an access past its end. */
#include "lists.h"
#include "sides.h"

#include <stdio.h>
#include <stdlib.h>
#include <string.h>

/* The entry of a record that has what is delivered. */
enum { DELIVERED = 3 };

/* ---- What is seen of a retiring */

/* Each place's part has a number of its own. */
static buffer numbered_parts(void)
{
    buffer b = of_number(0);

    for (size_t i = 0; i < GT_RECORDS_NUMBERS; i++)
        b.numbers[i] = (uint16_t)(1000 + i / GT_PART_NUMBERS);
    return b;
}

/* Refused, with nothing changed. */
static bool refused_of_lengths(table t, size_t bytes, size_t numbers, uint8_t refusal)
{
    side s = {t, numbered_parts()}, before = s;

    return is(retire_of_lengths(&s, bytes, numbers), refusal, 0) && same_side(&s, &before);
}

static bool refused(table t, uint8_t refusal) { return refused_of_lengths(t, GT_TABLE_BYTES, GT_RECORDS_NUMBERS, refusal); }

/* Retired to this table; the parts of all places that are left moved down by one, and the others stay. */
static bool retired(table t, table wanted)
{
    side s = {t, numbered_parts()}, after = {wanted, numbered_parts()};

    memmove(after.records.numbers, after.records.numbers + GT_PART_NUMBERS,
            sizeof(uint16_t) * GT_PART_NUMBERS * wanted.bytes[COUNT]);
    return is(retire(&s), 0, 0) && same_side(&s, &after);
}

static bool in_form(table t)
{
    uint8_t *lent = exact_copy(t.bytes, GT_TABLE_BYTES);
    bool answer = gt_in_form(lent, GT_TABLE_BYTES);

    give_back(lent, t.bytes, GT_TABLE_BYTES);
    return answer;
}

/* ---- Tables: n is 4 mostly */

static table with_count(table t, uint8_t count)
{
    t.bytes[COUNT] = count;
    return t;
}

static table with_references(table t, size_t place, uint64_t places)
{
    for (int i = 0; i < 8; i++)
        row(&t, place)[REFERENCES + i] = (uint8_t)(places >> 8 * i);
    return t;
}

static table with_sequence(table t, size_t place, uint16_t sequence)
{
    row(&t, place)[SEQUENCE] = (uint8_t)(sequence >> 8);
    row(&t, place)[SEQUENCE + 1] = (uint8_t)sequence;
    return t;
}

static uint64_t references_of(table *t, size_t place)
{
    uint64_t places = 0;

    for (int i = 0; i < 8; i++)
        places |= (uint64_t)row(t, place)[REFERENCES + i] << 8 * i;
    return places;
}

/* What is left of a table when its first place leaves, as the layout has it. */
static table without_first(table t)
{
    table left = having_retired(with_count(t, (uint8_t)(t.bytes[COUNT] - 1)), 1);

    memmove(row(&left, 0), row(&t, 1), ROW_BYTES * (GT_MAX_PLACES - 1));
    memset(row(&left, GT_MAX_PLACES - 1), 0, ROW_BYTES);
    for (size_t place = 0; place < left.bytes[COUNT]; place++)
        left = with_references(left, place, references_of(&t, place + 1) >> 1);
    return left;
}

/* Two blocks of site 0, and one of site 1 that refers to the first of them. */
static table three_blocks(void) { return with_row(chain(4, 2), referring_to(block_of(1, 0), block_of(0, 0)), 1); }

/* ---- 2: a table not in form, and of another length */

static void check_form(void)
{
    table t = whole(three_blocks());

    check("retiring, a table of 0 bytes", refused_of_lengths(t, 0, GT_RECORDS_NUMBERS, 2));
    check("retiring, a table of 3850 bytes", refused_of_lengths(t, GT_TABLE_BYTES - 1, GT_RECORDS_NUMBERS, 2));
    check("retiring, a table of 3852 bytes", refused_of_lengths(t, GT_TABLE_BYTES + 1, GT_RECORDS_NUMBERS, 2));
    check("retiring, nothing lent", is(gt_retire(NULL, 0, NULL, 0), 2, 0));
    check("retiring, all zeros", refused(filled_with(0), 2));
    check("retiring, all ones", refused(filled_with(255), 2));
    check("retiring, count 65", refused(with_count(t, 65), 2));
    check("retiring, the retired byte 2", refused(having_retired(t, 2), 2));
    check("retiring, an interpreted place above one that isn't", refused(interpreted(t, 6), 2));
}

/* Two blocks of site 0, the second without its parent. */
static table without_parent(uint8_t whether, uint64_t marks)
{
    return interpreted(having_retired(with_references(chain(4, 2), 1, 0), whether), marks);
}

/* Two blocks of sequence number 0, and one of number 1 that has both as parents. */
static table with_two_parents(uint8_t whether)
{
    block other = with_request(block_of(0, 0), 3, 7), child = referring_to(block_of(0, 1), block_of(0, 0));
    table t = with_row(with_row(chain(4, 1), other, 0), referring_to(child, other), 3);

    return having_retired(whole(t), whether);
}

static void check_missing_parents(void)
{
    check("form, the retired byte 1 on an empty table", in_form(having_retired(empty_table(4), 1)));
    check("form, the retired byte 1 with every parent held", in_form(having_retired(three_blocks(), 1)));
    for (int whether = 2; whether < 256; whether = 2 * whether + 1)
        check_with("form, the retired byte", whether, !in_form(having_retired(empty_table(4), (uint8_t)whether)));
    check("form, a missing parent, interpreted, something retired", in_form(without_parent(1, 3)));
    check("form, a missing parent, interpreted, nothing retired", !in_form(without_parent(0, 3)));
    check("form, a missing parent, not interpreted, something retired", !in_form(without_parent(1, 1)));
    check("form, a missing parent, not interpreted, nothing retired", !in_form(without_parent(0, 1)));
    check("form, two parents, something retired", !in_form(with_two_parents(1)));
    check("form, two parents, nothing retired", !in_form(with_two_parents(0)));
    check("form, a missing parent at the last of 64 places",
          in_form(with_references(having_retired(whole(chain(1, 64)), 1), 63, 0)));
    check("form, a sequence number of 65,535", in_form(with_sequence(without_parent(1, 3), 1, 65535)));
}

/* ---- 12 and 13 */

static void check_lengths(void)
{
    static const size_t wrong[] = {0, 1, GT_PART_NUMBERS, GT_RECORDS_NUMBERS - 1, GT_RECORDS_NUMBERS + 1};
    table t = whole(three_blocks());

    for (size_t i = 0; i < sizeof wrong / sizeof wrong[0]; i++)
        check_with("retiring, numbers:", (int)wrong[i], refused_of_lengths(t, GT_TABLE_BYTES, wrong[i], 12));
    check("retiring, 0 numbers at NULL", is(gt_retire(t.bytes, GT_TABLE_BYTES, NULL, 0), 12, 0));
    check("retiring, an empty table", refused(empty_table(4), 13));
    check("retiring, an empty table that has retired something", refused(having_retired(empty_table(4), 1), 13));
}

/* ---- 29: each of its causes by itself, and what comes near to one */

static table twins_alone(void)
{
    table t = with_row(chain(4, 1), twin_block(), 0);

    put_request(&t, 1, 3, 0, 7);
    return t;
}

/* On the second of the twins a block of sequence number 1 stands. */
static block child_of_twin(void) { return referring_to(block_of(0, 1), twin_block()); }

static table twins_and_child(void) { return with_row(twins_alone(), child_of_twin(), 2); }

/* A block of site 0 and two of site 1, of which the second has a greater sequence number. */
static table of_another_site(void)
{
    block first = block_of(1, 0);

    return with_row(with_row(chain(4, 1), first, 0), referring_to(block_of(1, 1), first), 2);
}

/* Two blocks of site 0, a block of site 1 on the second, and one of site 2 on the first. */
static table with_open_ones(void)
{
    block first = block_of(0, 0), second = referring_to(block_of(0, 1), first);

    return with_row(with_row(chain(4, 2), referring_to(block_of(1, 0), second), 2), referring_to(block_of(2, 0), first), 1);
}

static void check_causes(void)
{
    table t = whole(three_blocks()), twins = twins_and_child(), open = with_open_ones();
    table far = with_sequence(without_parent(1, 3), 0, 5);

    check("29, place 0 is not interpreted", refused(interpreted(twins, 6), 29));
    check("29, and where it is: retired", retired(whole(twins), without_first(whole(twins))));
    check("29, an open block of its own site refers to it", refused(interpreted(t, 5), 29));
    check("29, an open block of another site refers to it", refused(interpreted(t, 3), 29));
    check("29, of two the last that refers to it is open", refused(interpreted(open, 7), 29));
    check("29, an open block that does not refer to it: retired",
          retired(interpreted(open, 11), without_first(interpreted(open, 11))));
    check("29, a single block", refused(whole(chain(4, 1)), 29));
    check("29, blocks of other sites alone", refused(whole(of_another_site()), 29));
    check("29, a twin alone", refused(whole(twins_alone()), 29));
    check("29, a later block that is not interpreted", refused(interpreted(twins, 3), 29));
    check("29, a lower sequence number alone", refused(with_sequence(far, 1, 4), 29));
    check("29, the same sequence number alone", refused(with_sequence(far, 1, 5), 29));
    check("29, the next sequence number: retired", retired(with_sequence(far, 1, 6), without_first(with_sequence(far, 1, 6))));
    check("29, a far one: retired", retired(with_sequence(far, 1, 65535), without_first(with_sequence(far, 1, 65535))));
    check("29, a greater low byte alone", refused(with_sequence(with_sequence(far, 0, 256), 1, 255), 29));
    check("29, a greater high byte: retired",
          retired(with_sequence(with_sequence(far, 0, 255), 1, 256),
                  without_first(with_sequence(with_sequence(far, 0, 255), 1, 256))));
}

/* ---- The order of the checks, by two causes each */

static void check_order(void)
{
    table bad = with_count(whole(three_blocks()), 65), none = empty_table(4), single = whole(chain(4, 1));
    size_t few = GT_RECORDS_NUMBERS - 1;

    check("retiring: 2 before 12", refused_of_lengths(bad, GT_TABLE_BYTES, few, 2));
    check("retiring: 2 before 13", refused(having_retired(none, 2), 2));
    check("retiring: 2 before 29", refused(having_retired(single, 2), 2));
    check("retiring: 12 before 13", refused_of_lengths(none, GT_TABLE_BYTES, few, 12));
    check("retiring: 12 before 29", refused_of_lengths(single, GT_TABLE_BYTES, few, 12));
}

/* ---- What a retiring leaves, byte for byte */

/* A block of site 3 behind a chain of 63, which refers to the first place, the last and one in each byte of the set. */
static table across_all_bytes(void)
{
    table t = whole(with_row(chain(4, 63), block_of(3, 0), 0));

    return with_references(t, 63, 0x4080808080808081);
}

/* One after the other, as long as the chain has a later block. */
static bool down_to_one(uint16_t blocks)
{
    side s = {whole(chain(1, blocks)), numbered_parts()};

    for (uint16_t left = (uint16_t)(blocks - 1); left > 0; left--) {
        table wanted = without_first(s.table);
        buffer before = s.records;
        if (!is(retire(&s), 0, 0) || !same(&s.table, &wanted) || !in_form(s.table))
            return false;
        if (memcmp(s.records.numbers, before.numbers + GT_PART_NUMBERS, 2 * GT_PART_NUMBERS * left) != 0
            || memcmp(s.records.numbers + GT_PART_NUMBERS * left, before.numbers + GT_PART_NUMBERS * left,
                      2 * GT_PART_NUMBERS * (GT_MAX_PLACES - left))
                != 0)
            return false;
    }
    return is(retire(&s), 29, 0);
}

/* Every number of a part moves, in its order, also that of a place that is not interpreted. */
static bool every_number(void)
{
    side s = {interpreted(chain(4, 3), 3), of_number(0)};
    buffer before;

    for (size_t i = 0; i < GT_RECORDS_NUMBERS; i++)
        s.records.numbers[i] = (uint16_t)(65535 - i);
    before = s.records;
    memmove(before.numbers, before.numbers + GT_PART_NUMBERS, 2 * 2 * GT_PART_NUMBERS);
    return is(retire(&s), 0, 0) && same_numbers(&s.records, &before);
}

static void check_left(void)
{
    table t = whole(three_blocks()), bytes = across_all_bytes(), full = whole(chain(1, 64));

    check("left, three blocks", retired(t, without_first(t)));
    check("left, the second refers to nothing now", retired(t, with_references(without_first(t), 0, 0)));
    check("left, a full table", retired(full, without_first(full)));
    check("left, references in every byte", retired(bytes, with_references(without_first(bytes), 62, 0x2040404040404040)));
    check("left, a table that has retired before", retired(having_retired(t, 1), without_first(t)));
    for (size_t i = 0; i < sizeof lawful; i++)
        check_with("left, n", lawful[i], retired(whole(chain(lawful[i], 2)), without_first(whole(chain(lawful[i], 2)))));
    check("left, from 64 blocks down to one", down_to_one(64));
    check("left, every number of the parts", every_number());
}

/* ---- A chain that goes on: n is 1, and the first block requests 7 in slot 0 */

/* A chain of so many blocks, of which at most so many are held. */
static side example(uint16_t blocks, size_t most)
{
    side s = fresh_side(1);

    for (uint16_t i = 0; i < blocks; i++) {
        if (s.table.bytes[COUNT] == most)
            retire(&s);
        hold(&s, example_block(i), s.table.bytes[COUNT]);
    }
    return s;
}

/* What is worked out of each block of a chain is the same, whatever was retired before. */
static bool same_parts(uint16_t blocks, size_t most)
{
    side all = example(blocks, GT_MAX_PLACES), some = example(blocks, most);
    size_t left = some.table.bytes[COUNT], from = blocks - left;

    return left == most && some.table.bytes[RETIRED] == 1
        && memcmp(some.records.numbers, all.records.numbers + GT_PART_NUMBERS * from, 2 * GT_PART_NUMBERS * left) == 0
        && memcmp(row(&some.table, left - 1), row(&all.table, blocks - 1u), GT_DIGEST_BYTES) == 0;
}

/* The 65th block and more. */
static bool past_64(void)
{
    side s = example(64, GT_MAX_PLACES);
    block next = example_block(64);

    return is(admit(&s.table, next), 11, 0) && is(retire(&s), 0, 0) && hold(&s, next, 63)
        && is(admit(&s.table, example_block(65)), 11, 0) && is(retire(&s), 0, 0) && hold(&s, example_block(65), 63)
        && s.records.numbers[GT_PART_NUMBERS * 63 + DELIVERED] == 7;
}

static void check_chain(void)
{
    for (int most = 2; most < 6; most++)
        check_with("the chain, delivered with so many places:", most, same_parts(6, (size_t)most));
    check("the chain, past 64 blocks", past_64());
}

/* ---- Blocks that have left, and those that refer to them */

/* Three of the chain, of which the first was retired. */
static side after_one(void) { return example(3, 2); }

/* A block that refers to the one that left: refused with 9 and its index, until that comes again. */
static bool refers_to_lost(void)
{
    side s = after_one();
    block b = referring_to(referring_to(block_of(0, 3), example_block(2)), example_block(0));
    table before = s.table;

    return is(admit(&s.table, b), 9, 1) && same(&s.table, &before) && hold(&s, example_block(0), 2) && hold(&s, b, 3);
}

/* At the next place and not interpreted; the block that named it before does not refer to it again. */
static bool comes_again(void)
{
    side s = after_one();
    table before = s.table;

    return is(admit(&s.table, example_block(0)), 0, 2) && row(&s.table, 2)[MARK] == 0 && references_of(&s.table, 0) == 0
        && memcmp(row(&s.table, 0), row(&before, 0), 2 * ROW_BYTES) == 0 && s.table.bytes[RETIRED] == 1
        && is(admit(&s.table, example_block(0)), 8, 2) && in_form(s.table);
}

/* A held block is refused by its place though the block that it refers to has left. */
static bool held_still(void)
{
    side s = after_one();

    return is(admit(&s.table, example_block(1)), 8, 0);
}

/* One whose own reference has left does not come again before that has. */
static bool not_without_its_reference(void)
{
    side s = example(4, 2);

    return is(admit(&s.table, example_block(1)), 9, 0) && hold(&s, example_block(0), 2) && hold(&s, example_block(1), 3);
}

/* Sequence 1 whose parent is held refers to the block before, which has left: 9, not 10. Without the reference: 10. */
static bool parent_has_left(void)
{
    side s = after_one();

    return is(admit(&s.table, with_request(example_block(1), 5, 9)), 9, 0) && is(admit(&s.table, block_of(0, 1)), 10, 0);
}

/* The watch names a site that forked until one of the two has left. */
static bool fork_forgotten(void)
{
    side s = fresh_side(4);
    gt_forked_sites before, after;

    hold(&s, block_of(0, 0), 0);
    hold(&s, twin_block(), 1);
    hold(&s, child_of_twin(), 2);
    before = gt_forks(s.table.bytes, GT_TABLE_BYTES);
    retire(&s);
    after = gt_forks(s.table.bytes, GT_TABLE_BYTES);
    return before.sites == 1 && before.count == 1 && after.refusal == 0 && after.sites == 0 && after.count == 0 && after.at_most_f;
}

/* Ancestors are held blocks. */
static bool ancestors_held(void)
{
    side s = example(5, 3);
    gt_ancestor_places first = gt_ancestors(s.table.bytes, GT_TABLE_BYTES, 0);
    gt_ancestor_places last = gt_ancestors(s.table.bytes, GT_TABLE_BYTES, 2);

    return first.refusal == 0 && first.places == 0 && last.places == 3 && last.count == 2;
}

static void check_gone(void)
{
    check("gone, a block that refers to one", refers_to_lost());
    check("gone, and come again", comes_again());
    check("gone, what a held block refers to", held_still());
    check("gone, with its reference", not_without_its_reference());
    check("gone, the parent", parent_has_left());
    check("gone, one of two twins", fork_forgotten());
    check("gone, ancestors", ancestors_held());
}

/* ---- 30: building past the last sequence number */

/* A table of a single block of site 0 at this sequence number, whose parent has left. */
static table at_sequence(uint16_t sequence) { return with_sequence(having_retired(whole(chain(4, 1)), 1), 0, sequence); }

static gt_answer build(table t, uint8_t site, size_t requests_length, uint8_t *output, size_t output_length)
{
    static const uint8_t requests[GT_MAX_REQUEST_LIST_BYTES + 1] = {7, 0, 1, 7, 0, 1, 8, 0, 1}; /* the first part of it is lent */
    uint8_t *lent_table = exact_copy(t.bytes, GT_TABLE_BYTES), *lent_output = exact_copy(output, output_length);
    uint8_t *lent_requests = exact_copy(requests, requests_length);
    gt_answer answer = gt_build(lent_table, GT_TABLE_BYTES, site, lent_requests, requests_length, lent_output, output_length);

    give_back(lent_table, t.bytes, GT_TABLE_BYTES);
    give_back(lent_requests, requests, requests_length);
    take_over(output, lent_output, output_length);
    return answer;
}

static bool builds(table t, uint8_t site, uint16_t sequence, size_t length)
{
    uint8_t output[GT_MAX_BLOCK_BYTES];

    memset(output, UNTOUCHED, sizeof output);
    return is(build(t, site, 0, output, sizeof output), 0, length) && output[0] == site && output[1] == sequence >> 8
        && output[2] == (uint8_t)sequence && output[length] == UNTOUCHED;
}

static bool not_built(table t, uint8_t site, size_t requests_length, size_t output_length, uint8_t refusal, size_t value)
{
    uint8_t output[GT_MAX_BLOCK_BYTES], before[GT_MAX_BLOCK_BYTES];

    memset(output, UNTOUCHED, sizeof output);
    memcpy(before, output, sizeof output);
    return is(build(t, site, requests_length, output, output_length), refusal, value)
        && memcmp(output, before, sizeof output) == 0;
}

static void check_last_sequence(void)
{
    table last = at_sequence(65535), forked = with_sequence(with_sequence(twins_alone(), 0, 65535), 1, 65535);
    size_t most = GT_MAX_BLOCK_BYTES;

    forked = having_retired(whole(forked), 1);
    check("30, at 65,534 the last number comes", builds(at_sequence(65534), 0, 65535, 37));
    check("30, at 65,535", not_built(last, 0, 0, most, 30, 0));
    check("30, at 255 and 65,280", builds(at_sequence(255), 0, 256, 37) && builds(at_sequence(65280), 0, 65281, 37));
    check("30, another site builds on it", builds(last, 1, 0, 37));
    check("30, of a block that is not interpreted",
          not_built(interpreted(with_row(at_sequence(65534), referring_to(block_of(0, 65535), block_of(0, 0)), 1), 1), 0, 0, most,
                    30, 0));
    check("building: 2 before 30", not_built(having_retired(last, 2), 0, 0, most, 2, 0));
    check("building: 4 before 30", not_built(last, 4, 0, most, 4, 0));
    check("building: 3 before 30", not_built(last, 0, GT_MAX_REQUEST_LIST_BYTES + 1, most, 3, 0));
    check("building: 6 before 30", not_built(last, 0, 9, most, 6, 2));
    check("building: 18 before 30", not_built(last, 0, 6, most, 18, 1));
    check("building: 16 before 30", not_built(forked, 0, 0, most, 16, 0));
    check("building: 30 before 17", not_built(last, 0, 0, 0, 30, 0) && not_built(at_sequence(65534), 0, 0, 0, 17, 37));
}

/* ---- Building refers to what is held */

/* A block of site 2 refers to site 0's first one, so site 2 does not do so again, until that has left and has come again: then
 * it has three references, where it had two. */
static bool refers_once_more(void)
{
    side s = fresh_side(4);

    hold(&s, example_block(0), 0);
    hold(&s, referring_to(block_of(2, 0), example_block(0)), 1);
    hold(&s, example_block(1), 2);
    return builds(s.table, 2, 1, 69) && is(retire(&s), 0, 0) && builds(s.table, 2, 1, 69) && hold(&s, example_block(0), 2)
        && builds(s.table, 2, 1, 101);
}

/* ---- 31: joining a table that has retired something */

static bool not_joined(table left, table right, size_t numbers, uint8_t refusal)
{
    table before = left;
    buffer records = numbered_parts(), third = of_number(UNTOUCHED), third_before = third;
    uint8_t *lent_left = exact_copy(left.bytes, GT_TABLE_BYTES), *lent_right = exact_copy(right.bytes, GT_TABLE_BYTES);
    gt_answer answer = gt_join(lent_left, GT_TABLE_BYTES, lent_right, GT_TABLE_BYTES, records.numbers, GT_RECORDS_NUMBERS,
                               records.numbers, GT_RECORDS_NUMBERS, third.numbers, numbers);

    give_back(lent_right, right.bytes, GT_TABLE_BYTES);
    take_over(left.bytes, lent_left, GT_TABLE_BYTES);
    return is(answer, refusal, 0) && same(&left, &before) && same_numbers(&third, &third_before);
}

static void check_joined(void)
{
    table good = whole(three_blocks()), old = without_first(good), clash = good, none = having_retired(empty_table(4), 1);
    table full = having_retired(whole(chain(4, 64)), 1), other_setup = having_retired(empty_table(7), 1);
    size_t all = GT_RECORDS_NUMBERS;

    row(&clash, 0)[REQUESTS] = 1;
    check("31, a left that has retired", not_joined(old, good, all, 31));
    check("31, a right that has retired", not_joined(good, old, all, 31));
    check("31, both", not_joined(old, old, all, 31));
    check("31, an empty left that has retired", not_joined(none, good, all, 31));
    check("31, an empty right that has retired", not_joined(good, none, all, 31));
    check("31, every parent held", not_joined(having_retired(good, 1), good, all, 31));
    check("join: 2 before 31", not_joined(old, having_retired(good, 2), all, 2) && not_joined(with_count(good, 65), old, all, 2));
    check("join: 12 before 31", not_joined(good, old, all - 1, 12));
    check("join: 31 before 23", not_joined(good, other_setup, all, 31));
    check("join: 31 before 24", not_joined(having_retired(clash, 1), good, all, 31));
    check("join: 31 before 25", not_joined(full, whole(with_row(empty_table(4), twin_block(), 0)), all, 31));
}

/* ---- A list of calls with retirings leaves what single calls leave */

enum { CALLS = 16 };

/* What the calls of the list below are answered: refusal and value of each. */
static const uint64_t wanted_answers[2 * CALLS] = {13, 0, 0,  0, 29, 0, 0, 0, 29, 0, 0, 1, 29, 0, 0, 0,
                                                   0,  0, 29, 0, 9,  1, 0, 1, 29, 0, 0, 0, 29, 0, 8, 0};

static list with_retirings(void)
{
    list l = {.length = 0};
    block other = referring_to(referring_to(block_of(0, 2), example_block(1)), example_block(0));

    put_retiring(&l);
    put_admission(&l, example_block(0), 1);
    put_retiring(&l);
    put_interpretation(&l, 0);
    put_retiring(&l);
    put_admission(&l, example_block(1), 1);
    put_retiring(&l);
    put_interpretation(&l, 1);
    put_retiring(&l);
    put_retiring(&l);
    put_admission(&l, other, 1);
    put_admission(&l, example_block(0), 1);
    put_retiring(&l);
    put_interpretation(&l, 1);
    put_retiring(&l);
    put_admission(&l, example_block(1), 1);
    return l;
}

/* The same calls one by one. */
static side one_by_one(void)
{
    side s = fresh_side(1);

    hold(&s, example_block(0), 0);
    hold(&s, example_block(1), 1);
    retire(&s);
    hold(&s, example_block(0), 1);
    return s;
}

static bool replayed(void)
{
    list l = with_retirings();
    side s = fresh_side(1), wanted = one_by_one();
    uint64_t answers[2 * CALLS] = {0};

    return replay(&s.table, &s.records, &l, l.length, answers, 2 * CALLS) == CALLS && same_side(&s, &wanted)
        && memcmp(answers, wanted_answers, sizeof answers) == 0;
}

/* A retiring is one byte: it is never cut, and the byte after it begins a call. */
static bool single_bytes(void)
{
    list l = {.bytes = {2, 2, 2, 4, 2}, .length = 5};
    side s = {whole(chain(1, 3)), numbered_parts()}, wanted = s;
    uint64_t answers[10] = {[6] = UNTOUCHED};

    retire(&wanted);
    retire(&wanted);
    return replay(&s.table, &s.records, &l, l.length, answers, 10) == 3 && same_side(&s, &wanted) && answers[0] == 0
        && answers[2] == 0 && answers[4] == 29 && answers[6] == UNTOUCHED && replay(&s.table, &s.records, &l, 1, answers, 0) == 1;
}

static void check_replay(void)
{
    check("replay, retirings among other calls", replayed());
    check("replay, bytes 2 and 4", single_bytes());
}

int main(void)
{
    check_form();
    check_missing_parents();
    check_lengths();
    check_causes();
    check_order();
    check_left();
    check_chain();
    check_gone();
    check_last_sequence();
    check("building, a block that has come again", refers_once_more());
    check_joined();
    check_replay();
    check("what may only be read stays as it was", only_read);
    return all_ok ? EXIT_SUCCESS : EXIT_FAILURE;
}
