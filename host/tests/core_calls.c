/* Calls the core at the edges of what it takes. Writes a line for each check, and ends with exit status 1 if one fails.
 * All that is lent lies in an allocation of its own length, so that valgrind sees an access past its end. */
#include "campaigns.h"

#include <stdio.h>
#include <stdlib.h>
#include <string.h>

#define UNTOUCHED 0xa5

/* ---- Two more calls on exact copies. What a call left in its copy of the table is put back. */

static gt_answer fresh(uint8_t sites, const uint8_t *owners, size_t owners_length, table *t, size_t table_length)
{
    uint8_t *lent_owners = exact_copy(owners, owners_length), *lent_table = exact_copy(t->bytes, table_length);
    gt_answer answer = gt_fresh(sites, lent_owners, owners_length, lent_table, table_length);

    memcpy(t->bytes, lent_table, table_length);
    free(lent_owners);
    free(lent_table);
    return answer;
}

static bool in_form_of_length(table t, size_t length)
{
    uint8_t *lent = exact_copy(t.bytes, length);
    bool answer = gt_in_form(lent, length);

    free(lent);
    return answer;
}

static bool in_form(table t) { return in_form_of_length(t, GT_TABLE_BYTES); }

/* ---- The empty table */

/* Refused into a buffer of other bytes, which stays as it was. */
static bool fresh_refused(uint8_t sites, const uint8_t *owners, size_t owners_length, size_t table_length, uint8_t refusal)
{
    table before = filled_with(UNTOUCHED), t = before;

    return is(fresh(sites, owners, owners_length, &t, table_length), refusal, 0) && same(&t, &before);
}

static bool makes_the_empty_table(uint8_t sites)
{
    table t = filled_with(UNTOUCHED), wanted = empty_table(sites);

    wanted.bytes[GT_TABLE_BYTES] = UNTOUCHED;
    return is(fresh(sites, owners_for(sites), GT_SLOTS, &t, GT_TABLE_BYTES), 0, 0) && same(&t, &wanted);
}

static bool owner_that_is_n_refused(uint8_t sites)
{
    for (int slot = 0; slot < GT_SLOTS; slot++) {
        uint8_t owners[GT_SLOTS];
        memcpy(owners, owners_for(sites), GT_SLOTS);
        owners[slot] = sites;
        if (!fresh_refused(sites, owners, GT_SLOTS, GT_TABLE_BYTES, 1))
            return false;
    }
    return true;
}

static void check_fresh(void)
{
    static const uint8_t unlawful[] = {0, 2, 3, 6, 17, 255};
    static const uint8_t nine_zeros[GT_SLOTS + 1];
    table t = filled_with(UNTOUCHED), before = t;

    for (size_t i = 0; i < sizeof lawful; i++) {
        check_with("fresh, n", lawful[i], makes_the_empty_table(lawful[i]));
        check_with("fresh, in some slot the owner n, n", lawful[i], owner_that_is_n_refused(lawful[i]));
    }
    for (size_t i = 0; i < sizeof unlawful; i++)
        check_with("fresh, n", unlawful[i], fresh_refused(unlawful[i], nine_zeros, GT_SLOTS, GT_TABLE_BYTES, 1));
    check("fresh, 0 owners", fresh_refused(4, nine_zeros, 0, GT_TABLE_BYTES, 1));
    check("fresh, 7 owners", fresh_refused(4, nine_zeros, 7, GT_TABLE_BYTES, 1));
    check("fresh, 9 owners", fresh_refused(4, nine_zeros, 9, GT_TABLE_BYTES, 1));
    check("fresh, no owners at NULL", is(gt_fresh(4, NULL, 0, t.bytes, GT_TABLE_BYTES), 1, 0) && same(&t, &before));
    check("fresh, table of 3850 bytes", fresh_refused(4, nine_zeros, GT_SLOTS, GT_TABLE_BYTES - 1, 2));
    check("fresh, table of 3852 bytes", fresh_refused(4, nine_zeros, GT_SLOTS, GT_TABLE_BYTES + 1, 2));
    check("fresh, table of 0 bytes", fresh_refused(4, nine_zeros, GT_SLOTS, 0, 2));
    check("fresh, table of 0 bytes at NULL", is(gt_fresh(4, nine_zeros, GT_SLOTS, NULL, 0), 2, 0));
    check("fresh: 1 before 2", fresh_refused(2, nine_zeros, GT_SLOTS, 0, 1));
}

/* ---- Blocks of most checks: n is 4, the first block is of site 0, the second of site 1 refers to it. */

static block first_block(void) { return block_of(0, 0); }

static block second_block(void)
{
    block b = referring_to(block_of(1, 0), first_block());

    return with_request(with_request(b, 7, 0x0102), 0, 65535);
}

static table with_one_block(void) { return with_row(empty_table(4), first_block(), 0); }

static table with_two_blocks(void)
{
    table t = with_row(with_one_block(), second_block(), 1);

    put_request(&t, 1, 0, 255, 255);
    put_request(&t, 1, 7, 1, 2);
    return t;
}

/* ---- Form */

/* A table of two blocks with one byte of the second's row changed. */
static table changed_at(size_t offset, uint8_t byte)
{
    table t = with_two_blocks();

    row(&t, 1)[offset] = byte;
    return t;
}

/* Seventeen blocks without references, and one that refers to these places. */
static table referring_to_places(uint64_t places)
{
    table t = empty_table(4);

    for (uint8_t i = 0; i < 17; i++)
        put_row(&t, with_request(block_of(0, 0), 0, i + 1), 0);
    return with_row(t, block_of(1, 0), places);
}

static void check_form(void)
{
    table t;

    for (size_t i = 0; i < sizeof lawful; i++)
        check_with("form, empty table of n", lawful[i], in_form(empty_table(lawful[i])));
    check("form, all zeros", !in_form(filled_with(0)));
    check("form, all ones", !in_form(filled_with(255)));
    check("form, 0 bytes at NULL", !gt_in_form(NULL, 0));
    check("form, 0 bytes", !in_form_of_length(empty_table(4), 0));
    check("form, 3850 bytes", !in_form_of_length(empty_table(4), GT_TABLE_BYTES - 1));
    check("form, 3852 bytes", !in_form_of_length(empty_table(4), GT_TABLE_BYTES + 1));
    check("form, n 3", !in_form(empty_table(3)));
    t = empty_table(4);
    t.bytes[OWNERS + 7] = 4;
    check("form, an owner that is n", !in_form(t));
    t = empty_table(4);
    t.bytes[GT_TABLE_BYTES - 1] = 1;
    check("form, the last byte not 0", !in_form(t));

    check("form, two blocks", in_form(with_two_blocks()));
    check("form, a site that is n", !in_form(changed_at(SITE, 4)));
    check("form, a reference to its own place", !in_form(changed_at(REFERENCES, 2)));
    check("form, a reference to the last place", !in_form(changed_at(REFERENCES + 7, 128)));
    check("form, a sequence number without parent", !in_form(changed_at(SEQUENCE, 1)));
    check("form, the mark 2", !in_form(changed_at(MARK, 2)));
    t = changed_at(MARK, 1);
    check("form, interpreted before what it refers to", !in_form(t));
    row(&t, 0)[MARK] = 1;
    check("form, both interpreted", in_form(t));
    memset(row(&t, 1) + REQUESTS, 255, 2 * GT_SLOTS);
    check("form, a request of each slot", in_form(t));
    check("form, 16 references", in_form(referring_to_places(0x1fffe)));
    check("form, 17 references", !in_form(referring_to_places(0x1ffff)));
    t = with_two_blocks();
    memcpy(row(&t, 1), row(&t, 0), GT_DIGEST_BYTES);
    check("form, equal digests", !in_form(t));
    t = with_two_blocks();
    t.bytes[COUNT] = 1;
    check("form, a row from the count on", !in_form(t));
    t.bytes[COUNT] = GT_MAX_PLACES + 1;
    check("form, count 65", !in_form(t));
    t.bytes[COUNT] = 255;
    check("form, count 255", !in_form(t));
}

/* ---- Admission */

static bool admitted(table before, block b, size_t place, table wanted)
{
    return is(admit(&before, b), 0, place) && same(&before, &wanted);
}

/* Refused on a table of this length, which stays as it was. */
static bool refused_of_length(table t, size_t length, block b, uint8_t verdict, uint8_t refusal, size_t value)
{
    table before = t;

    return is(admit_of_length(&t, length, b, verdict), refusal, value) && same(&t, &before);
}

static bool refused(table t, block b, uint8_t refusal, size_t value)
{
    return refused_of_length(t, GT_TABLE_BYTES, b, 1, refusal, value);
}

static bool refused_under(uint8_t verdict, block b, uint8_t refusal)
{
    return refused_of_length(with_two_blocks(), GT_TABLE_BYTES, b, verdict, refusal, 0);
}

/* Sixteen blocks of sequence number 0, and a longest one, which refers to all of them, last place first. */
static bool longest_admitted(void)
{
    table t = empty_table(16), wanted = t;
    block longest = block_of(3, 1);

    for (uint8_t site = 0; site < 16; site++) {
        put_row(&wanted, block_of(site, 0), 0);
        if (!is(admit(&t, block_of(site, 0)), 0, site))
            return false;
        longest = referring_to(longest, block_of((uint8_t)(15 - site), 0));
    }
    for (uint8_t i = 0; i < GT_MAX_REQUESTS; i++)
        longest = with_request(longest, (uint8_t)(7 - i), (uint16_t)(0x0100 + i));
    put_row(&wanted, longest, 0xffff);
    for (uint8_t i = 0; i < GT_MAX_REQUESTS; i++)
        put_request(&wanted, 16, (uint8_t)(7 - i), 1, i);
    return longest.length == GT_MAX_BLOCK_BYTES && admitted(t, longest, 16, wanted);
}

/* Sequence number 1: the low byte is the row's second. */
static bool successor_admitted(void)
{
    block successor = referring_to(referring_to(block_of(1, 1), second_block()), first_block());
    table wanted = with_row(with_two_blocks(), successor, 3);

    return row(&wanted, 2)[SEQUENCE] == 0 && row(&wanted, 2)[SEQUENCE + 1] == 1
        && admitted(with_two_blocks(), successor, 2, wanted);
}

/* Marks are no matter of admission: they stay, and the new place has none. */
static bool marks_stay(void)
{
    table t = with_one_block(), wanted = with_two_blocks();

    row(&t, 0)[MARK] = row(&wanted, 0)[MARK] = 1;
    return admitted(t, second_block(), 1, wanted);
}

static void check_admitted(void)
{
    check("admission, 5 bytes at place 0", admitted(empty_table(4), first_block(), 0, with_one_block()));
    check("admission, a reference and two requests", admitted(with_one_block(), second_block(), 1, with_two_blocks()));
    check("admission, a block with its parent", successor_admitted());
    check("admission, the longest block", longest_admitted());
    check("admission, marks stay", marks_stay());
}

static void check_table_refused(void)
{
    table t = filled_with(0);

    check("admission, all zeros", refused(t, first_block(), 2, 0));
    check("admission, a table of 0 bytes at NULL", is(gt_admit(NULL, 0, first_block().bytes, 5, 1), 2, 0));
    check("admission, a table of 0 bytes", refused_of_length(empty_table(4), 0, first_block(), 1, 2, 0));
    check("admission, a table of 3850 bytes", refused_of_length(empty_table(4), GT_TABLE_BYTES - 1, first_block(), 1, 2, 0));
    check("admission, a table of 3852 bytes", refused_of_length(empty_table(4), GT_TABLE_BYTES + 1, first_block(), 1, 2, 0));
    check("admission, a table whose last mark is 2", refused(changed_at(MARK, 2), block_of(2, 0), 2, 0));
    check("admission: 2 before 3", refused(t, of_length(first_block(), 4), 2, 0));
}

static void check_block_refused(void)
{
    table t = with_two_blocks(), before = t;
    block b = block_of(2, 0);

    check("admission, no bytes at NULL", is(gt_admit(t.bytes, GT_TABLE_BYTES, NULL, 0, 1), 3, 0) && same(&t, &before));
    check("admission, 4 bytes", refused(t, of_length(b, 4), 3, 0));
    check("admission, 6 bytes", refused(t, of_length(b, 6), 3, 0));
    check("admission, a cut block", refused(t, of_length(second_block(), second_block().length - 1), 3, 0));
    check("admission, a reference too many", refused(t, block_with(GT_MAX_REFERENCES + 1, 0), 3, 0));
    check("admission, a request too many", refused(t, block_with(0, GT_MAX_REQUESTS + 1), 3, 0));
    check("admission, the most references and a request of each slot", refused(t, block_with(GT_MAX_REFERENCES, GT_SLOTS), 3, 0));
    check("admission, a byte more than the longest block",
          refused(t, of_length(block_with(GT_MAX_REFERENCES, GT_MAX_REQUESTS), GT_MAX_BLOCK_BYTES + 1), 3, 0));

    check("admission, a site that is n", refused(t, block_of(4, 0), 4, 0));
    check("admission, site 255", refused(t, block_of(255, 0), 4, 0));
    check("admission, verdict 0", refused_under(0, b, 5));
    check("admission, verdict 2", refused_under(2, b, 5));
    check("admission, verdict 255", refused_under(255, b, 5));

    check("admission, slot 8 in request 1", refused(t, with_request(with_request(b, 7, 1), 8, 1), 6, 1));
    check("admission, number 0 in request 2", refused(t, with_request(with_request(with_request(b, 7, 1), 0, 1), 1, 0), 6, 2));
    check("admission, a slot twice", refused(t, with_request(with_request(b, 7, 1), 7, 2), 18, 1));
    check("admission, a slot twice with one number", refused(t, with_request(with_request(b, 0, 1), 0, 1), 18, 1));
    check("admission, slots 0 to 3 and 0", refused(t, with_request(block_with(0, 4), 0, 2), 18, 4));
    check("admission, slots 0, 1, 1 and 0", refused(t, with_request(with_request(block_with(0, 2), 1, 2), 0, 2), 18, 2));
    check("admission, a reference twice",
          refused(t, referring_to(referring_to(referring_to(b, first_block()), second_block()), first_block()), 7, 2));
}

/* A table in form, of two blocks, that has another block's digest at place 1. */
static table holding_digest_of(block b)
{
    table t = with_two_blocks();
    digest d = digest_of(b);

    memcpy(row(&t, 1), d.bytes, sizeof d.bytes);
    return t;
}

static void check_held_and_references(void)
{
    table t = with_two_blocks();
    block held = referring_to(block_of(2, 0), first_block());
    block missing = with_reference(with_reference(held, not_held(1)), not_held(2));
    digest near = digest_of(first_block());

    check("admission, the first block again", refused(t, first_block(), 8, 0));
    check("admission, the second block again", refused(t, second_block(), 8, 1));
    check("admission, references 1 and 2 not held", refused(t, missing, 9, 1));
    near.bytes[GT_DIGEST_BYTES - 1] ^= 1;
    check("admission, a reference that differs from a held digest in its last bit",
          refused(t, with_reference(block_of(2, 0), near), 9, 0));
    /* The rows from the count on are zero, and so no digest. */
    check("admission, a reference of zeros", refused(t, with_reference(block_of(2, 0), not_held(0)), 9, 0));
}

/* Of the first block's site and sequence number, and another block. */
static block other_fork(void) { return with_request(first_block(), 0, 1); }

static table with_forks(void)
{
    table t = with_row(with_one_block(), other_fork(), 0);

    put_request(&t, 1, 0, 0, 1);
    return t;
}

static void check_parents(void)
{
    block child = referring_to(block_of(0, 1), other_fork()), late = referring_to(block_of(0, 0x0100), first_block());
    block own = referring_to(referring_to(block_of(1, 0), first_block()), second_block());

    check("admission, sequence 1 without references", refused(with_two_blocks(), block_of(0, 1), 10, 0));
    check("admission, sequence 1 that refers to another site",
          refused(with_two_blocks(), referring_to(block_of(0, 1), second_block()), 10, 0));
    check("admission, sequence 2 after 0", refused(with_two_blocks(), referring_to(block_of(0, 2), first_block()), 10, 0));
    check("admission, sequence 256 after 0", refused(with_two_blocks(), late, 10, 0));
    check("admission, sequence 65535 without references", refused(with_two_blocks(), block_of(0, 65535), 10, 0));
    check("admission, sequence 1 with both forks", refused(with_forks(), referring_to(child, first_block()), 10, 0));
    check("admission, sequence 1 with one fork", admitted(with_forks(), child, 2, with_row(with_forks(), child, 2)));
    check("admission, sequence 0 that refers to its own site",
          admitted(with_two_blocks(), own, 2, with_row(with_two_blocks(), own, 3)));
}

/* Each call has a fault for the number named first and for the later ones. */
static void check_order(void)
{
    table t = with_two_blocks();
    block foreign = with_request(block_of(4, 1), 8, 1), bad = with_request(block_of(2, 1), 8, 1);
    block missing = with_reference(block_of(2, 1), not_held(1)), repeated = with_reference(missing, not_held(1));
    block twice = with_request(with_request(block_of(2, 1), 3, 1), 3, 1);
    block missing_and_twice = with_request(with_request(missing, 3, 1), 3, 1);

    check("admission: 3 before 4 and 5", refused_under(0, of_length(foreign, foreign.length - 1), 3));
    check("admission: 3 before 18", refused(t, of_length(twice, twice.length - 1), 3, 0));
    check("admission: 4 before 5 and 6", refused_under(0, foreign, 4));
    check("admission: 4 before 18", refused(t, with_request(with_request(block_of(4, 1), 3, 1), 3, 1), 4, 0));
    check("admission: 5 before 6", refused_under(0, bad, 5));
    check("admission: 5 before 18", refused_under(0, twice, 5));
    check("admission: 5 before 8", refused_under(0, second_block(), 5));
    check("admission: 6 before 18", refused(t, with_request(twice, 8, 1), 6, 2));
    check("admission: 6 before 7", refused(t, with_request(repeated, 8, 1), 6, 0));
    check("admission: 18 before 7", refused(t, with_request(with_request(repeated, 3, 1), 3, 1), 18, 1));
    check("admission: 18 before 8", refused(holding_digest_of(twice), twice, 18, 1));
    check("admission: 18 before 9", refused(t, missing_and_twice, 18, 1));
    check("admission: 18 before 10", refused(t, twice, 18, 1));
    check("admission: 7 before 8", refused(holding_digest_of(repeated), repeated, 7, 1));
    check("admission: 7 before 9", refused(t, repeated, 7, 1));
    check("admission: 8 before 9", refused(holding_digest_of(missing), missing, 8, 1));
    check("admission: 8 before 10", refused(holding_digest_of(block_of(2, 1)), block_of(2, 1), 8, 1));
    check("admission: 9 before 10", refused(t, missing, 9, 0));
}

/* ---- A full table: n is 1, and each block refers to the one before. */

static void check_full(void)
{
    table t = empty_table(1), wanted = t;
    block next = chain_block(GT_MAX_PLACES);
    bool each = true;

    for (uint16_t place = 0; place < GT_MAX_PLACES; place++) {
        each = each && in_form(t) && is(admit(&t, chain_block(place)), 0, place);
        put_row(&wanted, chain_block(place), place > 0 ? (uint64_t)1 << (place - 1) : 0);
    }
    check("full table, the 64th block at place 63", each && same(&t, &wanted));
    check("full table, in form", in_form(t));
    check("full table, the 65th", refused(t, next, 11, 0));
    check("full table, the 65th of sequence 0", refused(t, other_fork(), 11, 0));
    check("full table, the 65th with a slot twice", refused(t, with_request(other_fork(), 0, 2), 18, 1));
    check("full table, the 65th repeats the first", refused(t, chain_block(0), 8, 0));
    check("full table, the 65th repeats the last", refused(t, chain_block(63), 8, 63));
    check("full table, the 65th with a reference not held", refused(t, with_reference(next, not_held(1)), 9, 1));
    check("full table, the 65th without its parent", refused(t, block_of(0, 64), 10, 0));
    check("full table, the 65th under verdict 0", refused_of_length(t, GT_TABLE_BYTES, next, 0, 5, 0));
}

/* ---- Digests that begin alike: 64 blocks of site 0 without references, each with a digest of its own. */

/* A digest is looked for by its first bytes. These have all but the last in common. */
static digest alike(uint8_t last)
{
    digest d = not_held(7);

    d.bytes[GT_DIGEST_BYTES - 1] = last;
    return d;
}

/* These differ in their first two bytes as well, by multiples of 16 and of 64. */
static digest nearly_alike(uint8_t last)
{
    digest d = alike(last);

    d.bytes[0] = (uint8_t)(d.bytes[0] + 16 * last);
    d.bytes[1] = (uint8_t)(d.bytes[1] + 64 * last);
    return d;
}

static table with_digests(digest (*of)(uint8_t place))
{
    table t = empty_table(4);

    for (uint8_t place = 0; place < GT_MAX_PLACES; place++) {
        digest d = of(place);
        put_row(&t, block_of(0, 0), 0);
        memcpy(row(&t, place), d.bytes, sizeof d.bytes);
    }
    return t;
}

/* The same, with the digest of one place at another too. */
static table repeating(digest (*of)(uint8_t place), uint8_t place, uint8_t repeated)
{
    table t = with_digests(of);

    memcpy(row(&t, place), row(&t, repeated), GT_DIGEST_BYTES);
    return t;
}

/* The same without its last block, so that there is room. */
static table with_room(digest (*of)(uint8_t place))
{
    table t = with_digests(of);

    memset(row(&t, GT_MAX_PLACES - 1), 0, ROW_BYTES);
    t.bytes[COUNT] = GT_MAX_PLACES - 1;
    return t;
}

static bool finds_each(digest (*of)(uint8_t place))
{
    table t = with_room(of);
    bool each = true;

    for (uint8_t place = 0; place + 1 < GT_MAX_PLACES; place++) {
        block b = with_reference(block_of(1, 0), of(place));
        each = each && admitted(t, b, GT_MAX_PLACES - 1, with_row(t, b, (uint64_t)1 << place));
    }
    return each;
}

static void check_alike(void)
{
    check("form, digests that differ in the last byte", in_form(with_digests(alike)));
    check("form, digests whose first bytes are nearly alike", in_form(with_digests(nearly_alike)));
    check("form, the last digest that of place 0", !in_form(repeating(alike, GT_MAX_PLACES - 1, 0)));
    check("form, the second digest that of place 0", !in_form(repeating(nearly_alike, 1, 0)));
    check("admission, a reference to each of the digests alike", finds_each(alike));
    check("admission, a reference to each of those nearly alike", finds_each(nearly_alike));
    check("admission, a reference like those held, and not held",
          refused(with_room(alike), with_reference(with_reference(block_of(1, 0), alike(3)), alike(64)), 9, 1));
}

int main(void)
{
    check_fresh();
    check_form();
    check_alike();
    check_admitted();
    check_table_refused();
    check_block_refused();
    check_held_and_references();
    check_parents();
    check_order();
    check_full();
    return all_ok ? EXIT_SUCCESS : EXIT_FAILURE;
}
