/* Calls the watch for forks and building at the edges of what they take. Writes a line for each check, and ends with exit
 * status 1 if one fails. All that is lent lies in an allocation of its own length, so that valgrind sees an access past its
 * end. */
#include "campaigns.h"

#include <stdio.h>
#include <stdlib.h>
#include <string.h>

enum { UNTOUCHED = 0xa5 };

/* ---- The three calls, on exact copies. What they may only read must stay. */

static bool only_read = true;

/* Ends the loan of bytes that may only be read. */
static void give_back(uint8_t *lent, const uint8_t *bytes, size_t length)
{
    only_read = only_read && (length == 0 || memcmp(lent, bytes, length) == 0);
    free(lent);
}

static bool forks_of_length(table t, size_t length, gt_forked_sites wanted)
{
    uint8_t *lent = exact_copy(t.bytes, length);
    gt_forked_sites answer = gt_forks(lent, length);

    give_back(lent, t.bytes, length);
    return answer.refusal == wanted.refusal && answer.sites == wanted.sites && answer.count == wanted.count
        && answer.at_most_f == wanted.at_most_f;
}

static bool ancestors_of_length(table t, size_t length, size_t place, gt_ancestor_places wanted)
{
    uint8_t *lent = exact_copy(t.bytes, length);
    gt_ancestor_places answer = gt_ancestors(lent, length, place);

    give_back(lent, t.bytes, length);
    return answer.refusal == wanted.refusal && answer.places == wanted.places && answer.count == wanted.count;
}

/* Request bytes; room for a count of requests that one byte doesn't hold. */
typedef struct {
    uint8_t bytes[3 * 257];
    size_t length;
} list;

/* Bytes that a block is built into; the first of them are lent. */
typedef struct {
    uint8_t bytes[GT_MAX_BLOCK_BYTES + 8];
} output;

static gt_answer build_of_length(table t, size_t length, uint8_t site, list l, output *o, size_t room)
{
    uint8_t *lent_table = exact_copy(t.bytes, length), *lent_list = exact_copy(l.bytes, l.length);
    uint8_t *lent_output = exact_copy(o->bytes, room);
    gt_answer answer = gt_build(lent_table, length, site, lent_list, l.length, lent_output, room);

    give_back(lent_table, t.bytes, length);
    give_back(lent_list, l.bytes, l.length);
    if (room > 0)
        memcpy(o->bytes, lent_output, room);
    free(lent_output);
    return answer;
}

static output untouched(void)
{
    output o;

    memset(o.bytes, UNTOUCHED, sizeof o.bytes);
    return o;
}

static bool same_output(output x, output y) { return memcmp(x.bytes, y.bytes, sizeof x.bytes) == 0; }

/* ---- Tables. n is 4 where nothing else is said. */

/* A block of sequence number 0 that refers to nothing; another number makes another block. */
static block other_block(uint8_t site, uint16_t number) { return with_request(block_of(site, 0), 0, number); }

/* The table with this many different blocks of a site, all of sequence number 0. */
static table with_blocks(table t, uint8_t site, uint16_t blocks)
{
    for (uint16_t i = 0; i < blocks; i++)
        put_row(&t, other_block(site, (uint16_t)(i + 1)), 0);
    return t;
}

/* Blocks of sequence number 0, two of each of the first sites. */
static table with_forks(uint8_t sites, uint8_t forked)
{
    table t = empty_table(sites);

    for (uint8_t site = 0; site < forked; site++)
        t = with_blocks(t, site, 2);
    return t;
}

/* Site 2 has sequence number 1 twice, and one block of sequence number 2. */
static table forked_below(void)
{
    block first = block_of(2, 0), second = referring_to(block_of(2, 1), first);
    table t = with_row(with_row(empty_table(4), first, 0), second, 1);

    put_row(&t, with_request(second, 0, 1), 1);
    put_row(&t, referring_to(block_of(2, 2), second), 2);
    return t;
}

/* Two blocks of site 0 and sequence number 0, the second on the first. */
static table forked_on_itself(void)
{
    block first = block_of(0, 0);

    return with_row(with_row(empty_table(4), first, 0), referring_to(first, first), 1);
}

/* The last two places of a full table have the greatest sequence number. */
static table forked_at_the_end(void) { return with_row(chain(1, 63), with_request(chain_block(62), 0, 1), (uint64_t)1 << 61); }

static table one_of_each(uint8_t sites)
{
    table t = empty_table(sites);

    for (uint8_t site = 0; site < sites; site++)
        put_row(&t, block_of(site, 0), 0);
    return t;
}

/* Four blocks, the second and third on the first, the fourth on these two; a fifth on the second alone. */
static block diamond_block(size_t place)
{
    switch (place) {
    case 0:
        return block_of(0, 0);
    case 1:
        return referring_to(block_of(1, 0), diamond_block(0));
    case 2:
        return referring_to(block_of(2, 0), diamond_block(0));
    case 3:
        return referring_to(referring_to(block_of(3, 0), diamond_block(1)), diamond_block(2));
    default:
        return referring_to(block_of(1, 1), diamond_block(1));
    }
}

static table diamond(void)
{
    static const uint64_t places[] = {0, 1, 1, 6, 2};
    table t = empty_table(4);

    for (size_t place = 0; place < 5; place++)
        put_row(&t, diamond_block(place), places[place]);
    return t;
}

/* Two lines of two blocks, and one on both. */
static table two_lines(void)
{
    block low = block_of(0, 0), other_low = block_of(1, 0);
    block high = referring_to(block_of(2, 0), low), other_high = referring_to(block_of(3, 0), other_low);
    table t = with_row(with_row(with_row(empty_table(4), low, 0), other_low, 0), high, 1);

    return with_row(with_row(t, other_high, 2), referring_to(referring_to(block_of(2, 1), high), other_high), 12);
}

/* ---- Forks */

static bool forked(table t, uint16_t sites, uint32_t count, bool at_most_f)
{
    return forks_of_length(t, GT_TABLE_BYTES, (gt_forked_sites){0, sites, count, at_most_f});
}

static bool forks_refused(table t, size_t length) { return forks_of_length(t, length, (gt_forked_sites){2, 0, 0, false}); }

static table marked(table t, size_t place)
{
    row(&t, place)[MARK] = 1;
    return t;
}

static void check_forks(void)
{
    table t = with_forks(4, 1);
    gt_forked_sites of_nothing = gt_forks(NULL, 0);

    for (size_t i = 0; i < sizeof lawful; i++)
        check_with("forks, nobody of", lawful[i], forked(empty_table(lawful[i]), 0, 0, true));
    check("forks, one of 4", forked(t, 1, 1, true));
    check("forks, two of 4", forked(with_forks(4, 2), 3, 2, false));
    check("forks, two of 7", forked(with_forks(7, 2), 3, 2, true));
    check("forks, five of 16", forked(with_forks(16, 5), 0x1f, 5, true));
    check("forks, six of 16", forked(with_forks(16, 6), 0x3f, 6, false));
    check("forks, all of 16", forked(with_forks(16, 16), 0xffff, 16, false));
    check("forks, the one of 1", forked(with_forks(1, 1), 1, 1, false));
    check("forks, the last of 16, three times", forked(with_blocks(empty_table(16), 15, 3), 0x8000, 1, true));
    check("forks, one sequence number at all of 16", forked(one_of_each(16), 0, 0, true));
    check("forks, below the greatest", forked(forked_below(), 4, 1, true));
    check("forks, one on the other", forked(forked_on_itself(), 1, 1, true));
    check("forks, one interpreted", forked(marked(t, 0), 1, 1, true));
    check("forks, both interpreted", forked(marked(marked(t, 0), 1), 1, 1, true));
    check("forks, a chain of 64", forked(chain(1, 64), 0, 0, true));
    check("forks, places 0 and 63", forked(with_blocks(chain(1, 63), 0, 1), 1, 1, false));
    check("forks, places 62 and 63", forked(forked_at_the_end(), 1, 1, false));

    check("forks, all zeros", forks_refused(filled_with(0), GT_TABLE_BYTES));
    check("forks, a table of 3850 bytes", forks_refused(t, GT_TABLE_BYTES - 1));
    check("forks, a table of 3852 bytes", forks_refused(t, GT_TABLE_BYTES + 1));
    check("forks, a table of 0 bytes", forks_refused(t, 0));
    check("forks, a table of 0 bytes at NULL",
          of_nothing.refusal == 2 && of_nothing.sites == 0 && of_nothing.count == 0 && !of_nothing.at_most_f);
    check("forks, a site that is n", forks_refused(with_blocks(t, 4, 1), GT_TABLE_BYTES));
}

/* ---- Ancestors */

static bool ancestors(table t, size_t place, uint64_t places, uint32_t count)
{
    return ancestors_of_length(t, GT_TABLE_BYTES, place, (gt_ancestor_places){0, places, count});
}

static bool ancestors_refused(table t, size_t length, size_t place, uint8_t refusal)
{
    return ancestors_of_length(t, length, place, (gt_ancestor_places){refusal, 0, 0});
}

static bool no_such_place(table t, size_t place) { return ancestors_refused(t, GT_TABLE_BYTES, place, 13); }

static void check_ancestors(void)
{
    table t = diamond(), full = chain(1, 64);
    gt_ancestor_places of_nothing = gt_ancestors(NULL, 0, 0);

    check("ancestors, of the first block", ancestors(t, 0, 0, 0));
    check("ancestors, of the second", ancestors(t, 1, 1, 1));
    check("ancestors, of one that refers to two", ancestors(t, 3, 7, 3));
    check("ancestors, not all lower places", ancestors(t, 4, 3, 2));
    check("ancestors, of two lines", ancestors(two_lines(), 4, 15, 4));
    check("ancestors, place 63 of a chain", ancestors(full, 63, ((uint64_t)1 << 63) - 1, 63));
    check("ancestors, place 32 of a chain", ancestors(full, 32, ((uint64_t)1 << 32) - 1, 32));
    check("ancestors, of an interpreted block", ancestors(marked(t, 0), 1, 1, 1));

    check("ancestors, place 0 of an empty table", no_such_place(empty_table(4), 0));
    check("ancestors, place 5 of five", no_such_place(t, 5));
    check("ancestors, place 64 of 64", no_such_place(full, 64));
    check("ancestors, place 256", no_such_place(full, 256));
    check("ancestors, place 2^32", no_such_place(full, (size_t)1 << 32));
    check("ancestors, the greatest place", no_such_place(full, SIZE_MAX));
    check("ancestors, all zeros", ancestors_refused(filled_with(0), GT_TABLE_BYTES, 0, 2));
    check("ancestors, a table of 3850 bytes", ancestors_refused(t, GT_TABLE_BYTES - 1, 0, 2));
    check("ancestors, a table of 3852 bytes", ancestors_refused(t, GT_TABLE_BYTES + 1, 0, 2));
    check("ancestors, a table of 0 bytes", ancestors_refused(t, 0, 0, 2));
    check("ancestors, a table of 0 bytes at NULL", of_nothing.refusal == 2 && of_nothing.places == 0 && of_nothing.count == 0);
    check("ancestors, a site that is n", ancestors_refused(with_blocks(t, 4, 1), GT_TABLE_BYTES, 3, 2));
    check("ancestors: 2 before 13", ancestors_refused(filled_with(0), GT_TABLE_BYTES, SIZE_MAX, 2));
}

/* ---- Building */

static const list no_requests = {.length = 0};

static list with_entry(list l, uint8_t slot, uint16_t number)
{
    memcpy(l.bytes + l.length, (uint8_t[]){slot, (uint8_t)(number >> 8), (uint8_t)number}, GT_REQUEST_BYTES);
    l.length += GT_REQUEST_BYTES;
    return l;
}

/* As many requests as a block can have, of slots from 7 down. */
static list most_requests(void)
{
    list l = no_requests;

    for (uint8_t i = 0; i < GT_MAX_REQUESTS; i++)
        l = with_entry(l, (uint8_t)(7 - i), (uint16_t)(0x0100 + i));
    return l;
}

/* The same requests in a block. */
static block requesting(block b, list l)
{
    memcpy(b.bytes + b.length, l.bytes, l.length);
    b.length += l.length;
    b.bytes[4] = (uint8_t)(l.length / GT_REQUEST_BYTES);
    return b;
}

/* Refused on a table of this length, with this much room; the output stays as it was. */
static bool refused_of_length(table t, size_t length, uint8_t site, list l, size_t room, uint8_t refusal, size_t value)
{
    output o = untouched();

    return is(build_of_length(t, length, site, l, &o, room), refusal, value) && same_output(o, untouched());
}

/* Refused with room for any block, and with none. */
static bool refused(table t, uint8_t site, list l, uint8_t refusal, size_t value)
{
    return refused_of_length(t, GT_TABLE_BYTES, site, l, GT_MAX_BLOCK_BYTES, refusal, value)
        && refused_of_length(t, GT_TABLE_BYTES, site, l, 0, refusal, value);
}

/* The block comes into an output of this length, and the bytes after it stay. */
static bool written(table t, uint8_t site, list l, size_t room, block wanted)
{
    output o = untouched(), expected = untouched();

    memcpy(expected.bytes, wanted.bytes, wanted.length);
    return is(build_of_length(t, GT_TABLE_BYTES, site, l, &o, room), 0, wanted.length) && same_output(o, expected);
}

/* The block is built where there is room for it, and is then admitted to the table, unless that is full. */
static bool built(table t, uint8_t site, list l, block wanted)
{
    uint8_t count = t.bytes[COUNT];
    size_t length = wanted.length;

    return written(t, site, l, length, wanted) && written(t, site, l, length + 1, wanted)
        && written(t, site, l, sizeof(output), wanted) && refused_of_length(t, GT_TABLE_BYTES, site, l, length - 1, 17, length)
        && refused_of_length(t, GT_TABLE_BYTES, site, l, 0, 17, length)
        && (count < GT_MAX_PLACES ? is(admit(&t, wanted), 0, count) : is(admit(&t, wanted), 11, 0));
}

/* Site 3 has no block: it refers to the first sixteen that there are. All are forks of site 1, which is no matter here. */
static bool first_sixteen(uint16_t blocks, list l)
{
    table t = with_blocks(empty_table(4), 1, blocks);
    block wanted = block_of(3, 0);

    for (uint16_t i = 0; i < blocks && i < GT_MAX_REFERENCES; i++)
        wanted = referring_to(wanted, other_block(1, (uint16_t)(i + 1)));
    return built(t, 3, l, requesting(wanted, l));
}

/* With a block of its own site 3 refers to this first, and to fifteen others. */
static bool own_and_fifteen(uint16_t blocks, list l)
{
    table t = with_row(with_blocks(empty_table(4), 1, blocks), block_of(3, 0), 0);
    block wanted = referring_to(block_of(3, 1), block_of(3, 0));

    for (uint16_t i = 0; i < blocks && i < GT_MAX_REFERENCES - 1; i++)
        wanted = referring_to(wanted, other_block(1, (uint16_t)(i + 1)));
    return built(t, 3, l, requesting(wanted, l));
}

/* Site 0 refers to place 2 alone, so that place 0, on which that rests, is still left. */
static bool ancestor_picked(void)
{
    block first = block_of(1, 0), second = referring_to(block_of(2, 0), first);
    block own = referring_to(block_of(0, 0), second);
    table t = with_row(with_row(with_row(empty_table(4), first, 0), second, 1), own, 2);

    return built(t, 0, no_requests, referring_to(referring_to(block_of(0, 1), own), first));
}

/* Site 0's older block refers to place 0, its greatest doesn't: place 0 isn't picked again. */
static bool older_counts(void)
{
    block first = block_of(1, 0), own = referring_to(block_of(0, 0), first), other = block_of(2, 0);
    block last = referring_to(block_of(0, 1), own);
    table t = with_row(with_row(with_row(with_row(empty_table(4), first, 0), own, 1), other, 0), last, 2);

    return built(t, 0, no_requests, referring_to(referring_to(block_of(0, 2), last), other));
}

/* Neither the sites' order nor that of the sequence numbers is that of the places; one of them is interpreted. */
static bool in_place_order(void)
{
    block first = block_of(2, 0), second = referring_to(block_of(2, 1), first), third = block_of(1, 0);
    table t = marked(with_row(with_row(with_row(empty_table(4), first, 0), second, 1), third, 0), 0);

    return built(t, 0, no_requests, referring_to(referring_to(referring_to(block_of(0, 0), first), second), third));
}

static void check_built(void)
{
    table t = diamond();
    block first_of_2 = requesting(block_of(2, 0), most_requests());
    block next_of_1 = referring_to(block_of(1, 2), diamond_block(4));
    block next_of_3 = referring_to(block_of(3, 1), diamond_block(3));
    list two = with_entry(with_entry(no_requests, 3, 1), 0, 2);

    check("building, 5 bytes on an empty table", built(empty_table(4), 2, no_requests, block_of(2, 0)));
    check("building, the most requests", built(empty_table(4), 2, most_requests(), first_of_2));
    /* Site 1 has places 1 and 4, which refer to 0 and to 1. */
    check("building, the greatest block, then others in place order",
          built(t, 1, no_requests, referring_to(referring_to(next_of_1, diamond_block(2)), diamond_block(3))));
    /* Site 3 has place 3, which refers to 1 and 2. */
    check("building, and two requests",
          built(t, 3, two, requesting(referring_to(referring_to(next_of_3, diamond_block(0)), diamond_block(4)), two)));
    check("building, an ancestor that isn't referred to", ancestor_picked());
    check("building, what an older block refers to", older_counts());
    check("building, in place order", in_place_order());
    check("building, nothing of others left", built(chain(1, 4), 0, no_requests, chain_block(4)));
    for (uint16_t blocks = 15; blocks <= 18; blocks++) {
        check_with("building, no own block, others", blocks, first_sixteen(blocks, no_requests));
        check_with("building, an own block, others", blocks - 1, own_and_fifteen((uint16_t)(blocks - 1), no_requests));
    }
    check("building, the longest block", first_sixteen(16, most_requests()) && own_and_fifteen(16, most_requests()));
    check("building, on a full table", built(chain(1, 64), 0, no_requests, chain_block(64)));
    check("building, on a full table of others", first_sixteen(64, no_requests));
    check("building, places 62 and 63",
          built(with_blocks(chain(4, 63), 1, 1), 0, no_requests, referring_to(chain_block(63), other_block(1, 1))));
}

static list of_bytes(uint8_t byte, size_t length)
{
    list l = {.length = length};

    memset(l.bytes, byte, sizeof l.bytes);
    return l;
}

static void check_table_refused(void)
{
    table t = diamond(), unlawful = filled_with(0);
    output o = untouched();
    size_t most = GT_MAX_BLOCK_BYTES;

    check("building, all zeros", refused(unlawful, 0, no_requests, 2, 0));
    check("building, a table of 3850 bytes", refused_of_length(t, GT_TABLE_BYTES - 1, 0, no_requests, most, 2, 0));
    check("building, a table of 3852 bytes", refused_of_length(t, GT_TABLE_BYTES + 1, 0, no_requests, most, 2, 0));
    check("building, a table of 0 bytes", refused_of_length(t, 0, 0, no_requests, most, 2, 0));
    check("building, nothing lent", is(gt_build(NULL, 0, 0, NULL, 0, NULL, 0), 2, 0));
    /* Site 2 has place 2, which refers to 0: the next block refers to it and to three others. */
    check("building, no output at NULL", is(gt_build(t.bytes, GT_TABLE_BYTES, 2, NULL, 0, NULL, 0), 17, 133));
    check("building, no requests at NULL", is(gt_build(empty_table(4).bytes, GT_TABLE_BYTES, 2, NULL, 0, o.bytes, 5), 0, 5));
}

static void check_refused(void)
{
    table t = diamond(), forks = forked_below();
    list good = with_entry(no_requests, 7, 1), slot_8 = with_entry(good, 8, 1), twice = with_entry(good, 7, 2);
    list too_long = of_bytes(1, GT_MAX_REQUEST_LIST_BYTES + GT_REQUEST_BYTES);

    check("building, a site that is n", refused(t, 4, no_requests, 4, 0));
    check("building, site 255", refused(t, 255, no_requests, 4, 0));
    check("building, 1 byte of requests", refused(t, 0, of_bytes(1, 1), 3, 0));
    check("building, 2 bytes of requests", refused(t, 0, of_bytes(1, 2), 3, 0));
    check("building, a byte less than the most requests", refused(t, 0, of_bytes(1, GT_MAX_REQUEST_LIST_BYTES - 1), 3, 0));
    for (size_t length = GT_MAX_REQUEST_LIST_BYTES + 1; length <= GT_REQUEST_BYTES * GT_SLOTS; length++)
        check_with("building, too many bytes of requests", length, refused(t, 0, of_bytes(1, length), 3, 0));
    check("building, 259 bytes of requests", refused(t, 0, of_bytes(1, 259), 3, 0));
    check("building, 771 bytes of requests", refused(t, 0, of_bytes(1, 771), 3, 0));
    check("building, slot 8 in request 1", refused(t, 0, slot_8, 6, 1));
    check("building, slot 255 in request 0", refused(t, 0, with_entry(no_requests, 255, 1), 6, 0));
    check("building, slot 8 in request 1, number 0 in request 2", refused(t, 0, with_entry(slot_8, 0, 0), 6, 1));
    check("building, number 0 in request 2", refused(t, 0, with_entry(with_entry(good, 6, 2), 0, 0), 6, 2));
    check("building, a slot twice", refused(t, 0, twice, 18, 1) && refused(empty_table(4), 3, twice, 18, 1));
    check("building, a slot twice with one number", refused(t, 0, with_entry(good, 7, 1), 18, 1));
    check("building, slots 7, 6 and 7", refused(t, 0, with_entry(with_entry(good, 6, 1), 7, 1), 18, 2));
    check("building, the most requests, all of one slot", refused(t, 0, of_bytes(1, GT_MAX_REQUEST_LIST_BYTES), 18, 1));
    check("building, a fork of the only number", refused(with_forks(4, 1), 0, no_requests, 16, 0));
    check("building, a fork below the greatest", refused(forks, 2, no_requests, 16, 0));
    check("building, a fork of a full table", refused(forked_at_the_end(), 0, good, 16, 0));

    check("building: 2 before 4", refused(filled_with(0), 255, too_long, 2, 0));
    check("building: 4 before 3", refused(t, 4, too_long, 4, 0));
    check("building: 4 before 6", refused(t, 4, slot_8, 4, 0));
    check("building: 3 before 6", refused(t, 0, of_bytes(0, too_long.length), 3, 0));
    check("building: 4 before 18", refused(t, 4, twice, 4, 0));
    check("building: 3 before 18", refused(t, 0, too_long, 3, 0));
    check("building: 6 before 18", refused(t, 0, with_entry(twice, 8, 1), 6, 2));
    check("building: 3 before 16", refused(forks, 2, too_long, 3, 0));
    check("building: 6 before 16", refused(forks, 2, slot_8, 6, 1));
    check("building: 18 before 16", refused(forks, 2, twice, 18, 1));
    check("building: 16 before 17", refused_of_length(forks, GT_TABLE_BYTES, 2, good, 1, 16, 0));
}

int main(void)
{
    check_forks();
    check_ancestors();
    check_built();
    check_table_refused();
    check_refused();
    check("tables and requests stay as they were", only_read);
    return all_ok ? EXIT_SUCCESS : EXIT_FAILURE;
}
