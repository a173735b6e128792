/* The table and the records of a campaign, for C and C++ programs that keep them: an empty table, its form, admission,
 * interpretation, retiring, taking back, the watch for forks, a site's next block, a whole list of calls at once; for programs
 * that follow up to four campaigns, arrivals with a shelf on which blocks wait for what they refer to; and the joining of two
 * controllers.
 *
 * Link with libc_interface.a (`make host` builds it), or with -lgiangotum where it is installed. Every function here is
 * proved to meet its contract for all bytes, all lengths and all numbers: none crashes, none reads or writes outside the
 * bytes that it is lent, and a refusal changes nothing (but that a block refused with 9 by gt_arrive waits). Any buffer of
 * any content may be lent as a table or a shelf: one that isn't in form is refused, not trusted.
 *
 * What the caller answers for: a pointer points to as many bytes as the length beside it says (at length 0 it may be any
 * pointer), the buffers of a call don't overlap, and nobody else writes them while the call runs.
 *
 * The layouts of table, shelf and block and all refusal numbers are in docs/FORMATS.md.
 */
#ifndef GIANGOTUM_CORE_H
#define GIANGOTUM_CORE_H

#include <stdbool.h>

#include "giangotum.h"

#ifdef __cplusplus
extern "C" {
#endif

/* Bytes of a table, and where its fields begin: the owners; 1 if something has been retired, 0 if not; how many blocks are
 * held; and a row for each place. */
#define GT_TABLE_BYTES 3851
#define GT_TABLE_OWNERS 1
#define GT_TABLE_RETIRED 9
#define GT_TABLE_COUNT 10
#define GT_TABLE_ROWS 11
/* Bytes of a row, and where its fields begin behind the digest: the site; the sequence number, high byte first; the places
 * referred to, low byte first; the counted request of each slot, high byte first; 1 if the place is interpreted, 0 if not. */
#define GT_ROW_BYTES 60
#define GT_ROW_SITE 32
#define GT_ROW_SEQUENCE 33
#define GT_ROW_REFERENCES 35
#define GT_ROW_REQUESTS 43
#define GT_ROW_MARK 59
/* The most blocks that a table holds: places 0 to 63. */
#define GT_MAX_PLACES 64
/* Slots, and so owners. */
#define GT_SLOTS 8
/* The numbers of a record, of a place's eight records, and of a record buffer: place after place, slot after slot. */
#define GT_RECORD_NUMBERS 40
#define GT_PART_NUMBERS 320
#define GT_RECORDS_NUMBERS 20480

/* Campaigns that share a shelf: numbers 0 to 3. */
#define GT_CAMPAIGNS 4
/* The places of a shelf, how many of them one campaign may always hold, and how many it holds at most. */
#define GT_SHELF_PLACES 16
#define GT_SHELF_RESERVED 2
#define GT_SHELF_MOST 10
/* Bytes of an entry of a shelf, which has a campaign, a length and room for the longest block, and of a shelf, which has a
 * count and an entry for each place. The empty one is all zero. */
#define GT_SHELF_ENTRY_BYTES (1 + 2 + GT_MAX_BLOCK_BYTES)
#define GT_SHELF_BYTES (1 + GT_SHELF_PLACES * GT_SHELF_ENTRY_BYTES)
/* The numbers that gt_arrive needs for outcomes: two for each block that may wait for a campaign. */
#define GT_OUTCOMES_NUMBERS 20

/* The sites that forked: bit p of the mask is 1 if site p did; count is how many they are; at_most_f is whether they are at
 * most f, the number of forking sites that n sites bear. Beside a refusal mask and count are 0 and at_most_f is false. */
typedef struct {
    uint8_t refusal;
    uint16_t sites;
    uint32_t count;
    bool at_most_f;
} gt_forked_sites;

/* The ancestors of a block: bit i of the mask is 1 if the block at place i is one; count is how many they are. Beside a
 * refusal both are 0. */
typedef struct {
    uint8_t refusal;
    uint64_t places;
    uint32_t count;
} gt_ancestor_places;

/* What an arrival is answered, and how many blocks that waited were let in or dropped by it. */
typedef struct {
    gt_answer answer;
    size_t ended;
} gt_arrival;

/* Writes the empty table of a setup, the number of sites n and an owner for each slot, over whatever the buffer has.
 *   1: the setup is not lawful: n is not 1, 4, 7, 10, 13 or 16, the owners are not eight, or an owner is not below n;
 *   2: the table is not of GT_TABLE_BYTES. */
gt_answer gt_fresh(uint8_t sites, const uint8_t *owners, size_t owners_length, uint8_t *table, size_t table_length);

/* Whether the bytes are a table in form. A buffer of another length than GT_TABLE_BYTES isn't. */
bool gt_in_form(const uint8_t *table, size_t table_length);

/* Puts a block at the table's next place, not interpreted; the value is that place. The verdict is the link's on the
 * block's signature: 1 if it is good.
 *   2: the table is not in form;
 *   3: the block is under 5 bytes, has more references or requests than a block has, or a length other than the two counts give;
 *   4: its site is not below n;
 *   5: the verdict is not 1;
 *   6, value the index of the first such request: a slot over 7, or number 0;
 *   18, value the index of the first such request: a slot equal to an earlier one in the same block;
 *   7, value the index of the first such reference: a reference equal to an earlier one;
 *   8, value its place: a block of the same digest is held;
 *   9, value the index of the first such reference: a reference to no held block;
 *   10: the sequence number is over 0, and not exactly one reference is to a block of the same site with the number one less;
 *   11: the table holds GT_MAX_PLACES blocks already. */
gt_answer gt_admit(uint8_t *table, size_t table_length, const uint8_t *block, size_t block_length, uint8_t verdict);

/* Works out the records of the block at a place from those of the blocks that it refers to, writes them as the place's
 * GT_PART_NUMBERS numbers of the buffer, and marks the place interpreted. No other number and no other byte changes. The
 * buffer may start with any content. The value is 0.
 *   2: the table is not in form;
 *   12: the record buffer is not of GT_RECORDS_NUMBERS numbers;
 *   13: the place is not below the table's count;
 *   14: it is interpreted already;
 *   15, value the lowest such place: it refers to a block that is not interpreted. */
gt_answer gt_interpret(uint8_t *table, size_t table_length, size_t place, uint16_t *records, size_t records_length);

/* Retires the block at place 0, so that a campaign can go on past GT_MAX_PLACES blocks: every other block and its
 * GT_PART_NUMBERS numbers of the buffer move down by one place, references to the retired block vanish, and the table keeps
 * that it has retired something. The numbers of the buffer from the new count on stay. Until it is admitted again, a block that
 * refers to the retired one is refused with 9. The value is 0.
 *   2: the table is not in form;
 *   12: the record buffer is not of GT_RECORDS_NUMBERS numbers;
 *   13: no block is held;
 *   29: place 0 can't be retired: it is not interpreted, or a held block that refers to it is not interpreted, or its site has
 *       no held, interpreted block of greater sequence number. */
gt_answer gt_retire(uint8_t *table, size_t table_length, uint16_t *records, size_t records_length);

/* Takes back the block at the last place, one that was admitted by mistake: its row becomes zero in every field, and the count
 * one less. No other byte changes, so straight after an admission the table is the one before it; after an arrival that let k
 * waiting blocks in, k + 1 calls give the table before it. Whether something has been retired stays, and a block that had
 * waited on a shelf does not return there. The same block may be admitted again. The value is 0.
 *   2: the table is not in form;
 *   32: no block is held;
 *   33: the last place is interpreted. */
gt_answer gt_take_back(uint8_t *table, size_t table_length);

/* The sites with two held blocks of one sequence number; a retired block is not held. The table is only read.
 *   2: the table is not in form. */
gt_forked_sites gt_forks(const uint8_t *table, size_t table_length);

/* All held blocks that the block at a place rests on: those that it refers to, and theirs; itself left out. The table is
 * only read.
 *   2: the table is not in form;
 *   13: the place is not below the table's count. */
gt_ancestor_places gt_ancestors(const uint8_t *table, size_t table_length, size_t place);

/* Writes a site's next block to the front of the output; the value is its length, at most GT_MAX_BLOCK_BYTES. Its sequence
 * number is one more than the site's greatest, 0 if the site has no held block. It refers to the site's greatest block
 * first, then in place order to every block of another site that no held block of the site refers to directly, up to 16 in
 * all. The requests, 3 bytes each, are copied as given. Bytes after the block stay, and the table is only read.
 *   2: the table is not in form;
 *   4: the site is not below n;
 *   3: the request list is over GT_MAX_REQUEST_LIST_BYTES or no multiple of 3;
 *   6, value the index of the first such request: a slot over 7, or number 0;
 *   18, value the index of the first such request: a slot equal to an earlier one in the list;
 *   16: two held blocks of the site share a sequence number;
 *   30: the site's greatest sequence number is 65,535, and no number follows;
 *   17, value the length needed: the output is shorter than the block. */
gt_answer gt_build(const uint8_t *table, size_t table_length, uint8_t site, const uint8_t *requests, size_t requests_length,
                   uint8_t *output, size_t output_length);

/* Runs an encoded list of calls, one after the other, as if gt_admit, gt_interpret, gt_retire and gt_take_back had been called,
 * and gives how many ran. A call is
 *   0, verdict, length of the block (8 bytes, low byte first), the block's bytes: an admission;
 *   1, place (8 bytes, low byte first): an interpretation;
 *   2: a retiring; or
 *   3: a taking back.
 * A call that is cut, or that begins with another byte, ends the list. The answer of call i is put at answers[2 * i]
 * (refusal) and answers[2 * i + 1] (value) where both are within the buffer; all other elements stay. It refuses nothing. */
size_t gt_replay(uint8_t *table, size_t table_length, uint16_t *records, size_t records_length, const uint8_t *calls,
                 size_t calls_length, uint64_t *answers, size_t answers_length);

/* Whether the bytes are a shelf in form. A buffer of another length than GT_SHELF_BYTES isn't. */
bool gt_shelf_in_form(const uint8_t *shelf, size_t shelf_length);

/* A block arrives for a campaign, 0 to 3, whose own table is lent; the shelf is the one that all campaigns of a controller
 * share. The block is admitted as by gt_admit; if a block that it refers to is not held (9), it waits on the shelf instead of
 * being lost. After an admission the campaign's waiting blocks are tried in passes, in the order in which they came, each as
 * by gt_admit with verdict 1, until a pass lets none in; one that is refused by another number than 9 is dropped.
 *
 * `ended` is how many waiting blocks were let in or dropped, at most GT_SHELF_MOST. Outcome i of these, in the order tried, is
 * put at outcomes[2 * i] and outcomes[2 * i + 1]: 0 and the place of a block that was let in, or the number and 0 of one that
 * was dropped. All other elements stay. An arrival that is refused ends none.
 *   21: the campaign is above 3;
 *   17, value GT_OUTCOMES_NUMBERS: the outcomes have room for fewer numbers than that;
 *   2: the shelf is not in form, or the table;
 *   3 to 6, 18, 7, 8: as gt_admit;
 *   20: a reference is not held, and the same bytes wait for this campaign already;
 *   19: a reference is not held, and the shelf has no place for the campaign: it holds GT_SHELF_MOST, or the free places would no
 *       longer cover what the other campaigns lack of their GT_SHELF_RESERVED. One that holds fewer than these never gets 19;
 *   9, value the index of the first such reference: a reference is not held, and the block waits now;
 *   10, 11: as gt_admit.
 * By a 9 the shelf changes and nothing else; by every other refusal nothing does. */
gt_arrival gt_arrive(uint8_t *table, size_t table_length, uint8_t *shelf, size_t shelf_length, uint8_t campaign,
                     const uint8_t *block, size_t block_length, uint8_t verdict, uint64_t *outcomes, size_t outcomes_length);

/* Joins two controllers: makes the left's table that of both. The left's places come first, then the right's blocks that are
 * not in the left, in their order, with their references at the places where those blocks now stand. A block that either side
 * has interpreted is interpreted in the result, and its GT_PART_NUMBERS numbers are copied to the place's part of the third
 * buffer: the left's where the left has interpreted it, else the right's. All other numbers of the third buffer stay. The value
 * is how many blocks the result holds. The right's table and the two sides' records are only read.
 *   2: the left's table is not in form, or the right's;
 *   12: one of the three record buffers is not of GT_RECORDS_NUMBERS numbers;
 *   31: the left's table has retired something, or the right's;
 *   23: the setups differ: n or an owner;
 *   24, value the lowest such place of the left: a block of the right has the same digest and another site, sequence number,
 *       counted request or other references;
 *   25: the result would hold more than GT_MAX_PLACES blocks.
 * The left's table and the third buffer stay as they were when the call refuses. */
gt_answer gt_join(uint8_t *left, size_t left_length, const uint8_t *right, size_t right_length, const uint16_t *left_records,
                  size_t left_records_length, const uint16_t *right_records, size_t right_records_length, uint16_t *third,
                  size_t third_length);

#ifdef __cplusplus
}
#endif

#endif
