/* The core of document 01 in plain C, unproved, with the shelf that up to four campaigns share, the join of two tables,
 * retiring and taking back: what the proved library is measured against. It shares nothing with the library: not the layout of
 * the table or the shelf, not SHA-256.
 *
 * A caller lends a table, a record buffer and a shelf, as with the library. The form check stands at the start of every
 * call on a table, since document 01 asks for it there, and that of the shelf at the start of every arrival. */
#ifndef BASELINE_CORE_H
#define BASELINE_CORE_H

#include <stdbool.h>
#include <stddef.h>
#include <stdint.h>

enum {
    DIGEST_BYTES = 32,
    HEAD_BYTES = 5, /* of a block, before its two lists */
    REQUEST_BYTES = 3,
    MAX_SITES = 16,
    SLOTS = 8,
    PLACES = 64,
    MAX_REFERENCES = 16,
    MAX_REQUESTS = 5,
    MAX_BLOCK_BYTES = HEAD_BYTES + DIGEST_BYTES * MAX_REFERENCES + REQUEST_BYTES * MAX_REQUESTS,
    RECORD_NUMBERS = 40,
    PART_NUMBERS = SLOTS * RECORD_NUMBERS, /* of a place */
    RECORDS_NUMBERS = PLACES * PART_NUMBERS,
    CAMPAIGNS = 4,
    SHELF_PLACES = 16,
    RESERVED_PLACES = 2, /* of the shelf: a campaign may always hold these */
    MOST_PLACES = 10     /* and never more than these */
};

/* The refusal numbers. */
enum {
    NONE = 0,
    NOT_LAWFUL = 1,
    NOT_IN_FORM = 2,
    NO_BLOCK = 3,
    NO_SITE = 4,
    BAD_VERDICT = 5,
    BAD_REQUEST = 6,
    REPEATED_REFERENCE = 7,
    DIGEST_HELD = 8,
    NOT_HELD = 9,
    NO_PARENT = 10,
    FULL = 11,
    WRONG_RECORDS = 12,
    NO_PLACE = 13,
    INTERPRETED = 14,
    NOT_INTERPRETED = 15,
    REPEATED_SLOT = 18,
    NO_SHELF_PLACE = 19,
    WAITS_ALREADY = 20,
    NO_CAMPAIGN = 21,
    OTHER_SETUP = 23,
    OTHER_BLOCK = 24,
    TOO_MANY = 25,
    NOT_TO_RETIRE = 29,
    HAS_RETIRED = 31,
    NOTHING_HELD = 32,
    LAST_INTERPRETED = 33
};

typedef struct {
    uint8_t refusal;
    size_t value;
} baseline_answer;

/* In words, so that a comparison mostly ends after one. */
typedef struct {
    uint64_t words[4];
} baseline_digest;

/* What a table has of one block. */
typedef struct {
    baseline_digest digest;
    uint64_t references; /* bit i: the block refers to place i */
    uint16_t requests[SLOTS];
    uint16_t sequence;
    uint8_t site;
    uint8_t interpreted; /* 0 or 1 */
} baseline_row;

typedef struct {
    baseline_row rows[PLACES];
    uint8_t owners[SLOTS];
    uint8_t sites;
    uint8_t retired; /* 1 if a block was retired, else 0 */
    uint8_t count;
} baseline_table;

/* A waiting block and its campaign. The bytes behind the block are zero. */
typedef struct {
    uint16_t length;
    uint8_t campaign;
    uint8_t bytes[MAX_BLOCK_BYTES];
} baseline_waiting;

/* The waiting blocks in the order in which they came. Entries from the count on are zero. */
typedef struct {
    baseline_waiting waiting[SHELF_PLACES];
    uint8_t count;
} baseline_shelf;

/* What an arrival is answered, and for each waiting block that it ended, in the order tried: refusal 0 and the place of one
 * that was let in, or the refusal of one that was dropped. */
typedef struct {
    baseline_answer answer;
    size_t ended;
    baseline_answer outcomes[MOST_PLACES];
} baseline_arrival;

void baseline_sha256(const uint8_t *m, size_t n, uint8_t out[DIGEST_BYTES]);

/* Makes the empty table of a setup; all zero beside refusal 1. */
baseline_answer baseline_fresh(baseline_table *table, uint8_t sites, const uint8_t owners[SLOTS]);

bool baseline_in_form(const baseline_table *table);

/* Checks 2 to 6, 18 and 7 to 11, then the block stands at the next place; the value is that place. */
baseline_answer baseline_admit(baseline_table *table, const uint8_t *block, size_t length, uint8_t verdict);

/* Checks 2 and 12 to 15, then the place's numbers are written and the place is marked. */
baseline_answer baseline_interpret(baseline_table *table, size_t place, uint16_t *records, size_t numbers);

/* Checks 2, 12, 13 and 29, then the block at place 0 leaves, and all others with their parts move down by one place. */
baseline_answer baseline_retire(baseline_table *table, uint16_t *records, size_t numbers);

/* Checks 2, 32 and 33, then the block at the last place leaves. */
baseline_answer baseline_take_back(baseline_table *table);

bool baseline_shelf_in_form(const baseline_shelf *shelf);

/* Checks 21, 2 and those of an admission, where 9 becomes 20 or 19 if the block can't wait. Beside 9 it waits; after an
 * admission the campaign's waiting blocks are tried in passes. */
baseline_arrival baseline_arrive(baseline_table *table, baseline_shelf *shelf, uint8_t campaign, const uint8_t *block,
                                 size_t length, uint8_t verdict);

/* Records that a join reads. */
typedef struct {
    const uint16_t *records;
    size_t numbers;
} baseline_records;

/* Checks 2, 12, 31 and 23 to 25, then the right's blocks are in the left's table too; the value is how many it holds. The part of
 * each interpreted block is copied to the third buffer, the left's where the left interpreted it. */
baseline_answer baseline_join(baseline_table *left, const baseline_table *right, baseline_records of_left,
                              baseline_records of_right, uint16_t *third, size_t numbers);

#endif
