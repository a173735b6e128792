/* Blocks and tables, as the programs build them that call the core at the edges of what it takes. */
#ifndef CAMPAIGNS_H
#define CAMPAIGNS_H

#include "checks.h"
#include "giangotum_core.h"

/* Where the fields of a table stand, and those of a place within its row: the numbers of docs/FORMATS.md, not the header's. */
enum { OWNERS = 1, RETIRED = 9, COUNT = 10, ROWS = 11 };
enum { SITE = 32, SEQUENCE = 33, REFERENCES = 35, REQUESTS = 43, MARK = 59, ROW_BYTES = 60 };

/* ---- Blocks */

typedef struct {
    uint8_t bytes[GT_MAX_BLOCK_BYTES + GT_DIGEST_BYTES]; /* room for a reference too many */
    size_t length;
} block;

typedef struct {
    uint8_t bytes[GT_DIGEST_BYTES];
} digest;

static inline block block_of(uint8_t site, uint16_t sequence)
{
    return (block){.bytes = {site, (uint8_t)(sequence >> 8), (uint8_t)sequence}, .length = GT_HEADER_BYTES};
}

/* The block with a reference more; its references come before its requests. */
static inline block with_reference(block b, digest d)
{
    memcpy(b.bytes + b.length, d.bytes, GT_DIGEST_BYTES);
    b.length += GT_DIGEST_BYTES;
    b.bytes[3]++;
    return b;
}

static inline block with_request(block b, uint8_t slot, uint16_t number)
{
    memcpy(b.bytes + b.length, (uint8_t[]){slot, (uint8_t)(number >> 8), (uint8_t)number}, GT_REQUEST_BYTES);
    b.length += GT_REQUEST_BYTES;
    b.bytes[4]++;
    return b;
}

static inline block of_length(block b, size_t length)
{
    b.length = length;
    return b;
}

static inline digest digest_of(block b)
{
    digest d;

    gt_digest(b.bytes, b.length, d.bytes, sizeof d.bytes);
    return d;
}

static inline block referring_to(block b, block other) { return with_reference(b, digest_of(other)); }

/* A digest that no block here has: 32 times this byte. */
static inline digest not_held(uint8_t byte)
{
    digest d;

    memset(d.bytes, byte, sizeof d.bytes);
    return d;
}

/* A block with this many references, none of which is held, and this many requests, of slots from 0 on. */
static inline block block_with(uint8_t references, uint8_t requests)
{
    block b = block_of(2, 0);

    for (uint8_t i = 0; i < references; i++)
        b = with_reference(b, not_held(i));
    for (uint8_t i = 0; i < requests; i++)
        b = with_request(b, i, 1);
    return b;
}

/* ---- Tables */

typedef struct {
    uint8_t bytes[GT_TABLE_BYTES + 1]; /* room for a buffer that is too long */
} table;

static inline table filled_with(uint8_t byte)
{
    table t;

    memset(t.bytes, byte, sizeof t.bytes);
    return t;
}

static inline bool same(const table *x, const table *y) { return memcmp(x->bytes, y->bytes, sizeof x->bytes) == 0; }

static inline uint8_t *row(table *t, size_t place) { return t->bytes + ROWS + ROW_BYTES * place; }

static const uint8_t lawful[] = {1, 4, 7, 10, 13, 16};

/* Owners below n, the greatest among them. */
static const uint8_t *owners_for(uint8_t sites)
{
    static uint8_t owners[GT_SLOTS];

    for (uint8_t slot = 0; slot < GT_SLOTS; slot++)
        owners[slot] = sites > 0 ? (uint8_t)((sites - 1 + slot) % sites) : 0;
    return owners;
}

/* The empty table as the layout has it. */
static inline table empty_table(uint8_t sites)
{
    table t = filled_with(0);

    t.bytes[0] = sites;
    memcpy(t.bytes + OWNERS, owners_for(sites), GT_SLOTS);
    return t;
}

/* Puts at the next place what the layout has there for a block that refers to these places and has no request. */
static inline void put_row(table *t, block b, uint64_t places)
{
    uint8_t *r = row(t, t->bytes[COUNT]++);
    digest d = digest_of(b);

    memcpy(r, d.bytes, sizeof d.bytes);
    r[SITE] = b.bytes[0];
    r[SEQUENCE] = b.bytes[1];
    r[SEQUENCE + 1] = b.bytes[2];
    for (int i = 0; i < 8; i++)
        r[REFERENCES + i] = (uint8_t)(places >> 8 * i);
}

static inline void put_request(table *t, size_t place, uint8_t slot, uint8_t high, uint8_t low)
{
    memcpy(row(t, place) + REQUESTS + 2 * slot, (uint8_t[]){high, low}, 2);
}

static inline table with_row(table t, block b, uint64_t places)
{
    put_row(&t, b, places);
    return t;
}

/* ---- Chains of site 0, each block referring to the one before */

static inline block chain_block(uint16_t sequence)
{
    block b = block_of(0, sequence);

    return sequence == 0 ? b : referring_to(b, chain_block((uint16_t)(sequence - 1)));
}

/* The table that holds this many of them. */
static inline table chain(uint8_t sites, uint16_t blocks)
{
    table t = empty_table(sites);

    for (uint16_t i = 0; i < blocks; i++)
        put_row(&t, chain_block(i), i > 0 ? (uint64_t)1 << (i - 1) : 0);
    return t;
}

/* Document 01's chain, which a site alone makes: its first block requests 7 in slot 0. */
static inline block example_block(uint16_t sequence)
{
    block b = block_of(0, sequence);

    return sequence == 0 ? with_request(b, 0, 7) : referring_to(b, example_block((uint16_t)(sequence - 1)));
}

/* ---- Admission, on exact copies. What the call left in its copy of the table is put back. */

static inline gt_answer admit_of_length(table *t, size_t table_length, block b, uint8_t verdict)
{
    uint8_t *lent_table = exact_copy(t->bytes, table_length), *lent_block = exact_copy(b.bytes, b.length);
    gt_answer answer = gt_admit(lent_table, table_length, lent_block, b.length, verdict);

    memcpy(t->bytes, lent_table, table_length);
    free(lent_table);
    free(lent_block);
    return answer;
}

static inline gt_answer admit(table *t, block b) { return admit_of_length(t, GT_TABLE_BYTES, b, 1); }

#endif
