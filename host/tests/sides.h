/* A controller's table and records, and tables that have retired something or have interpreted places. */
#ifndef SIDES_H
#define SIDES_H

#include "campaigns.h"
#include "lent.h"
#include "records.h"

/* What a record buffer has where nothing was written. */
enum { UNTOUCHED = 99 };

typedef struct {
    table table;
    buffer records;
} side;

static inline side fresh_side(uint8_t sites) { return (side){empty_table(sites), of_number(UNTOUCHED)}; }

static inline bool same_side(const side *x, const side *y)
{
    return same(&x->table, &y->table) && same_numbers(&x->records, &y->records);
}

/* A block is admitted at this place and interpreted. */
static inline bool hold(side *s, block b, size_t place)
{
    return is(admit(&s->table, b), 0, place) && is(interpret(&s->table, place, &s->records), 0, 0);
}

/* ---- Retirings, on exact copies. What a call left is put back. */

static inline gt_answer retire_of_lengths(side *s, size_t bytes, size_t numbers)
{
    uint8_t *lent_table = exact_copy(s->table.bytes, bytes);
    uint16_t *lent_records = exact_copy(s->records.numbers, 2 * numbers);
    gt_answer answer = gt_retire(lent_table, bytes, lent_records, numbers);

    take_over(s->table.bytes, lent_table, bytes);
    take_over(s->records.numbers, lent_records, 2 * numbers);
    return answer;
}

static inline gt_answer retire(side *s) { return retire_of_lengths(s, GT_TABLE_BYTES, GT_RECORDS_NUMBERS); }

/* ---- Tables */

static inline table having_retired(table t, uint8_t whether)
{
    t.bytes[RETIRED] = whether;
    return t;
}

/* These places are interpreted, and no others. */
static inline table interpreted(table t, uint64_t places)
{
    for (size_t place = 0; place < GT_MAX_PLACES; place++)
        row(&t, place)[MARK] = (uint8_t)(places >> place & 1);
    return t;
}

/* All places that hold a block are interpreted. */
static inline table whole(table t)
{
    return interpreted(t, t.bytes[COUNT] == 64 ? UINT64_MAX : ((uint64_t)1 << t.bytes[COUNT]) - 1);
}

/* ---- A fork: another block of site 0 with sequence number 0 */

static inline block twin_block(void) { return with_request(block_of(0, 0), 3, 7); }

#endif
