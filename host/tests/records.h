/* Record buffers, and interpretation, as the programs need them that call the core at the edges of what it takes. */
#ifndef RECORDS_H
#define RECORDS_H

#include "campaigns.h"
#include "giangotum_core.h"
#include "lent.h"

#include <string.h>

/* Where the four entries of a record stand that say what its block made: SEND, ECHO, READY and delivery. */
enum { MADE = 36 };

typedef struct {
    uint16_t numbers[GT_RECORDS_NUMBERS + 1]; /* room for a buffer that is too long */
} buffer;

static inline buffer of_number(uint16_t number)
{
    buffer b;

    for (size_t i = 0; i < sizeof b.numbers / sizeof b.numbers[0]; i++)
        b.numbers[i] = number;
    return b;
}

static inline bool same_numbers(const buffer *x, const buffer *y)
{
    return memcmp(x->numbers, y->numbers, sizeof x->numbers) == 0;
}

static inline uint16_t *record_of(buffer *b, size_t place, size_t slot)
{
    return b->numbers + GT_PART_NUMBERS * place + GT_RECORD_NUMBERS * slot;
}

static inline bool made(buffer *b, size_t place, size_t slot, uint16_t send, uint16_t echo, uint16_t ready, uint16_t delivery)
{
    return memcmp(record_of(b, place, slot) + MADE, (uint16_t[]){send, echo, ready, delivery}, 8) == 0;
}

/* ---- Interpretation, on exact copies. What a call left is put back. */

static inline gt_answer interpret_of_length(table *t, size_t table_length, size_t place, buffer *b, size_t count)
{
    uint8_t *lent_table = exact_copy(t->bytes, table_length);
    uint16_t *lent_records = exact_copy(b->numbers, 2 * count);
    gt_answer answer = gt_interpret(lent_table, table_length, place, lent_records, count);

    take_over(t->bytes, lent_table, table_length);
    take_over(b->numbers, lent_records, 2 * count);
    return answer;
}

static inline gt_answer interpret(table *t, size_t place, buffer *b)
{
    return interpret_of_length(t, GT_TABLE_BYTES, place, b, GT_RECORDS_NUMBERS);
}

#endif
