/* Lists of calls, as gt_replay takes them. */
#ifndef LISTS_H
#define LISTS_H

#include "campaigns.h"
#include "lent.h"
#include "records.h"

typedef struct {
    uint8_t bytes[8192];
    size_t length;
} list;

static inline void put_word(list *l, uint64_t word)
{
    for (int i = 0; i < 8; i++)
        l->bytes[l->length++] = (uint8_t)(word >> 8 * i);
}

static inline void put_admission(list *l, block b, uint8_t verdict)
{
    l->bytes[l->length++] = 0;
    l->bytes[l->length++] = verdict;
    put_word(l, b.length);
    memcpy(l->bytes + l->length, b.bytes, b.length);
    l->length += b.length;
}

static inline void put_interpretation(list *l, uint64_t place)
{
    l->bytes[l->length++] = 1;
    put_word(l, place);
}

static inline void put_retiring(list *l) { l->bytes[l->length++] = 2; }

static inline void put_taking_back(list *l) { l->bytes[l->length++] = 3; }

/* Replays the first bytes of a list, on exact copies, and gives how many calls ran. What the calls left is put back. */
static inline size_t replay(table *t, buffer *b, const list *l, size_t length, uint64_t *answers, size_t answers_length)
{
    uint8_t *lent_table = exact_copy(t->bytes, GT_TABLE_BYTES), *lent_calls = exact_copy(l->bytes, length);
    uint16_t *lent_records = exact_copy(b->numbers, 2 * GT_RECORDS_NUMBERS);
    uint64_t *lent_answers = exact_copy(answers, 8 * answers_length);
    size_t ran = gt_replay(lent_table, GT_TABLE_BYTES, lent_records, GT_RECORDS_NUMBERS, lent_calls, length, lent_answers,
                           answers_length);

    give_back(lent_calls, l->bytes, length);
    take_over(t->bytes, lent_table, GT_TABLE_BYTES);
    take_over(b->numbers, lent_records, 2 * GT_RECORDS_NUMBERS);
    take_over(answers, lent_answers, 8 * answers_length);
    return ran;
}

#endif
