/* Blocks that leave a table: the oldest by retiring, the last by taking back. */
#include "inner.h"

/* Whether place 0 and all blocks that refer to it are interpreted, and its site has a later one that is. */
static bool may_leave(const baseline_table *table)
{
    const baseline_row *first = &table->rows[0];
    bool followed = false;

    if (!first->interpreted)
        return false;
    for (size_t place = 1; place < table->count; place++) {
        const baseline_row *row = &table->rows[place];
        if ((row->references & 1) != 0 && !row->interpreted)
            return false;
        followed |= row->site == first->site && row->interpreted && row->sequence > first->sequence;
    }
    return followed;
}

static void move_rows(baseline_table *table)
{
    table->count--;
    memmove(table->rows, table->rows + 1, table->count * sizeof *table->rows);
    memset(table->rows + table->count, 0, sizeof *table->rows);
    for (size_t place = 0; place < table->count; place++)
        table->rows[place].references >>= 1;
}

baseline_answer baseline_retire(baseline_table *table, uint16_t *records, size_t numbers)
{
    if (!baseline_in_form(table))
        return answer(NOT_IN_FORM, 0);
    if (numbers != RECORDS_NUMBERS)
        return answer(WRONG_RECORDS, 0);
    if (table->count == 0)
        return answer(NO_PLACE, 0);
    if (!may_leave(table))
        return answer(NOT_TO_RETIRE, 0);
    move_rows(table);
    memmove(records, records + PART_NUMBERS, table->count * PART_NUMBERS * sizeof *records);
    table->retired = 1;
    return answer(NONE, 0);
}

baseline_answer baseline_take_back(baseline_table *table)
{
    if (!baseline_in_form(table))
        return answer(NOT_IN_FORM, 0);
    if (table->count == 0)
        return answer(NOTHING_HELD, 0);
    if (table->rows[table->count - 1].interpreted)
        return answer(LAST_INTERPRETED, 0);
    table->count--;
    memset(table->rows + table->count, 0, sizeof *table->rows);
    return answer(NONE, 0);
}
