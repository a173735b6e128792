/* The empty table, and the rules of form. */
#include "inner.h"

static bool lawful(uint8_t sites, const uint8_t owners[SLOTS])
{
    if (sites == 0 || sites > MAX_SITES || sites % 3 != 1)
        return false;
    for (size_t slot = 0; slot < SLOTS; slot++)
        if (owners[slot] >= sites)
            return false;
    return true;
}

baseline_answer baseline_fresh(baseline_table *table, uint8_t sites, const uint8_t owners[SLOTS])
{
    memset(table, 0, sizeof *table);
    if (!lawful(sites, owners))
        return answer(NOT_LAWFUL, 0);
    table->sites = sites;
    memcpy(table->owners, owners, SLOTS);
    return answer(NONE, 0);
}

static bool held_below(const baseline_table *table, size_t place)
{
    for (size_t lower = 0; lower < place; lower++)
        if (same_digest(&table->rows[lower].digest, &table->rows[place].digest))
            return true;
    return false;
}

/* The rules on the set of references, which has only lower places. */
static bool references_in_form(const baseline_table *table, const baseline_row *row)
{
    size_t references = 0, parents = 0, uninterpreted = 0;

    for (uint64_t rest = row->references; rest != 0; rest = without_lowest(rest)) {
        const baseline_row *referred = &table->rows[lowest(rest)];
        references++;
        parents += is_parent(referred, row->site, row->sequence);
        uninterpreted += !referred->interpreted;
    }
    bool parent = row->sequence == 0 || parents == 1 || (table->retired && row->interpreted && parents == 0);
    return references <= MAX_REFERENCES && parent && (!row->interpreted || uninterpreted == 0);
}

static bool row_in_form(const baseline_table *table, size_t place)
{
    const baseline_row *row = &table->rows[place];

    return row->site < table->sites && row->interpreted <= 1 && row->references >> place == 0 && references_in_form(table, row)
        && !held_below(table, place);
}

bool baseline_in_form(const baseline_table *table)
{
    size_t count = table->count;

    if (!lawful(table->sites, table->owners) || table->retired > 1 || count > PLACES)
        return false;
    for (size_t place = 0; place < count; place++)
        if (!row_in_form(table, place))
            return false;
    return all_zero(table->rows + count, (PLACES - count) * sizeof *table->rows);
}
