/* Admission. */
#include "inner.h"

baseline_digest baseline_digest_of(const uint8_t *bytes, size_t length)
{
    uint8_t digest_bytes[DIGEST_BYTES];
    baseline_digest digest;

    baseline_sha256(bytes, length, digest_bytes);
    memcpy(&digest, digest_bytes, sizeof digest);
    return digest;
}

/* The places of the block's references; the index of the first that isn't held beside refusal 9. */
static baseline_answer places_of(const baseline_table *table, const baseline_block *block, uint64_t *places)
{
    *places = 0;
    for (size_t i = 0; i < block->references; i++) {
        size_t place = place_of(table, &block->reference[i]);
        if (place == table->count)
            return answer(NOT_HELD, i);
        *places |= UINT64_C(1) << place;
    }
    return answer(NONE, 0);
}

static bool parent_rule_holds(const baseline_table *table, const baseline_block *block, uint64_t places)
{
    size_t parents = 0;

    for (uint64_t rest = places; rest != 0; rest = without_lowest(rest))
        parents += is_parent(&table->rows[lowest(rest)], block->site, block->sequence);
    return block->sequence == 0 || parents == 1;
}

static void note_requests(baseline_row *row, const baseline_block *block)
{
    for (size_t i = 0; i < block->requests; i++) {
        const uint8_t *request = block->request_bytes + REQUEST_BYTES * i;
        row->requests[request[0]] = (uint16_t)(request[1] << 8 | request[2]);
    }
}

static baseline_answer put(baseline_table *table, const baseline_block *block, const baseline_digest *digest, uint64_t places)
{
    baseline_row *row = &table->rows[table->count];

    row->digest = *digest;
    row->references = places;
    row->sequence = block->sequence;
    row->site = block->site;
    note_requests(row, block);
    return answer(NONE, table->count++);
}

baseline_answer baseline_hold(baseline_table *table, const baseline_block *block, const baseline_digest *digest)
{
    uint64_t places;
    size_t held = place_of(table, digest);

    if (held < table->count)
        return answer(DIGEST_HELD, held);
    baseline_answer references = places_of(table, block, &places);
    if (references.refusal != NONE)
        return references;
    if (!parent_rule_holds(table, block, places))
        return answer(NO_PARENT, 0);
    if (table->count == PLACES)
        return answer(FULL, 0);
    return put(table, block, digest, places);
}

baseline_answer baseline_admit(baseline_table *table, const uint8_t *bytes, size_t length, uint8_t verdict)
{
    baseline_block block;

    if (!baseline_in_form(table))
        return answer(NOT_IN_FORM, 0);
    if (!baseline_read(bytes, length, &block))
        return answer(NO_BLOCK, 0);
    if (block.site >= table->sites)
        return answer(NO_SITE, 0);
    if (verdict != 1)
        return answer(BAD_VERDICT, 0);
    baseline_answer lists = baseline_check_lists(&block);
    if (lists.refusal != NONE)
        return lists;
    baseline_digest digest = baseline_digest_of(bytes, length);
    return baseline_hold(table, &block, &digest);
}
