/* What the files of the baseline share among themselves. */
#ifndef BASELINE_INNER_H
#define BASELINE_INNER_H

#include <string.h>

#include "core.h"

static inline baseline_answer answer(uint8_t refusal, size_t value)
{
    return (baseline_answer){.refusal = refusal, .value = value};
}

static inline bool same_digest(const baseline_digest *x, const baseline_digest *y)
{
    return x->words[0] == y->words[0] && memcmp(x, y, sizeof *x) == 0;
}

/* Without a branch for each byte, so that a compiler may look at many at once. */
static inline bool all_zero(const void *bytes, size_t length)
{
    uint8_t any = 0;

    for (size_t i = 0; i < length; i++)
        any |= ((const uint8_t *)bytes)[i];
    return any == 0;
}

/* The lowest place of a set that isn't empty, and the set without it. */
static inline size_t lowest(uint64_t places) { return (size_t)__builtin_ctzll(places); }
static inline uint64_t without_lowest(uint64_t places) { return places & (places - 1); }

static inline bool is_parent(const baseline_row *candidate, uint8_t site, uint16_t sequence)
{
    return candidate->site == site && candidate->sequence + 1 == sequence;
}

/* The place of a digest; the count where it isn't held. */
static inline size_t place_of(const baseline_table *table, const baseline_digest *digest)
{
    size_t place = 0;

    while (place < table->count && !same_digest(&table->rows[place].digest, digest))
        place++;
    return place;
}

/* A block's fields; the references are copied out, so that they can be compared by words. */
typedef struct {
    uint16_t sequence;
    uint8_t site;
    uint8_t references;
    uint8_t requests;
    const uint8_t *request_bytes;
    baseline_digest reference[MAX_REFERENCES];
} baseline_block;

/* Check 3: whether the bytes have a block's shape; only then the fields are read. */
bool baseline_read(const uint8_t *bytes, size_t length, baseline_block *block);
/* Checks 6, 18 and 7, in this order. */
baseline_answer baseline_check_lists(const baseline_block *block);

baseline_digest baseline_digest_of(const uint8_t *bytes, size_t length);
/* Checks 8 to 11 for a block that the reader accepts and a table in form, then the block stands at the next place. */
baseline_answer baseline_hold(baseline_table *table, const baseline_block *block, const baseline_digest *digest);

#endif
