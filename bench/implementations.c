/* The two behind one face. */
#include "implementations.h"

#include "layout.h"

/* ---- The proved one */

static uint8_t our_table[GT_TABLE_BYTES];
static uint16_t our_records[GT_RECORDS_NUMBERS];

static void our_digest(const uint8_t *message, size_t length, uint8_t digest[GT_DIGEST_BYTES])
{
    gt_digest(message, length, digest, GT_DIGEST_BYTES);
}

static gt_answer our_fresh(uint8_t sites, const uint8_t owners[GT_SLOTS])
{
    return gt_fresh(sites, owners, GT_SLOTS, our_table, sizeof our_table);
}

static bool our_in_form(void) { return gt_in_form(our_table, sizeof our_table); }

static gt_answer our_admit(const uint8_t *block, size_t length, uint8_t verdict)
{
    return gt_admit(our_table, sizeof our_table, block, length, verdict);
}

static gt_answer our_interpret(size_t place)
{
    return gt_interpret(our_table, sizeof our_table, place, our_records, GT_RECORDS_NUMBERS);
}

static gt_answer our_retire(void) { return gt_retire(our_table, sizeof our_table, our_records, GT_RECORDS_NUMBERS); }

static gt_answer our_take_back(void) { return gt_take_back(our_table, sizeof our_table); }

/* ---- The one in C */

static baseline_table c_table;
static uint16_t c_records[RECORDS_NUMBERS];

static gt_answer c_fresh(uint8_t sites, const uint8_t owners[GT_SLOTS])
{
    return from_c(baseline_fresh(&c_table, sites, owners));
}

static bool c_in_form(void) { return baseline_in_form(&c_table); }

static gt_answer c_admit(const uint8_t *block, size_t length, uint8_t verdict)
{
    return from_c(baseline_admit(&c_table, block, length, verdict));
}

static gt_answer c_interpret(size_t place) { return from_c(baseline_interpret(&c_table, place, c_records, RECORDS_NUMBERS)); }

static gt_answer c_retire(void) { return from_c(baseline_retire(&c_table, c_records, RECORDS_NUMBERS)); }

static gt_answer c_take_back(void) { return from_c(baseline_take_back(&c_table)); }

const implementation implementations[COMPARED] = {
    [OURS] = {"ours", our_digest, our_fresh, our_in_form, our_admit, our_interpret, our_retire, our_take_back, our_records},
    [IN_C] = {"C", baseline_sha256, c_fresh, c_in_form, c_admit, c_interpret, c_retire, c_take_back, c_records},
};
