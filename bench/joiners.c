/* The two behind one face. */
#include "joiners.h"

#include <string.h>

#include "layout.h"

/* ---- The proved one */

static uint8_t our_left[GT_TABLE_BYTES];

/* Its tables are the pair's. */
static void our_take(const pair *of) { (void)of; }

static gt_answer our_join(const pair *of, uint16_t *third, size_t numbers)
{
    memcpy(our_left, of->left.table, GT_TABLE_BYTES);
    return gt_join(our_left, GT_TABLE_BYTES, of->right.table, GT_TABLE_BYTES, of->left.records, of->left.numbers,
                   of->right.records, of->right.numbers, third, numbers);
}

static void our_see(uint8_t table[GT_TABLE_BYTES]) { memcpy(table, our_left, GT_TABLE_BYTES); }

/* ---- The one in C */

static baseline_table c_left, c_kept_left, c_right;

static void c_take(const pair *of)
{
    put_table(&c_kept_left, of->left.table);
    put_table(&c_right, of->right.table);
}

static baseline_records records_of(const side *of) { return (baseline_records){of->records, of->numbers}; }

static gt_answer c_join(const pair *of, uint16_t *third, size_t numbers)
{
    c_left = c_kept_left;
    return from_c(baseline_join(&c_left, &c_right, records_of(&of->left), records_of(&of->right), third, numbers));
}

static void c_see(uint8_t table[GT_TABLE_BYTES]) { see_table(&c_left, table); }

const joiner joiners[COMPARED] = {
    [OURS] = {our_take, our_join, our_see},
    [IN_C] = {c_take, c_join, c_see},
};
