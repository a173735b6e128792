/* What the baseline in C has of its own, in the library's form: its answers, and its table in the layout of docs/FORMATS.md.
 * Any bytes are a table, in form or not. */
#ifndef LAYOUT_H
#define LAYOUT_H

#include "baseline/core.h"
#include "giangotum_core.h"

static inline gt_answer from_c(baseline_answer answer) { return (gt_answer){answer.refusal, answer.value}; }

void put_table(baseline_table *table, const uint8_t bytes[GT_TABLE_BYTES]);
void see_table(const baseline_table *table, uint8_t bytes[GT_TABLE_BYTES]);

#endif
