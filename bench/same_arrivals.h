/* That the two controllers answer alike. A difference ends the program. */
#ifndef SAME_ARRIVALS_H
#define SAME_ARRIVALS_H

#include "campaigns.h"
#include "controllers.h"

/* A block arrives at both. Answers, outcomes, the campaign's table and the shelf are compared; gives our answer. */
arrived arrive_at_both(uint8_t campaign, const built_block *block, uint8_t verdict);

/* Whether the shelf of both is in form. */
bool form_at_both(void);

/* Fresh tables of one setup for all campaigns, and an empty shelf. */
void start_both(uint8_t sites, const uint8_t owners[GT_SLOTS]);

/* So many arrivals for four campaigns: out of order, repeated, damaged, some for no campaign; with tables that are made
 * fresh, blocks that are admitted past the shelf, and shelves that were changed. Every refusal and every kind of drop must
 * come. */
void expect_same_arrivals_at_random(size_t arrivals);

#endif
