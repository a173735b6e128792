/* That the two join alike. A difference ends the program. */
#ifndef SAME_JOINS_H
#define SAME_JOINS_H

#include "joiners.h"

/* Both join a pair, with so many numbers of a third buffer. The answers, the left's tables and the third buffers are
 * compared; gives our answer. */
gt_answer join_at_both(const pair *of, size_t numbers);

/* So many pairs, with much, little and nothing in common, held and interpreted in any order; with rows, setups and lengths
 * that were changed. Every refusal must come, and a table that is just filled. */
void expect_same_joins_at_random(size_t pairs);

#endif
