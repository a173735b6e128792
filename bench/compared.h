/* What a benchmark compares: the proved library and the baseline in C. */
#ifndef COMPARED_H
#define COMPARED_H

#include "giangotum_core.h"

enum { OURS, IN_C, COMPARED };

static inline bool alike(gt_answer x, gt_answer y) { return x.refusal == y.refusal && x.value == y.value; }

#endif
