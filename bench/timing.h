/* How the benchmarks measure: CPU time, so that other programs on the machine count less; the kinds of a comparison in
 * turn, so that a slow phase of the machine meets all of them; and medians of repetitions, so that a single slow one
 * doesn't count at all. */
#ifndef TIMING_H
#define TIMING_H

#include <stddef.h>

enum { REPETITIONS = 31 };

/* What is measured of one kind: the seconds of its batch in each repetition. */
typedef struct {
    double seconds[REPETITIONS];
} timing;

/* Runs a batch of this kind. */
typedef void (*batch)(size_t kind, const void *context);

/* The CPU seconds that a batch takes. */
double seconds_of(batch run, size_t kind, const void *context);

/* Times a batch of each kind in turn, in every repetition, after a batch of each to warm up. */
void time_in_turn(size_t kinds, timing timings[], batch run, const void *context);

/* Medians over the repetitions: of the seconds, and of how many times x took as long as y. */
double median_seconds(const timing *x);
double median_ratio(const timing *x, const timing *y);

/* Columns of a row: for each of so many kinds the microseconds of one of so many runs of a batch; and that ratio. */
void print_microseconds(size_t kinds, const timing timings[], size_t runs);
void print_ratio(const timing *x, const timing *y);

#endif
