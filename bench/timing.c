/* CPU time, medians, and columns of them. */
#define _POSIX_C_SOURCE 200809L /* clock_gettime */

#include "timing.h"

#include <stdio.h>
#include <stdlib.h>
#include <time.h>

static double cpu_seconds(void)
{
    struct timespec now;

    clock_gettime(CLOCK_PROCESS_CPUTIME_ID, &now);
    return (double)now.tv_sec + 1e-9 * (double)now.tv_nsec;
}

double seconds_of(batch run, size_t kind, const void *context)
{
    double start = cpu_seconds();

    run(kind, context);
    return cpu_seconds() - start;
}

void time_in_turn(size_t kinds, timing timings[], batch run, const void *context)
{
    for (size_t kind = 0; kind < kinds; kind++)
        run(kind, context);
    for (size_t i = 0; i < REPETITIONS; i++)
        for (size_t kind = 0; kind < kinds; kind++)
            timings[kind].seconds[i] = seconds_of(run, kind, context);
}

static int by_size(const void *x, const void *y)
{
    double a = *(const double *)x, b = *(const double *)y;

    return (a > b) - (a < b);
}

/* Sorts a copy. */
static double median(timing values)
{
    qsort(values.seconds, REPETITIONS, sizeof *values.seconds, by_size);
    return values.seconds[REPETITIONS / 2];
}

double median_seconds(const timing *x) { return median(*x); }

double median_ratio(const timing *x, const timing *y)
{
    timing ratios;

    for (size_t i = 0; i < REPETITIONS; i++)
        ratios.seconds[i] = x->seconds[i] / y->seconds[i];
    return median(ratios);
}

void print_microseconds(size_t kinds, const timing timings[], size_t runs)
{
    for (size_t kind = 0; kind < kinds; kind++)
        printf(" %10.2f", 1e6 * median_seconds(&timings[kind]) / (double)runs);
}

void print_ratio(const timing *x, const timing *y) { printf(" %10.2f", median_ratio(x, y)); }
