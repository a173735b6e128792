/* What the programs share that call the library at the edges of what it takes. */
#ifndef CHECKS_H
#define CHECKS_H

#include "giangotum.h"

#include <stdbool.h>
#include <stdio.h>
#include <stdlib.h>
#include <string.h>

static bool all_ok = true;

/* Writes a check's line. */
static inline void check(const char *name, bool ok)
{
    printf("%s: %s\n", name, ok ? "ok" : "FAILED");
    all_ok = all_ok && ok;
}

/* A check that is made for several numbers. */
static inline void check_with(const char *name, int number, bool ok)
{
    char whole[80];

    snprintf(whole, sizeof whole, "%s %d", name, number);
    check(whole, ok);
}

static inline bool is(gt_answer answer, uint8_t refusal, size_t value)
{
    return answer.refusal == refusal && answer.value == value;
}

/* The bytes in an allocation of their own length, so that valgrind sees an access past their end. */
static inline void *exact_copy(const void *bytes, size_t length)
{
    void *copy = calloc(length, 1); /* at length 0 a compiler would take malloc's as bytes that were never set */

    if (copy == NULL && length > 0) {
        fputs("no memory\n", stderr);
        exit(EXIT_FAILURE);
    }
    return length > 0 ? memcpy(copy, bytes, length) : copy;
}

#endif
