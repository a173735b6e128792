/* A wrong answer ends a benchmark: its figures would be about something else. */
#ifndef EXPECT_H
#define EXPECT_H

#include <stdbool.h>
#include <stdio.h>
#include <stdlib.h>

static inline void expect(bool holds, const char *message)
{
    if (!holds) {
        puts(message);
        exit(EXIT_FAILURE);
    }
}

#endif
