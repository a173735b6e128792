/* The ends of loans: of bytes that a call may only read, and of those that it may change. */
#ifndef LENT_H
#define LENT_H

#include <stdbool.h>
#include <stdlib.h>
#include <string.h>

/* Whether all bytes that may only be read stayed as they were. */
static bool only_read = true;

/* Ends the loan of bytes that may only be read. */
static inline void give_back(void *lent, const void *bytes, size_t length)
{
    only_read = only_read && (length == 0 || memcmp(lent, bytes, length) == 0);
    free(lent);
}

/* Ends the loan of bytes that may have changed, and takes over what they are now. */
static inline void take_over(void *to, void *lent, size_t length)
{
    if (length > 0)
        memcpy(to, lent, length);
    free(lent);
}

#endif
