/* How deep a call's stack is, by painting. */
#ifndef PAINTED_H
#define PAINTED_H

#include <stdbool.h>
#include <stddef.h>

/* Makes a call and says whether it was answered as expected. */
typedef bool (*painted_call)(const void *context);

/* How many bytes below its caller's frame the call wrote the stack. The call runs on a stack of its own that was filled
 * with one colour before; the depth is where that colour still stands. It runs twice, in two colours, so that a byte that
 * is written in the colour of the paint counts too; `prepare` runs before each. Ending the thread takes some bytes as
 * well: no call comes out below that. */
size_t depth_of(painted_call call, void (*prepare)(const void *context), const void *context);

#endif
