/* Painted stacks. */
#define _POSIX_C_SOURCE 200809L /* a thread with a stack of its own */

#include "painted.h"

#include <pthread.h>
#include <stdint.h>
#include <string.h>

#include "expect.h"

enum { STACK_BYTES = 1 << 16 };

static _Alignas(4096) uint8_t stack[STACK_BYTES];
static uint8_t *frame; /* of the caller */

typedef struct {
    painted_call call;
    const void *context;
} painted_run;

static void *run(void *argument)
{
    const painted_run *of = argument;

    frame = __builtin_frame_address(0);
    return of->call(of->context) ? argument : NULL;
}

static void run_on_painted_stack(painted_run *of)
{
    pthread_attr_t attributes;
    pthread_t thread;
    void *answer = NULL;

    pthread_attr_init(&attributes);
    expect(pthread_attr_setstack(&attributes, stack, sizeof stack) == 0, "no stack of its own");
    expect(pthread_create(&thread, &attributes, run, of) == 0, "no thread");
    pthread_join(thread, &answer);
    pthread_attr_destroy(&attributes);
    expect(answer != NULL, "a call was answered otherwise than expected");
}

static size_t depth_in(uint8_t colour, painted_run *of)
{
    size_t untouched = 0;

    memset(stack, colour, sizeof stack);
    run_on_painted_stack(of);
    while (untouched < sizeof stack && stack[untouched] == colour)
        untouched++;
    return (size_t)(frame - (stack + untouched));
}

size_t depth_of(painted_call call, void (*prepare)(const void *context), const void *context)
{
    static const uint8_t colours[] = {0xa5, 0x5a};
    painted_run of = {call, context};
    size_t deepest = 0;

    for (size_t i = 0; i < sizeof colours; i++) {
        prepare(context);
        size_t depth = depth_in(colours[i], &of);
        deepest = depth > deepest ? depth : deepest;
    }
    return deepest;
}
