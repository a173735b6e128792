/* Speed of the proved SHA-256 against the baseline's: a table of four message lengths, of which one is the longest block's.
 * It prints what it measures and judges no speed. A difference between two digests ends it with status 1. */
#include <stdio.h>
#include <string.h>

#include "expect.h"
#include "implementations.h"
#include "timing.h"

enum { MOST_BYTES = 1 << 20, BATCH_BYTES = 4 << 20 };

static uint8_t message[MOST_BYTES];

/* The padding counts too, so that the batches of all lengths take about as long. */
static size_t calls_for(size_t length) { return BATCH_BYTES / (length + 64) + 1; }

static void digest_often(size_t kind, const void *context)
{
    size_t length = *(const size_t *)context, calls = calls_for(length);
    uint8_t digest[GT_DIGEST_BYTES];

    for (size_t i = 0; i < calls; i++)
        implementations[kind].digest(message, length, digest);
}

static void expect_same_digest(size_t length)
{
    uint8_t ours[GT_DIGEST_BYTES], other[GT_DIGEST_BYTES];

    implementations[OURS].digest(message, length, ours);
    implementations[IN_C].digest(message, length, other);
    expect(memcmp(ours, other, GT_DIGEST_BYTES) == 0, "two digests of one message differ");
}

static void compare_length(size_t length)
{
    double megabytes = (double)length * (double)calls_for(length) / 1e6;
    timing timings[COMPARED];

    expect_same_digest(length);
    time_in_turn(COMPARED, timings, digest_often, &length);
    printf("%13zu", length);
    for (size_t kind = 0; kind < COMPARED; kind++)
        printf(" %10.2f", megabytes / median_seconds(&timings[kind]));
    print_ratio(&timings[IN_C], &timings[OURS]);
    puts("");
}

int main(void)
{
    static const size_t lengths[] = {64, GT_MAX_BLOCK_BYTES, 4096, MOST_BYTES};

    for (size_t i = 0; i < MOST_BYTES; i++)
        message[i] = (uint8_t)(i * 131 + (i >> 8));

    puts("SHA-256: the proved one (ours) against portable C.");
    printf("Measured in CPU time: medians of %d repetitions, each a batch of about %d MiB of each in turn, after a batch of\n",
           REPETITIONS, BATCH_BYTES >> 20);
    puts("each to warm up. The message buffer is filled once before timing and not cleared between runs. A MB is 1,000,000");
    puts("bytes of message, the padding not counted. The last column is C's time over ours, the median of the repetitions'");
    puts("ratios: above 1 ours is the faster one.");
    puts("");
    puts("message bytes  ours MB/s     C MB/s     C/ours");
    for (size_t i = 0; i < sizeof lengths / sizeof *lengths; i++)
        compare_length(lengths[i]);
    return 0;
}
