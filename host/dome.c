/* The telescope dome's control program.
 *
 * Reads arrivals from standard input, each a length of two bytes (high byte first) and then that many bytes of a
 * block. Writes one line for each to standard output:
 *
 *   DIGEST site S seq Q references R requests T   a block that reads; R and T are lists, '-' where empty
 *   DIGEST refusal N [index I]                    a block that the reader refuses; 6, 18 and 7 have an index
 *   - refusal 3                                   no block: an over-long length, or the input ends inside the arrival
 *
 * Ends with exit status 0 at the input's end, and with 1 and a message if reading or writing fails.
 * What the bytes of a block mean is left to the library: no offset of the layout stands here.
 */
#define _POSIX_C_SOURCE 200809L /* SIGPIPE */

#include "giangotum.h"

#include <inttypes.h>
#include <signal.h>
#include <stdbool.h>
#include <stdio.h>
#include <stdlib.h>

/* Refusal numbers of docs/FORMATS.md. */
enum { WRONG_LENGTH = 3, BAD_REQUEST = 6, REPEATED_SLOT = 18, REPEATED_REFERENCE = 7 };

typedef enum {
    NO_ARRIVAL, /* the input had ended */
    NO_BLOCK,   /* over-long, or cut by the input's end */
    WHOLE_BLOCK
} arrival;

/* Skips this many bytes, or what is left of the input. */
static void skip(size_t length)
{
    uint8_t skipped[GT_MAX_BLOCK_BYTES];

    while (length > 0) {
        size_t part = length < sizeof skipped ? length : sizeof skipped;
        if (fread(skipped, 1, part, stdin) < part)
            return;
        length -= part;
    }
}

/* Takes the next arrival from the input. The block of a whole one goes to the buffer. */
static arrival receive(uint8_t block[GT_MAX_BLOCK_BYTES], size_t *length)
{
    uint8_t prefix[2];
    size_t got = fread(prefix, 1, sizeof prefix, stdin);

    if (got < sizeof prefix)
        return got == 0 ? NO_ARRIVAL : NO_BLOCK;
    *length = (size_t)prefix[0] << 8 | prefix[1];
    if (*length > GT_MAX_BLOCK_BYTES) {
        skip(*length);
        return NO_BLOCK;
    }
    return fread(block, 1, *length, stdin) == *length ? WHOLE_BLOCK : NO_BLOCK;
}

static void write_digest(const uint8_t digest[GT_DIGEST_BYTES])
{
    for (size_t i = 0; i < GT_DIGEST_BYTES; i++)
        printf("%02" PRIx8, digest[i]);
}

static void write_digest_of(const uint8_t *block, size_t length)
{
    uint8_t digest[GT_DIGEST_BYTES] = {0};

    /* Only a shorter output is refused. */
    (void)gt_digest(block, length, digest, sizeof digest);
    write_digest(digest);
}

/* Writes what stands before item `index` of a list. */
static void write_separator(size_t index)
{
    if (index > 0)
        putchar(',');
}

/* Here and below the block was read, and the indexes are below its counts: nothing is refused. */
static void write_references(const uint8_t *block, size_t length, size_t count)
{
    if (count == 0)
        putchar('-');
    for (size_t i = 0; i < count; i++) {
        uint8_t reference[GT_DIGEST_BYTES] = {0};
        (void)gt_reference(block, length, i, reference, sizeof reference);
        write_separator(i);
        write_digest(reference);
    }
}

static void write_requests(const uint8_t *block, size_t length, size_t count)
{
    if (count == 0)
        putchar('-');
    for (size_t i = 0; i < count; i++) {
        gt_requested request = gt_request(block, length, i);
        write_separator(i);
        printf("%" PRIu8 ":%" PRIu16, request.slot, request.number);
    }
}

static void write_fields(const uint8_t *block, size_t length, gt_fields fields)
{
    printf(" site %" PRIu8 " seq %" PRIu16 " references ", fields.site, fields.sequence);
    write_references(block, length, fields.references);
    printf(" requests ");
    write_requests(block, length, fields.requests);
}

static bool has_index(uint8_t refusal)
{
    return refusal == BAD_REQUEST || refusal == REPEATED_SLOT || refusal == REPEATED_REFERENCE;
}

static void write_refusal(gt_answer answer)
{
    printf(" refusal %" PRIu8, answer.refusal);
    if (has_index(answer.refusal))
        printf(" index %zu", answer.value);
}

/* Writes the line of a whole arrival. */
static void write_block_line(const uint8_t *block, size_t length)
{
    gt_reading reading = gt_read_block(block, length);

    write_digest_of(block, length);
    if (reading.answer.refusal == 0)
        write_fields(block, length, reading.fields);
    else
        write_refusal(reading.answer);
    putchar('\n');
}

/* Writes the line of an arrival whose block isn't there: no digest. */
static void write_no_block_line(void)
{
    putchar('-');
    write_refusal((gt_answer){.refusal = WRONG_LENGTH, .value = 0});
    putchar('\n');
}

/* Answers arrivals until the input ends or a stream fails. Bytes that a failed read left are no arrival. */
static void answer_arrivals(void)
{
    uint8_t block[GT_MAX_BLOCK_BYTES];
    size_t length = 0;

    while (!feof(stdin) && !ferror(stdout)) {
        arrival next = receive(block, &length);
        if (next == NO_ARRIVAL || ferror(stdin))
            return;
        if (next == WHOLE_BLOCK)
            write_block_line(block, length);
        else
            write_no_block_line();
    }
}

/* Lends the streams fixed buffers, so that they take no dynamic memory, and has each line written as it ends.
 * A reader of our output that went away is a failed write like any other. */
static void prepare_streams(void)
{
    static char input[BUFSIZ], output[BUFSIZ];

    setvbuf(stdin, input, _IOFBF, sizeof input);
    setvbuf(stdout, output, _IOLBF, sizeof output);
    signal(SIGPIPE, SIG_IGN);
}

/* Whether every byte was read and every line written; says what failed. */
static bool streams_are_well(void)
{
    bool written = fflush(stdout) == 0 && !ferror(stdout);
    bool read = !ferror(stdin);

    if (!read)
        fputs("giangotum-dome: cannot read standard input\n", stderr);
    if (!written)
        fputs("giangotum-dome: cannot write standard output\n", stderr);
    return read && written;
}

int main(void)
{
    prepare_streams();
    answer_arrivals();
    return streams_are_well() ? EXIT_SUCCESS : EXIT_FAILURE;
}
