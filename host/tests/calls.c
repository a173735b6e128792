/* Calls the library at the edges of what it takes. Writes a line for each check, and ends with exit status 1 if one
 * fails. A block that is read lies in an allocation of its own length, so that valgrind sees a read past its end. */
#include "checks.h"
#include "giangotum.h"

#include <stdbool.h>
#include <stdlib.h>
#include <string.h>

#define MESSAGE ((const uint8_t *)"abc")
#define UNTOUCHED 0xa5

/* FIPS 180-2, appendix B.1: the digest of "abc". */
static const uint8_t abc_digest[GT_DIGEST_BYTES] = {
    0xba, 0x78, 0x16, 0xbf, 0x8f, 0x01, 0xcf, 0xea, 0x41, 0x41, 0x40, 0xde, 0x5d, 0xae, 0x22, 0x23,
    0xb0, 0x03, 0x61, 0xa3, 0x96, 0x17, 0x7a, 0x9c, 0xb4, 0x10, 0xff, 0x61, 0xf2, 0x00, 0x15, 0xad,
};

/* NIST CAVP, SHA256ShortMsg, Len = 0: the digest of no byte. */
static const uint8_t empty_digest[GT_DIGEST_BYTES] = {
    0xe3, 0xb0, 0xc4, 0x42, 0x98, 0xfc, 0x1c, 0x14, 0x9a, 0xfb, 0xf4, 0xc8, 0x99, 0x6f, 0xb9, 0x24,
    0x27, 0xae, 0x41, 0xe4, 0x64, 0x9b, 0x93, 0x4c, 0xa4, 0x95, 0x99, 0x1b, 0x78, 0x52, 0xb8, 0x55,
};

/* ---- Blocks */

typedef struct {
    uint8_t bytes[GT_MAX_BLOCK_BYTES + GT_DIGEST_BYTES]; /* room for a reference too many */
    size_t length;
} block;

/* A block with these counts: reference i is 32 bytes of i + 1, request i is number 256 + i for slot i. */
static block block_of(uint8_t site, uint16_t sequence, uint8_t references, uint8_t requests)
{
    block b = {.bytes = {site, (uint8_t)(sequence >> 8), (uint8_t)sequence, references, requests}, .length = GT_HEADER_BYTES};

    for (uint8_t i = 0; i < references; i++, b.length += GT_DIGEST_BYTES)
        memset(b.bytes + b.length, i + 1, GT_DIGEST_BYTES);
    for (uint8_t i = 0; i < requests; i++, b.length += GT_REQUEST_BYTES)
        memcpy(b.bytes + b.length, (uint8_t[]){i, 1, i}, GT_REQUEST_BYTES);
    return b;
}

static block with_byte_more(block b)
{
    b.length++;
    return b;
}

static block cut_block(void)
{
    block b = block_of(1, 2, 3, 3);
    b.length--;
    return b;
}

/* The block of three references and five requests with request `index` for this slot. */
static block with_slot(block b, size_t index, uint8_t slot)
{
    b.bytes[GT_HEADER_BYTES + 3 * GT_DIGEST_BYTES + GT_REQUEST_BYTES * index] = slot;
    return b;
}

/* Refused with 7 at index 2: its third reference repeats the first. */
static block block_with_repeated_reference(void)
{
    block b = block_of(1, 2, 3, 5);
    memset(b.bytes + GT_HEADER_BYTES + 2 * GT_DIGEST_BYTES, 1, GT_DIGEST_BYTES);
    return b;
}

/* Refused with 18 at index 3: slots 0, 1, 2, 1 and 0. It has the repeated reference too: 18 comes before 7. */
static block block_with_repeated_slot(void) { return with_slot(with_slot(block_with_repeated_reference(), 3, 1), 4, 0); }

/* Refused with 6 at index 4. It has the repeated slot and the repeated reference too: 6 comes before both. */
static block block_with_bad_request(void) { return with_slot(block_with_repeated_slot(), 4, 8); }

/* The three calls on a block. */
static gt_reading read_block(block b)
{
    uint8_t *copy = exact_copy(b.bytes, b.length);
    gt_reading reading = gt_read_block(copy, b.length);
    free(copy);
    return reading;
}

static gt_answer reference(block b, size_t index, uint8_t *output, size_t output_length)
{
    uint8_t *copy = exact_copy(b.bytes, b.length);
    gt_answer answer = gt_reference(copy, b.length, index, output, output_length);
    free(copy);
    return answer;
}

static gt_requested request(block b, size_t index)
{
    uint8_t *copy = exact_copy(b.bytes, b.length);
    gt_requested requested = gt_request(copy, b.length, index);
    free(copy);
    return requested;
}

/* ---- What is expected */

static bool reads_as(block b, uint8_t site, uint16_t sequence, size_t references, size_t requests)
{
    gt_reading r = read_block(b);
    return is(r.answer, 0, 0) && r.fields.site == site && r.fields.sequence == sequence && r.fields.references == references
        && r.fields.requests == requests;
}

static bool refused_with_zeros(gt_reading r, uint8_t refusal, size_t value)
{
    return is(r.answer, refusal, value) && r.fields.site == 0 && r.fields.sequence == 0 && r.fields.references == 0
        && r.fields.requests == 0;
}

static bool request_refused_with_zeros(gt_requested r, uint8_t refusal, size_t value)
{
    return is(r.answer, refusal, value) && r.slot == 0 && r.number == 0;
}

/* An output of 40 bytes, filled before each call. */
static uint8_t output[GT_DIGEST_BYTES + 8];

static uint8_t *fresh_output(void)
{
    memset(output, UNTOUCHED, sizeof output);
    return output;
}

static bool untouched_from(size_t start)
{
    for (size_t i = start; i < sizeof output; i++)
        if (output[i] != UNTOUCHED)
            return false;
    return true;
}

static bool output_is(const uint8_t digest[GT_DIGEST_BYTES])
{
    return memcmp(output, digest, GT_DIGEST_BYTES) == 0 && untouched_from(GT_DIGEST_BYTES);
}

/* ---- The checks */

static void check_digest(void)
{
    check("digest, no output", is(gt_digest(MESSAGE, 3, NULL, 0), 17, 32));
    check("digest, output of 0 bytes", is(gt_digest(MESSAGE, 3, fresh_output(), 0), 17, 32) && untouched_from(0));
    check("digest, output of 31 bytes", is(gt_digest(MESSAGE, 3, fresh_output(), 31), 17, 32) && untouched_from(0));
    check("digest, output of 32 bytes", is(gt_digest(MESSAGE, 3, fresh_output(), 32), 0, 0) && output_is(abc_digest));
    check("digest, output of 40 bytes: the last 8 stay",
          is(gt_digest(MESSAGE, 3, fresh_output(), 40), 0, 0) && output_is(abc_digest));
    check("digest of no bytes at NULL", is(gt_digest(NULL, 0, fresh_output(), 32), 0, 0) && output_is(empty_digest));
    check("digest of no bytes at NULL, no output", is(gt_digest(NULL, 0, NULL, 0), 17, 32));
}

static void check_reading(void)
{
    const uint8_t references = GT_MAX_REFERENCES, requests = GT_MAX_REQUESTS;
    block longest = block_of(1, 2, references, requests);

    check("reading no bytes at NULL", refused_with_zeros(gt_read_block(NULL, 0), 3, 0));
    check("reading 4 bytes", refused_with_zeros(read_block((block){.bytes = {1, 0, 2}, .length = 4}), 3, 0));
    check("reading 5 bytes", reads_as(block_of(255, 65535, 0, 0), 255, 65535, 0, 0));
    check("reading a sequence number, high byte first", reads_as(block_of(1, 0x0203, 0, 0), 1, 0x0203, 0, 0));
    check("reading the longest block", longest.length == GT_MAX_BLOCK_BYTES && reads_as(longest, 1, 2, references, requests));
    check("reading a byte more", refused_with_zeros(read_block(with_byte_more(longest)), 3, 0));
    check("reading a reference too many", refused_with_zeros(read_block(block_of(1, 2, references + 1, 0)), 3, 0));
    check("reading a request too many", refused_with_zeros(read_block(block_of(1, 2, 0, requests + 1)), 3, 0));
    check("reading the most references and a request of each slot",
          refused_with_zeros(read_block(block_of(1, 2, references, 8)), 3, 0));
    check("reading a cut block", refused_with_zeros(read_block(cut_block()), 3, 0));
    check("reading a bad request", refused_with_zeros(read_block(block_with_bad_request()), 6, 4));
    check("reading a repeated slot", refused_with_zeros(read_block(block_with_repeated_slot()), 18, 3));
    check("reading a slot repeated by the last request",
          refused_with_zeros(read_block(with_slot(block_of(1, 2, 3, 5), 4, 0)), 18, 4));
    check("reading a slot over 7 twice",
          refused_with_zeros(read_block(with_slot(with_slot(block_of(1, 2, 3, 5), 0, 8), 1, 8)), 6, 0));
    check("reading slots that fall", reads_as(with_slot(with_slot(block_of(1, 2, 3, 5), 0, 7), 1, 6), 1, 2, 3, 5));
    check("reading a repeated reference", refused_with_zeros(read_block(block_with_repeated_reference()), 7, 2));
}

static bool reference_refused(block b, size_t index, size_t output_length, uint8_t refusal, size_t value)
{
    return is(reference(b, index, fresh_output(), output_length), refusal, value) && untouched_from(0);
}

static void check_references(void)
{
    block b = block_of(1, 2, 3, 3);
    uint8_t last[GT_DIGEST_BYTES];
    memset(last, 3, sizeof last);

    check("reference 2 of 3", is(reference(b, 2, fresh_output(), 32), 0, 0) && output_is(last));
    check("reference 2 of 3, output of 40 bytes: the last 8 stay",
          is(reference(b, 2, fresh_output(), 40), 0, 0) && output_is(last));
    check("reference 3 of 3", reference_refused(b, 3, 32, 13, 0));
    check("reference SIZE_MAX", reference_refused(b, SIZE_MAX, 32, 13, 0));
    check("reference whose offset wraps to the first's", reference_refused(b, SIZE_MAX / 32 + 1, 32, 13, 0));
    check("reference 0 of 0", reference_refused(block_of(1, 2, 0, 3), 0, 32, 13, 0));
    check("reference, output of 31 bytes", reference_refused(b, 0, 31, 17, 32));
    check("reference, output of 0 bytes", reference_refused(b, 0, 0, 17, 32));
    check("reference, no output", is(reference(b, 0, NULL, 0), 17, 32));
    check("reference: 13 before 17", reference_refused(b, 3, 31, 13, 0));
    check("reference of no bytes at NULL", is(gt_reference(NULL, 0, 0, fresh_output(), 32), 3, 0) && untouched_from(0));
    check("reference: 3 before 13 and 17", reference_refused(cut_block(), SIZE_MAX, 31, 3, 0));
    check("reference: 6 before 13 and 17", reference_refused(block_with_bad_request(), SIZE_MAX, 31, 6, 4));
    check("reference: 18 before 13 and 17", reference_refused(block_with_repeated_slot(), SIZE_MAX, 31, 18, 3));
    check("reference 0 of a block with a repeated slot", reference_refused(block_with_repeated_slot(), 0, 32, 18, 3));
    check("reference: 7 before 13 and 17", reference_refused(block_with_repeated_reference(), SIZE_MAX, 31, 7, 2));
}

static void check_requests(void)
{
    block b = block_of(1, 2, 3, 3);
    gt_requested last = request(b, 2);

    check("request 2 of 3", is(last.answer, 0, 0) && last.slot == 2 && last.number == 0x0102);
    check("request 3 of 3", request_refused_with_zeros(request(b, 3), 13, 0));
    check("request SIZE_MAX", request_refused_with_zeros(request(b, SIZE_MAX), 13, 0));
    check("request whose offset wraps", request_refused_with_zeros(request(b, SIZE_MAX / 3 + 1), 13, 0));
    check("request 0 of 0", request_refused_with_zeros(request(block_of(1, 2, 3, 0), 0), 13, 0));
    check("request of no bytes at NULL", request_refused_with_zeros(gt_request(NULL, 0, 0), 3, 0));
    check("request: 3 before 13", request_refused_with_zeros(request(cut_block(), SIZE_MAX), 3, 0));
    check("request: 6 before 13", request_refused_with_zeros(request(block_with_bad_request(), SIZE_MAX), 6, 4));
    check("request: 18 before 13", request_refused_with_zeros(request(block_with_repeated_slot(), SIZE_MAX), 18, 3));
    check("request 0 of a block with a repeated slot", request_refused_with_zeros(request(block_with_repeated_slot(), 0), 18, 3));
    check("request: 7 before 13", request_refused_with_zeros(request(block_with_repeated_reference(), SIZE_MAX), 7, 2));
}

int main(void)
{
    check_digest();
    check_reading();
    check_references();
    check_requests();
    return all_ok ? EXIT_SUCCESS : EXIT_FAILURE;
}
