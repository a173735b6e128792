/* Digest and block reading for C and C++ programs.
 *
 * Link with libc_interface.a (`make host` builds it), or with -lgiangotum where it is
 * installed. Every function here is proved to meet its contract for all bytes, all lengths
 * and all numbers: none crashes, none reads or writes outside the bytes that it is lent, and
 * a refusal changes nothing.
 *
 * What the caller answers for: a pointer points to as many bytes as the length beside it says
 * (at length 0 it may be any pointer), and an output overlaps no input.
 *
 * The block's layout and all refusal numbers are in docs/FORMATS.md.
 */
#ifndef GIANGOTUM_H
#define GIANGOTUM_H

#include <stddef.h>
#include <stdint.h>

#ifdef __cplusplus
extern "C" {
#endif

/* The version. A program that was written for a lower second number goes on working, but for what CHANGELOG.md says. */
#define GT_VERSION_MAJOR 1
#define GT_VERSION_MINOR 13

/* Bytes of a digest, and so of a reference. */
#define GT_DIGEST_BYTES 32
/* Bytes of a request, and of what stands before a block's two lists. */
#define GT_REQUEST_BYTES 3
#define GT_HEADER_BYTES 5
/* The most references and requests that a block has, and the bytes of the longest request list and of the longest block. */
#define GT_MAX_REFERENCES 16
#define GT_MAX_REQUESTS 5
#define GT_MAX_REQUEST_LIST_BYTES (GT_REQUEST_BYTES * GT_MAX_REQUESTS)
#define GT_MAX_BLOCK_BYTES (GT_HEADER_BYTES + GT_DIGEST_BYTES * GT_MAX_REFERENCES + GT_MAX_REQUEST_LIST_BYTES)

/* What a call answers. `refusal` is 0 on success. */
typedef struct {
    uint8_t refusal;
    size_t value;
} gt_answer;

/* A block's numbers: who built it, its place in that site's sequence, and how long its two lists are. */
typedef struct {
    uint8_t site;
    uint16_t sequence;
    size_t references;
    size_t requests;
} gt_fields;

/* A reading. Beside a refusal all fields are 0. */
typedef struct {
    gt_answer answer;
    gt_fields fields;
} gt_reading;

/* One request of a block. Beside a refusal slot and number are 0. */
typedef struct {
    gt_answer answer;
    uint8_t slot;
    uint16_t number;
} gt_requested;

/* Writes the SHA-256 (FIPS 180-4) of the message to the first 32 bytes of the output; the bytes after them stay.
 *   17, value 32: the output is shorter than 32 bytes. */
gt_answer gt_digest(const uint8_t *message, size_t message_length, uint8_t *output, size_t output_length);

/* Reads a block.
 *   3: under 5 bytes, more references or requests than a block has, or a length other than the two counts give;
 *   6, value the index of the first such request: a slot over 7, or number 0;
 *   18, value the index of the first such request: a slot equal to an earlier one in the same block;
 *   7, value the index of the first such reference: a reference equal to an earlier one. */
gt_reading gt_read_block(const uint8_t *block, size_t block_length);

/* Writes reference `index` of a block to the first 32 bytes of the output; the bytes after them stay.
 *   3, 6, 18, 7: as gt_read_block;
 *   13: the block has no such reference;
 *   17, value 32: the output is shorter than 32 bytes. */
gt_answer gt_reference(const uint8_t *block, size_t block_length, size_t index, uint8_t *output, size_t output_length);

/* Request `index` of a block.
 *   3, 6, 18, 7: as gt_read_block;
 *   13: the block has no such request. */
gt_requested gt_request(const uint8_t *block, size_t block_length, size_t index);

#ifdef __cplusplus
}
#endif

#endif
