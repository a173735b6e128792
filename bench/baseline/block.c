/* Reading a block. */
#include "inner.h"

bool baseline_read(const uint8_t *bytes, size_t length, baseline_block *block)
{
    if (length < HEAD_BYTES || bytes[3] > MAX_REFERENCES || bytes[4] > MAX_REQUESTS)
        return false;
    size_t reference_bytes = (size_t)DIGEST_BYTES * bytes[3];
    if (length != HEAD_BYTES + reference_bytes + (size_t)REQUEST_BYTES * bytes[4])
        return false;
    block->site = bytes[0];
    block->sequence = (uint16_t)(bytes[1] << 8 | bytes[2]);
    block->references = bytes[3];
    block->requests = bytes[4];
    block->request_bytes = bytes + HEAD_BYTES + reference_bytes;
    memcpy(block->reference, bytes + HEAD_BYTES, reference_bytes);
    return true;
}

static bool good_request(const uint8_t *request) { return request[0] < SLOTS && (request[1] | request[2]) != 0; }

/* The first request whose slot an earlier one has; the count where all slots are different. They are below SLOTS. */
static size_t repeated_slot(const baseline_block *block)
{
    unsigned met = 0;

    for (size_t i = 0; i < block->requests; i++) {
        unsigned slot = 1u << block->request_bytes[REQUEST_BYTES * i];
        if (met & slot)
            return i;
        met |= slot;
    }
    return block->requests;
}

static bool repeats(const baseline_digest *references, size_t index)
{
    for (size_t i = 0; i < index; i++)
        if (same_digest(&references[i], &references[index]))
            return true;
    return false;
}

baseline_answer baseline_check_lists(const baseline_block *block)
{
    for (size_t i = 0; i < block->requests; i++)
        if (!good_request(block->request_bytes + REQUEST_BYTES * i))
            return answer(BAD_REQUEST, i);
    size_t again = repeated_slot(block);
    if (again < block->requests)
        return answer(REPEATED_SLOT, again);
    for (size_t i = 0; i < block->references; i++)
        if (repeats(block->reference, i))
            return answer(REPEATED_REFERENCE, i);
    return answer(NONE, 0);
}
