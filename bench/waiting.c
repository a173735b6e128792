/* Building the blocks that wait. */
#include "waiting.h"

#include "expect.h"

enum {
    REFERENCES = GT_HEADER_BYTES,
    KEPT_REFERENCES = GT_MAX_REFERENCES - 1,
    REQUESTS = REFERENCES + GT_MAX_REFERENCES * GT_DIGEST_BYTES
};

/* The block that follows: it refers to the one before first, as a site's next block does. The others that it refers to and
 * its requests are those of the chain's first block, whose own parent stands last. */
static built_block next_of(const built_block *before, const built_block *first)
{
    built_block next = {.length = 0};
    uint8_t digest[GT_DIGEST_BYTES];

    gt_digest(before->bytes, before->length, digest, sizeof digest);
    append(&next, (uint8_t[]){before->bytes[0], 0, (uint8_t)(before->bytes[2] + 1), GT_MAX_REFERENCES, GT_MAX_REQUESTS},
           GT_HEADER_BYTES);
    append(&next, digest, sizeof digest);
    append(&next, first->bytes + REFERENCES, KEPT_REFERENCES * GT_DIGEST_BYTES);
    append(&next, first->bytes + REQUESTS, GT_MAX_REQUEST_LIST_BYTES);
    return next;
}

chain chain_of(const campaign *busy)
{
    chain c;

    c.blocks[0] = busy->blocks[LAST_PLACE];
    for (size_t i = 1; i < CHAIN_BLOCKS; i++) {
        c.blocks[i] = next_of(&c.blocks[i - 1], &c.blocks[0]);
        expect(c.blocks[i].length == GT_MAX_BLOCK_BYTES, "a block of the chain is not as long as a block can be");
    }
    return c;
}

/* The same block but for its last request's number. */
static built_block for_another(built_block b, uint8_t campaign)
{
    b.bytes[b.length - 1] = (uint8_t)(b.bytes[b.length - 1] + campaign);
    return b;
}

full_shelf full_shelf_of(const chain *c, bool reversed)
{
    enum { OTHERS = (GT_CAMPAIGNS - 1) * GT_SHELF_RESERVED };
    full_shelf s;
    size_t sent = 0;

    for (size_t i = 1; i <= GT_SHELF_MOST; i++) {
        const built_block *b = &c->blocks[reversed ? CHAIN_BLOCKS - i : i];
        uint8_t other = (uint8_t)(1 + i % (GT_CAMPAIGNS - 1));
        s.sent[sent++] = (sent_block){0, *b};
        if (i <= OTHERS)
            s.sent[sent++] = (sent_block){other, for_another(*b, other)};
    }
    return s;
}
