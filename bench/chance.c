/* Chance is xorshift. */
#include "chance.h"

static uint64_t state = 2026;

size_t below(size_t bound)
{
    state ^= state << 13;
    state ^= state >> 7;
    state ^= state << 17;
    return (size_t)(state >> 16) % bound;
}

bool one_in(size_t bound) { return below(bound) == 0; }

uint8_t some_sites(void)
{
    static const uint8_t lawful[] = {1, 4, 7, 10, 13, 16};

    return lawful[below(sizeof lawful)];
}

void know(known_blocks *known, const built_block *block)
{
    size_t i = known->count++;

    known->blocks[i].site = block->bytes[0];
    known->blocks[i].sequence = (uint16_t)(block->bytes[1] << 8 | block->bytes[2]);
    gt_digest(block->bytes, block->length, known->blocks[i].digest, GT_DIGEST_BYTES);
}

/* The site's newest block, or an older one: then the site forks. The count where it has none. */
static size_t some_parent(const known_blocks *known, uint8_t site)
{
    for (size_t i = known->count; i-- > 0;)
        if (known->blocks[i].site == site && !one_in(12))
            return i;
    return known->count;
}

static void refer_to(built_block *block, const known_blocks *known, bool referred[MOST_KNOWN], size_t i)
{
    if (referred[i] || block->bytes[3] == GT_MAX_REFERENCES)
        return;
    referred[i] = true;
    append(block, known->blocks[i].digest, GT_DIGEST_BYTES);
    block->bytes[3]++;
}

static void append_references(built_block *block, const known_blocks *known, size_t parent)
{
    bool referred[MOST_KNOWN] = {false};
    size_t others = below(2 * GT_MAX_REFERENCES), count = known->count, recent = 2 * (size_t)known->sites;

    if (parent < count)
        refer_to(block, known, referred, parent);
    for (size_t i = 0; i < others && count > 0; i++)
        refer_to(block, known, referred, count - 1 - below(count < recent ? count : recent));
}

/* Few numbers, so that forked sites often say the same and often not. An odd step meets no slot again before all others. */
static void append_requests(built_block *block)
{
    size_t slot = below(GT_SLOTS), step = 1 + 2 * below(GT_SLOTS / 2);

    for (size_t left = below(4); left > 0; left--, slot = (slot + step) % GT_SLOTS) {
        append(block, (uint8_t[]){(uint8_t)slot, 0, (uint8_t)(1 + below(3))}, GT_REQUEST_BYTES);
        block->bytes[4]++;
    }
}

built_block some_block(const known_blocks *known)
{
    uint8_t site = (uint8_t)below(known->sites);
    size_t parent = some_parent(known, site);
    uint8_t sequence = parent < known->count ? (uint8_t)(known->blocks[parent].sequence + 1) : 0;
    built_block block = {.bytes = {site, 0, sequence}, .length = 5};

    append_references(&block, known, parent);
    append_requests(&block);
    return block;
}

void repeat_slot(built_block *block)
{
    const uint8_t requests = block->bytes[4];

    if (requests > 1)
        block->bytes[block->length - GT_REQUEST_BYTES] = block->bytes[block->length - (size_t)GT_REQUEST_BYTES * requests];
}

void damage(built_block *block) { block->bytes[below(block->length)] ^= (uint8_t)(1 << below(8)); }
