/* Chance, from one seed, and blocks by chance. */
#ifndef CHANCE_H
#define CHANCE_H

#include "campaigns.h"

size_t below(size_t bound);
bool one_in(size_t bound);
/* n, from those that are lawful. */
uint8_t some_sites(void);

enum { MOST_KNOWN = 2 * GT_MAX_PLACES };

/* Blocks that others can be built on. */
typedef struct {
    uint8_t sites;
    size_t count;
    struct {
        uint8_t digest[GT_DIGEST_BYTES];
        uint8_t site;
        uint16_t sequence;
    } blocks[MOST_KNOWN];
} known_blocks;

void know(known_blocks *known, const built_block *block);

/* A block of some site that is built on some of those known. At times it is a fork. */
built_block some_block(const known_blocks *known);

/* The last request is then for the slot of the first. */
void repeat_slot(built_block *block);

/* Another bit somewhere in the block. */
void damage(built_block *block);

#endif
