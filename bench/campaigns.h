/* The campaigns that the benchmarks run: as many blocks as a table holds, in rounds. In each round every site builds one
 * block, which refers to all blocks of the round before. And tables that hold them; a refusal there ends the program. */
#ifndef BENCH_CAMPAIGNS_H
#define BENCH_CAMPAIGNS_H

#include "giangotum_core.h"

typedef struct {
    uint8_t bytes[GT_MAX_BLOCK_BYTES];
    size_t length;
} built_block;

/* Puts bytes at the block's end. There is room for a block that is as long as a block can be. */
void append(built_block *block, const void *bytes, size_t length);

typedef struct {
    const char *name;
    uint8_t sites;
    uint8_t owners[GT_SLOTS];
    built_block blocks[GT_MAX_PLACES]; /* in the order of their places */
} campaign;

enum { LAST_PLACE = GT_MAX_PLACES - 1 };

/* 16 sites in four rounds. Every block of the first round has as many requests as a block can have, so that each slot's owner
 * requests a number in it, and so has the last block, which makes it as long as a block can be. */
campaign busy_campaign(void);

/* Four sites in 16 rounds. Each site owns two slots and requests a number in one of them in the first round, in the other
 * in the fifth. */
campaign ordinary_campaign(void);

/* What a site builds next by the building rule, with these requests of so many bytes. */
built_block build_next(const uint8_t table[GT_TABLE_BYTES], uint8_t site, const uint8_t *requests, size_t length);

/* A block arrives: it is admitted and, where it was, interpreted. The answer is the admission's, or the refusal of the
 * interpretation: a refusal is the caller's to judge. */
gt_answer admit_and_interpret(uint8_t table[GT_TABLE_BYTES], uint16_t records[GT_RECORDS_NUMBERS], const built_block *block);

/* Makes the table that holds so many blocks of a campaign, all interpreted, and their records; numbers of other places stay. */
void hold_first(const campaign *c, size_t blocks, uint8_t table[GT_TABLE_BYTES], uint16_t records[GT_RECORDS_NUMBERS]);

#endif
