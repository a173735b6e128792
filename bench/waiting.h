/* Blocks that wait for one another, and arrivals that fill a shelf with them: what the benchmark of arrivals and the depths of
 * the stack are given. */
#ifndef WAITING_H
#define WAITING_H

#include "campaigns.h"

/* So many blocks of the busy campaign are held before; with the chain the table is full. */
enum { CHAIN_BLOCKS = 1 + GT_SHELF_MOST, HELD_BEFORE = GT_MAX_PLACES - CHAIN_BLOCKS };

/* Blocks of the greatest length of one site, of which each refers to the one before, and to blocks of 15 other sites that are
 * held. The first is the busy campaign's last block. */
typedef struct {
    built_block blocks[CHAIN_BLOCKS];
} chain;

chain chain_of(const campaign *busy);

/* A block that arrives, and for which campaign. */
typedef struct {
    uint8_t campaign;
    built_block block;
} sent_block;

/* The chain's last ten blocks for campaign 0, in order or last first, and among them two of the same length for each other
 * campaign: they fill a shelf, if the chain's first block has not come and the other campaigns hold nothing. */
typedef struct {
    sent_block sent[GT_SHELF_PLACES];
} full_shelf;

full_shelf full_shelf_of(const chain *c, bool reversed);

#endif
