/* Building blocks, and holding them. */
#include "campaigns.h"

#include <stdbool.h>
#include <string.h>

#include "expect.h"

enum { BUSY_SITES = 16, ORDINARY_SITES = 4, LATER_ROUND = 4 };

/* Whether the block of a place has a request of a slot. */
typedef bool (*request_rule)(size_t place, uint8_t slot);

/* As many slots as a block has requests, from the place's own on, so that the owner of each slot requests a number in it. */
static bool busy_rule(size_t place, uint8_t slot)
{
    bool in_turn = (slot + GT_SLOTS - place % GT_SLOTS) % GT_SLOTS < GT_MAX_REQUESTS;

    return in_turn && (place < BUSY_SITES || place == LAST_PLACE);
}

static bool ordinary_rule(size_t place, uint8_t slot)
{
    size_t site = place % ORDINARY_SITES, round = place / ORDINARY_SITES;

    return (round == 0 && slot == site) || (round == LATER_ROUND && slot == site + ORDINARY_SITES);
}

void append(built_block *block, const void *bytes, size_t length)
{
    memcpy(block->bytes + block->length, bytes, length);
    block->length += length;
}

/* The blocks of lower places are built already. */
static void append_references(campaign *c, size_t place)
{
    size_t round = place / c->sites;

    for (size_t i = 0; round > 0 && i < c->sites; i++) {
        const built_block *referred = &c->blocks[c->sites * (round - 1) + i];
        uint8_t digest[GT_DIGEST_BYTES];

        gt_digest(referred->bytes, referred->length, digest, sizeof digest);
        append(&c->blocks[place], digest, sizeof digest);
        c->blocks[place].bytes[3]++;
    }
}

static void append_requests(campaign *c, size_t place, request_rule requests)
{
    for (uint8_t slot = 0; slot < GT_SLOTS; slot++)
        if (requests(place, slot)) {
            append(&c->blocks[place], (uint8_t[]){slot, (uint8_t)place, 1}, GT_REQUEST_BYTES);
            c->blocks[place].bytes[4]++;
        }
}

static campaign make(const char *name, uint8_t sites, request_rule requests)
{
    campaign c = {.name = name, .sites = sites};

    for (uint8_t slot = 0; slot < GT_SLOTS; slot++)
        c.owners[slot] = slot % sites;
    for (size_t place = 0; place < GT_MAX_PLACES; place++) {
        append(&c.blocks[place], (uint8_t[]){(uint8_t)(place % sites), 0, (uint8_t)(place / sites), 0, 0}, GT_HEADER_BYTES);
        append_references(&c, place);
        append_requests(&c, place, requests);
    }
    return c;
}

campaign busy_campaign(void)
{
    campaign c = make("busy: 16 sites, 16 references", BUSY_SITES, busy_rule);

    expect(c.blocks[LAST_PLACE].length == GT_MAX_BLOCK_BYTES, "the last block is not as long as a block can be");
    return c;
}

campaign ordinary_campaign(void) { return make("ordinary: 4 sites, 4 references", ORDINARY_SITES, ordinary_rule); }

built_block build_next(const uint8_t table[GT_TABLE_BYTES], uint8_t site, const uint8_t *requests, size_t length)
{
    built_block b;
    gt_answer built = gt_build(table, GT_TABLE_BYTES, site, requests, length, b.bytes, sizeof b.bytes);

    expect(built.refusal == 0, "a block was not built");
    b.length = built.value;
    return b;
}

gt_answer admit_and_interpret(uint8_t table[GT_TABLE_BYTES], uint16_t records[GT_RECORDS_NUMBERS], const built_block *block)
{
    gt_answer answer = gt_admit(table, GT_TABLE_BYTES, block->bytes, block->length, 1);

    if (answer.refusal == 0)
        answer.refusal = gt_interpret(table, GT_TABLE_BYTES, answer.value, records, GT_RECORDS_NUMBERS).refusal;
    return answer;
}

void hold_first(const campaign *c, size_t blocks, uint8_t table[GT_TABLE_BYTES], uint16_t records[GT_RECORDS_NUMBERS])
{
    expect(gt_fresh(c->sites, c->owners, GT_SLOTS, table, GT_TABLE_BYTES).refusal == 0, "the setup was refused");
    for (size_t place = 0; place < blocks; place++) {
        gt_answer answer = admit_and_interpret(table, records, &c->blocks[place]);
        expect(answer.refusal == 0 && answer.value == place, "a block of the campaign was refused");
    }
}
