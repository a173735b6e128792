/* Both implementations give the same answers to a campaign, and the same records. */
#include "same.h"

#include <string.h>

#include "expect.h"
#include "implementations.h"

/* What is expected of one of the two. */
static void expect_of(const implementation *of, bool holds, const char *message)
{
    if (!holds)
        printf("%s: ", of->name);
    expect(holds, message);
}

static void expect_answer(const implementation *of, gt_answer answer, uint8_t refusal, size_t value, const char *message)
{
    expect_of(of, answer.refusal == refusal && answer.value == value, message);
}

/* The campaign so far is empty or interpreted, and nothing of it is taken back. The block that comes next is. */
static void expect_taken_back(const implementation *of, const built_block *b, size_t place)
{
    uint8_t refusal = place == 0 ? 32 : 33;

    expect_answer(of, of->take_back(), refusal, 0, "the last place of the campaign so far was taken back");
    expect_answer(of, of->admit(b->bytes, b->length, 1), 0, place, "a block of the campaign was not admitted at its place");
    expect_answer(of, of->take_back(), 0, 0, "a block that was just admitted was not taken back");
    expect_of(of, of->in_form(), "a table without its last block is not in form");
}

/* The block of a place, first in ways that are refused, then as it is, then once more. */
static void expect_place(const implementation *of, const built_block *b, size_t place)
{
    expect_taken_back(of, b, place);
    expect_answer(of, of->interpret(place), 13, 0, "a place without a block was interpreted");
    expect_answer(of, of->admit(b->bytes, b->length - 1, 1), 3, 0, "a block without its last byte was admitted");
    expect_answer(of, of->admit(b->bytes, b->length, 0), 5, 0, "a block with verdict 0 was admitted");
    expect_answer(of, of->admit(b->bytes, b->length, 1), 0, place, "a block of the campaign was not admitted at its place");
    expect_answer(of, of->interpret(place), 0, 0, "a place of the campaign was not interpreted");
    expect_answer(of, of->admit(b->bytes, b->length, 1), 8, place, "a held block was not refused by its place");
    expect_answer(of, of->interpret(place), 14, 0, "a place was interpreted twice");
}

/* A block whose last reference no table holds. */
static void expect_not_held(const implementation *of, const campaign *c)
{
    built_block other = c->blocks[LAST_PLACE];
    size_t index = other.bytes[3] - 1u;

    memset(other.bytes + 5 + GT_DIGEST_BYTES * index, 0, GT_DIGEST_BYTES);
    expect_answer(of, of->admit(other.bytes, other.length, 1), 9, index, "a block with an unknown reference was not refused");
}

/* The last block with another sequence number, which has no parent, and a first block that is one too many. */
static void expect_full(const implementation *of, const campaign *c)
{
    built_block other = c->blocks[LAST_PLACE];

    other.bytes[1]++;
    expect_answer(of, of->admit(other.bytes, other.length, 1), 10, 0, "a block without its parent was not refused");
    memcpy(other.bytes + 1, (uint8_t[]){0, 0}, 2);
    expect_answer(of, of->admit(other.bytes, other.length, 1), 11, 0, "a 65th block was not refused");
}

/* All blocks but the last of each site leave, one after the other. Then the last one that left comes again, without what it
 * refers to, and the first one, which refers to nothing. */
static void expect_retirings(const implementation *of, const campaign *c)
{
    size_t leaving = GT_MAX_PLACES - c->sites;
    const built_block *gone = &c->blocks[leaving - 1], *first = &c->blocks[0];

    for (size_t i = 0; i < leaving; i++)
        expect_answer(of, of->retire(), 0, 0, "a block that may leave was not retired");
    expect_answer(of, of->retire(), 29, 0, "the last block of a site was retired");
    expect_of(of, of->in_form(), "a table that has retired blocks is not in form");
    expect_answer(of, of->admit(gone->bytes, gone->length, 1), 9, 0, "a block whose references have left was not refused");
    expect_answer(of, of->admit(first->bytes, first->length, 1), 0, c->sites, "a block that has left was not admitted again");
}

static void expect_campaign(const implementation *of, const campaign *c)
{
    expect_answer(of, of->fresh(c->sites, c->owners), 0, 0, "the setup was refused");
    for (size_t place = 0; place < GT_MAX_PLACES; place++)
        expect_place(of, &c->blocks[place], place);
    expect_not_held(of, c);
    expect_full(of, c);
    expect_of(of, of->in_form(), "the full table is not in form");
}

void expect_same_records(void)
{
    const uint16_t *ours = implementations[OURS].records, *others = implementations[IN_C].records;

    expect(memcmp(ours, others, GT_RECORDS_NUMBERS * sizeof *ours) == 0, "two record buffers differ");
}

/* A campaign that delivers nothing would compare little. */
static void expect_deliveries(void)
{
    size_t deliveries = 0;

    for (size_t at = GT_RECORD_NUMBERS - 1; at < GT_RECORDS_NUMBERS; at += GT_RECORD_NUMBERS)
        deliveries += implementations[OURS].records[at] != 0;
    expect(deliveries > 0, "the campaign delivers nothing");
}

void expect_same(const campaign *c)
{
    for (size_t i = 0; i < COMPARED; i++) {
        expect_campaign(&implementations[i], c);
        expect_retirings(&implementations[i], c);
    }
    expect_same_records();
    for (size_t i = 0; i < COMPARED; i++)
        expect_campaign(&implementations[i], c);
    expect_same_records();
    expect_deliveries();
}
