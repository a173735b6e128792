/* The deepest stack of each call, in bytes, from the caller's frame on, over many inputs: tables that are empty, partly
 * filled, full, forked, clashing, out of form, and such that have retired a block; shelves that are empty, full and out of
 * form; blocks up to the longest; every refusal.
 * It prints what it measures. An answer other than the expected one ends it with status 1. */
#include <stdio.h>
#include <string.h>

#include "campaigns.h"
#include "expect.h"
#include "painted.h"
#include "waiting.h"

enum { SITES = 16, ROUND = SITES, LIST_BYTES = GT_MAX_REQUEST_LIST_BYTES };

typedef struct {
    uint8_t bytes[GT_TABLE_BYTES];
} table;

typedef struct {
    uint8_t bytes[GT_SHELF_BYTES];
} shelf;

/* What a call is given. Each call takes what it needs of it. */
typedef struct {
    const table *table;   /* lent as a copy */
    const table *right;   /* of a join, which only reads it */
    const shelf *shelf;   /* lent as a copy */
    const uint8_t *bytes; /* a block, a message, owners, a request list or a list of calls */
    size_t length;        /* of the bytes */
    uint8_t number;       /* a verdict, a site or a number of sites */
    uint8_t campaign;
    size_t place;
    size_t room;     /* numbers of the record buffer or of the outcomes, or bytes of the output or of a fresh table */
    uint8_t refusal; /* expected */
    size_t ended;    /* waiting blocks that are let in or dropped, expected */
} input;

static table lent;
static shelf lent_shelf;
static uint16_t records[GT_RECORDS_NUMBERS], right_records[GT_RECORDS_NUMBERS], third[GT_RECORDS_NUMBERS];
static uint8_t output[GT_MAX_BLOCK_BYTES];
static uint64_t answers[2], outcomes[GT_OUTCOMES_NUMBERS];

/* ---- Tables and blocks */

static campaign busy;
static table reached[GT_MAX_PLACES + 1]; /* by count: every place interpreted */
static table admitted[GT_MAX_PLACES];    /* by place: this one is not, all lower ones are */
static table bare;                       /* full, and nothing interpreted */
static table forked;                     /* two blocks of sequence number 0 of each site */
static table clashing;                   /* full, and its last block has another request of the last slot */
static table out_of_form;
static table aged;        /* full, and then its first block was retired */
static table last_number; /* a single block, of the last sequence number, without its parent */

static built_block bad_site, bad_request, slot_twice, repeated, unknown, orphan, another;

static void admit(table *t, const built_block *b)
{
    expect(gt_admit(t->bytes, sizeof t->bytes, b->bytes, b->length, 1).refusal == 0, "a block was refused");
}

static void interpret(table *t, size_t place)
{
    gt_answer answer = gt_interpret(t->bytes, sizeof t->bytes, place, records, GT_RECORDS_NUMBERS);

    expect(answer.refusal == 0, "a place was refused");
}

static void prepare_tables(void)
{
    table *empty = &reached[0];

    expect(gt_fresh(busy.sites, busy.owners, GT_SLOTS, empty->bytes, sizeof empty->bytes).refusal == 0, "no setup");
    bare = *empty;
    for (size_t place = 0; place < GT_MAX_PLACES; place++) {
        admitted[place] = reached[place];
        admit(&admitted[place], &busy.blocks[place]);
        reached[place + 1] = admitted[place];
        interpret(&reached[place + 1], place);
        admit(&bare, &busy.blocks[place]);
    }
    clashing = out_of_form = reached[GT_MAX_PLACES];
    clashing.bytes[GT_TABLE_BYTES - 2]++;
    out_of_form.bytes[GT_TABLE_BYTES - 1] = 2; /* a mark */
}

static void prepare_aged_tables(void)
{
    aged = reached[GT_MAX_PLACES];
    expect(gt_retire(aged.bytes, sizeof aged.bytes, records, GT_RECORDS_NUMBERS).refusal == 0, "no block was retired");
    last_number = reached[1];
    last_number.bytes[GT_TABLE_RETIRED] = 1;
    memset(last_number.bytes + GT_TABLE_ROWS + GT_ROW_SEQUENCE, 255, 2);
}

/* A twin of each block of the first round: its last request has another number. */
static void prepare_forks(void)
{
    forked = reached[ROUND];
    for (size_t place = 0; place < ROUND; place++) {
        built_block twin = busy.blocks[place];

        twin.bytes[twin.length - 1]++;
        admit(&forked, &twin);
    }
}

/* The last block, changed so that it is refused. */
static void prepare_blocks(void)
{
    const built_block *last = &busy.blocks[LAST_PLACE];
    const size_t second = GT_HEADER_BYTES + GT_DIGEST_BYTES;

    bad_site = bad_request = slot_twice = repeated = unknown = orphan = another = *last;
    bad_site.bytes[0] = SITES;
    memset(bad_request.bytes + bad_request.length - 2, 0, 2);
    slot_twice.bytes[slot_twice.length - GT_REQUEST_BYTES] = slot_twice.bytes[slot_twice.length - LIST_BYTES];
    memcpy(repeated.bytes + second, repeated.bytes + GT_HEADER_BYTES, GT_DIGEST_BYTES);
    memset(unknown.bytes + second, 0, GT_DIGEST_BYTES);
    orphan.bytes[2]++;
    another.bytes[another.length - 1]++;
}

/* ---- Shelves. Campaign 0 has the busy campaign's table; the other campaigns hold nothing. */

static chain waiting_chain;
static const shelf empty_shelf;
static shelf in_order, reversed; /* full: the first block of the chain lets in all ten of campaign 0 */
static shelf orphans;            /* full: the same block has all ten dropped */
static shelf same_bytes_twice;   /* full, and not in form */
static built_block spare_orphan; /* on none of them */
static table second_held;        /* the chain's first two blocks are held, past the shelf */
static table few_sites;          /* empty, and without the chain's site */

static void put_on(shelf *s, uint8_t campaign, const built_block *b)
{
    table t = reached[campaign == 0 ? HELD_BEFORE : 0];
    gt_arrival arrival = gt_arrive(t.bytes, sizeof t.bytes, s->bytes, sizeof s->bytes, campaign, b->bytes, b->length, 1, outcomes,
                                   GT_OUTCOMES_NUMBERS);

    expect(arrival.answer.refusal == 9, "a block does not wait");
}

static void fill_shelf(shelf *s, bool last_first)
{
    full_shelf full = full_shelf_of(&waiting_chain, last_first);

    for (size_t i = 0; i < GT_SHELF_PLACES; i++)
        put_on(s, full.sent[i].campaign, &full.sent[i].block);
}

/* For campaign 0 the second block of the chain with a sequence number that doesn't follow, and another request for each. */
static void fill_with_orphans(shelf *s)
{
    full_shelf full = full_shelf_of(&waiting_chain, false);

    spare_orphan = waiting_chain.blocks[1];
    spare_orphan.bytes[2]++;
    for (size_t i = 0; i < GT_SHELF_PLACES; i++)
        if (full.sent[i].campaign == 0) {
            put_on(s, 0, &spare_orphan);
            spare_orphan.bytes[spare_orphan.length - 1]++;
        } else {
            put_on(s, full.sent[i].campaign, &full.sent[i].block);
        }
}

static void prepare_shelves(void)
{
    const size_t entry_bytes = (GT_SHELF_BYTES - 1) / GT_SHELF_PLACES;

    waiting_chain = chain_of(&busy);
    fill_shelf(&in_order, false);
    fill_shelf(&reversed, true);
    fill_with_orphans(&orphans);
    same_bytes_twice = in_order;
    memcpy(same_bytes_twice.bytes + GT_SHELF_BYTES - entry_bytes, same_bytes_twice.bytes + 1, entry_bytes);
}

static void prepare_tables_beside_shelves(void)
{
    const uint8_t owners[GT_SLOTS] = {0};

    second_held = reached[HELD_BEFORE];
    admit(&second_held, &waiting_chain.blocks[0]);
    admit(&second_held, &waiting_chain.blocks[1]);
    expect(gt_fresh(4, owners, GT_SLOTS, few_sites.bytes, sizeof few_sites.bytes).refusal == 0, "no setup");
}

/* ---- The calls. Each gives its refusal. */

static uint8_t call_nothing(const input *in) { return in->refusal; }

static uint8_t call_digest(const input *in) { return gt_digest(in->bytes, in->length, output, in->room).refusal; }

static uint8_t call_read_block(const input *in) { return gt_read_block(in->bytes, in->length).answer.refusal; }

static uint8_t call_fresh(const input *in) { return gt_fresh(in->number, in->bytes, in->length, lent.bytes, in->room).refusal; }

static uint8_t call_in_form(const input *in)
{
    (void)in;
    return gt_in_form(lent.bytes, sizeof lent.bytes) ? 0 : 2;
}

static uint8_t call_admit(const input *in)
{
    return gt_admit(lent.bytes, sizeof lent.bytes, in->bytes, in->length, in->number).refusal;
}

static uint8_t call_interpret(const input *in)
{
    return gt_interpret(lent.bytes, sizeof lent.bytes, in->place, records, in->room).refusal;
}

static uint8_t call_retire(const input *in) { return gt_retire(lent.bytes, sizeof lent.bytes, records, in->room).refusal; }

static uint8_t call_take_back(const input *in)
{
    (void)in;
    return gt_take_back(lent.bytes, sizeof lent.bytes).refusal;
}

static uint8_t call_forks(const input *in)
{
    (void)in;
    return gt_forks(lent.bytes, sizeof lent.bytes).refusal;
}

static uint8_t call_ancestors(const input *in) { return gt_ancestors(lent.bytes, sizeof lent.bytes, in->place).refusal; }

static uint8_t call_build(const input *in)
{
    return gt_build(lent.bytes, sizeof lent.bytes, in->number, in->bytes, in->length, output, in->room).refusal;
}

/* A list of one call. */
static uint8_t call_replay(const input *in)
{
    size_t ran = gt_replay(lent.bytes, sizeof lent.bytes, records, GT_RECORDS_NUMBERS, in->bytes, in->length, answers, 2);

    return ran == 1 ? (uint8_t)answers[0] : UINT8_MAX;
}

static uint8_t call_shelf_in_form(const input *in)
{
    (void)in;
    return gt_shelf_in_form(lent_shelf.bytes, sizeof lent_shelf.bytes) ? 0 : 2;
}

static uint8_t call_arrive(const input *in)
{
    gt_arrival arrival = gt_arrive(lent.bytes, sizeof lent.bytes, lent_shelf.bytes, sizeof lent_shelf.bytes, in->campaign,
                                   in->bytes, in->length, in->number, outcomes, in->room);

    return arrival.ended == in->ended ? arrival.answer.refusal : UINT8_MAX;
}

static uint8_t call_join(const input *in)
{
    return gt_join(lent.bytes, sizeof lent.bytes, in->right->bytes, sizeof in->right->bytes, records, GT_RECORDS_NUMBERS,
                   right_records, GT_RECORDS_NUMBERS, third, in->room)
        .refusal;
}

/* ---- Depths */

typedef uint8_t (*call)(const input *in);

typedef struct {
    call of;
    const input *in;
} made_call;

static bool answers_as_expected(const void *context)
{
    const made_call *made = context;

    return made->of(made->in) == made->in->refusal;
}

static void lend(const void *context)
{
    const made_call *made = context;

    if (made->in->table != NULL)
        lent = *made->in->table;
    if (made->in->shelf != NULL)
        lent_shelf = *made->in->shelf;
}

/* Writes the deepest of a call over its inputs. */
static void measure(const char *name, call of, const input *inputs, size_t count)
{
    size_t deepest = 0;

    for (size_t i = 0; i < count; i++) {
        made_call made = {of, &inputs[i]};
        size_t depth = depth_of(answers_as_expected, lend, &made);
        deepest = depth > deepest ? depth : deepest;
    }
    printf("%-16s %8zu %16zu\n", name, count, deepest);
}

#define MEASURE(name, of, inputs) measure(name, of, inputs, sizeof(inputs) / sizeof *(inputs))

/* ---- What each call is given */

#define BLOCK(block) .bytes = (block).bytes, .length = (block).length
#define FULL &reached[GT_MAX_PLACES]

static void measure_digest(void)
{
    const built_block *last = &busy.blocks[LAST_PLACE];
    /* On both sides of where the padding takes a block more. */
    const input inputs[] = {
        {.bytes = last->bytes, .length = 0, .room = GT_DIGEST_BYTES},
        {.bytes = last->bytes, .length = 55, .room = GT_DIGEST_BYTES},
        {.bytes = last->bytes, .length = 56, .room = GT_DIGEST_BYTES},
        {.bytes = last->bytes, .length = 128, .room = GT_DIGEST_BYTES},
        {BLOCK(*last), .room = sizeof output},
        {BLOCK(*last), .room = GT_DIGEST_BYTES - 1, .refusal = 17},
    };

    MEASURE("gt_digest", call_digest, inputs);
}

static void measure_read_block(void)
{
    const built_block *last = &busy.blocks[LAST_PLACE];
    const input inputs[] = {
        {BLOCK(busy.blocks[0])},
        {BLOCK(*last)},
        {.bytes = last->bytes, .length = last->length - 1, .refusal = 3},
        {BLOCK(bad_request), .refusal = 6},
        {BLOCK(slot_twice), .refusal = 18},
        {BLOCK(repeated), .refusal = 7},
    };

    MEASURE("gt_read_block", call_read_block, inputs);
}

static void measure_fresh(void)
{
    enum { ALL = GT_TABLE_BYTES };
    const input inputs[] = {
        {.bytes = busy.owners, .length = GT_SLOTS, .number = SITES, .room = ALL},
        {.bytes = busy.owners, .length = GT_SLOTS, .number = 2, .room = ALL, .refusal = 1},
        {.bytes = busy.owners, .length = GT_SLOTS, .number = 4, .room = ALL, .refusal = 1},
        {.bytes = busy.owners, .length = GT_SLOTS, .number = SITES, .room = ALL - 1, .refusal = 2},
    };

    MEASURE("gt_fresh", call_fresh, inputs);
}

static void measure_in_form(void)
{
    const input inputs[] = {
        {.table = &reached[0]}, {.table = &reached[ROUND]}, {.table = FULL},
        {.table = &bare},       {.table = &forked},         {.table = &out_of_form, .refusal = 2},
        {.table = &aged},
    };

    MEASURE("gt_in_form", call_in_form, inputs);
}

static void measure_admit(void)
{
    const built_block *last = &busy.blocks[LAST_PLACE];
    const input inputs[] = {
        {.table = &reached[0], BLOCK(busy.blocks[0]), .number = 1},
        {.table = &reached[ROUND], BLOCK(busy.blocks[ROUND]), .number = 1},
        {.table = &reached[LAST_PLACE], BLOCK(*last), .number = 1},
        {.table = &forked, BLOCK(busy.blocks[ROUND]), .number = 1},
        {.table = &out_of_form, BLOCK(*last), .number = 1, .refusal = 2},
        {.table = FULL, .bytes = last->bytes, .length = last->length - 1, .number = 1, .refusal = 3},
        {.table = FULL, BLOCK(bad_site), .number = 1, .refusal = 4},
        {.table = FULL, BLOCK(*last), .number = 0, .refusal = 5},
        {.table = FULL, BLOCK(bad_request), .number = 1, .refusal = 6},
        {.table = FULL, BLOCK(slot_twice), .number = 1, .refusal = 18},
        {.table = FULL, BLOCK(repeated), .number = 1, .refusal = 7},
        {.table = FULL, BLOCK(*last), .number = 1, .refusal = 8},
        {.table = FULL, BLOCK(unknown), .number = 1, .refusal = 9},
        {.table = FULL, BLOCK(orphan), .number = 1, .refusal = 10},
        {.table = FULL, BLOCK(another), .number = 1, .refusal = 11},
    };

    MEASURE("gt_admit", call_admit, inputs);
}

static void measure_interpret(void)
{
    enum { ALL = GT_RECORDS_NUMBERS };
    /* A block without references, then one that hears SEND, ECHO and READY of 16 sites. */
    const input inputs[] = {
        {.table = &admitted[0], .place = 0, .room = ALL},
        {.table = &admitted[ROUND], .place = ROUND, .room = ALL},
        {.table = &admitted[2 * ROUND], .place = 2 * ROUND, .room = ALL},
        {.table = &admitted[3 * ROUND], .place = 3 * ROUND, .room = ALL},
        {.table = &admitted[LAST_PLACE], .place = LAST_PLACE, .room = ALL},
        {.table = &out_of_form, .place = LAST_PLACE, .room = ALL, .refusal = 2},
        {.table = &admitted[LAST_PLACE], .place = LAST_PLACE, .room = ALL - 1, .refusal = 12},
        {.table = FULL, .place = GT_MAX_PLACES, .room = ALL, .refusal = 13},
        {.table = FULL, .place = LAST_PLACE, .room = ALL, .refusal = 14},
        {.table = &bare, .place = LAST_PLACE, .room = ALL, .refusal = 15},
    };

    MEASURE("gt_interpret", call_interpret, inputs);
}

static void measure_retire(void)
{
    enum { ALL = GT_RECORDS_NUMBERS };
    /* Of a full table, of one that has retired before, of a single round and one block more; then the refusals. */
    const input inputs[] = {
        {.table = FULL, .room = ALL},
        {.table = &aged, .room = ALL},
        {.table = &reached[ROUND + 1], .room = ALL},
        {.table = &out_of_form, .room = ALL, .refusal = 2},
        {.table = FULL, .room = ALL - 1, .refusal = 12},
        {.table = &reached[0], .room = ALL, .refusal = 13},
        {.table = &bare, .room = ALL, .refusal = 29},
        {.table = &admitted[LAST_PLACE], .room = ALL},
        {.table = &admitted[ROUND], .room = ALL, .refusal = 29},
        {.table = &reached[ROUND], .room = ALL, .refusal = 29},
    };

    MEASURE("gt_retire", call_retire, inputs);
}

static void measure_take_back(void)
{
    /* The first place, the last, of a table with forks and of one with nothing interpreted; then the refusals. */
    const input inputs[] = {
        {.table = &admitted[0]},
        {.table = &admitted[LAST_PLACE]},
        {.table = &forked},
        {.table = &bare},
        {.table = &out_of_form, .refusal = 2},
        {.table = &reached[0], .refusal = 32},
        {.table = FULL, .refusal = 33},
        {.table = &aged, .refusal = 33},
    };

    MEASURE("gt_take_back", call_take_back, inputs);
}

static void measure_forks(void)
{
    const input inputs[] = {
        {.table = &reached[0]},
        {.table = FULL},
        {.table = &forked},
        {.table = &out_of_form, .refusal = 2},
    };

    MEASURE("gt_forks", call_forks, inputs);
}

static void measure_ancestors(void)
{
    const input inputs[] = {
        {.table = FULL, .place = 0},
        {.table = FULL, .place = LAST_PLACE},
        {.table = &out_of_form, .place = 0, .refusal = 2},
        {.table = FULL, .place = GT_MAX_PLACES, .refusal = 13},
    };

    MEASURE("gt_ancestors", call_ancestors, inputs);
}

static void measure_build(void)
{
    enum { ALL = GT_MAX_BLOCK_BYTES };
    const uint8_t *requests = busy.blocks[0].bytes + GT_HEADER_BYTES, *bad_requests = bad_request.bytes + ALL - LIST_BYTES;
    const uint8_t *repeated_requests = slot_twice.bytes + ALL - LIST_BYTES;
    /* A first block, one that refers to nothing new, the longest one, then the refusals. */
    const input inputs[] = {
        {.table = &reached[0], .bytes = requests, .length = 0, .number = 0, .room = ALL},
        {.table = FULL, .bytes = requests, .length = 0, .number = SITES - 1, .room = ALL},
        {.table = FULL, .bytes = requests, .length = LIST_BYTES, .number = 0, .room = ALL},
        {.table = &out_of_form, .bytes = requests, .length = LIST_BYTES, .number = 0, .room = ALL, .refusal = 2},
        {.table = FULL, .bytes = requests, .length = LIST_BYTES - 1, .number = 0, .room = ALL, .refusal = 3},
        {.table = FULL, .bytes = requests, .length = LIST_BYTES, .number = SITES, .room = ALL, .refusal = 4},
        {.table = FULL, .bytes = bad_requests, .length = LIST_BYTES, .number = 0, .room = ALL, .refusal = 6},
        {.table = FULL, .bytes = repeated_requests, .length = LIST_BYTES, .number = 0, .room = ALL, .refusal = 18},
        {.table = &forked, .bytes = requests, .length = LIST_BYTES, .number = 0, .room = ALL, .refusal = 16},
        {.table = &last_number, .bytes = requests, .length = LIST_BYTES, .number = 0, .room = ALL, .refusal = 30},
        {.table = FULL, .bytes = requests, .length = LIST_BYTES, .number = 0, .room = ALL - 1, .refusal = 17},
    };

    MEASURE("gt_build", call_build, inputs);
}

/* An admission, an interpretation and a taking back, all of the last block, and a retiring. */
static void measure_replay(void)
{
    uint8_t admission[10 + GT_MAX_BLOCK_BYTES] = {0, 1, GT_MAX_BLOCK_BYTES % 256, GT_MAX_BLOCK_BYTES / 256};
    const uint8_t interpretation[9] = {1, LAST_PLACE}, retiring[1] = {2}, taking_back[1] = {3};
    const input inputs[] = {
        {.table = &reached[LAST_PLACE], .bytes = admission, .length = sizeof admission},
        {.table = &admitted[LAST_PLACE], .bytes = interpretation, .length = sizeof interpretation},
        {.table = FULL, .bytes = retiring, .length = sizeof retiring},
        {.table = &admitted[LAST_PLACE], .bytes = taking_back, .length = sizeof taking_back},
    };

    memcpy(admission + 10, busy.blocks[LAST_PLACE].bytes, GT_MAX_BLOCK_BYTES);
    MEASURE("gt_replay", call_replay, inputs);
}

static void measure_shelf_in_form(void)
{
    const input inputs[] = {
        {.shelf = &empty_shelf},
        {.shelf = &in_order},
        {.shelf = &reversed},
        {.shelf = &same_bytes_twice, .refusal = 2},
    };

    MEASURE("gt_shelf_in_form", call_shelf_in_form, inputs);
}

/* A block with a good signature on a table and a shelf, with room for all outcomes. */
#define ARRIVES(block, on, beside) .table = (on), .shelf = (beside), BLOCK(block), .number = 1, .room = GT_OUTCOMES_NUMBERS

static void measure_arrive(void)
{
    enum { ALL = GT_OUTCOMES_NUMBERS };
    const built_block *first = &busy.blocks[0], *next = &busy.blocks[HELD_BEFORE], *last = &busy.blocks[LAST_PLACE];
    const built_block *lets_in = &waiting_chain.blocks[0], *waits = &waiting_chain.blocks[CHAIN_BLOCKS - 1];
    const table *held = &reached[HELD_BEFORE], *but_one = &reached[LAST_PLACE];
    /* Nothing waits, or nothing is ready; ten are let in by one pass and by ten; ten are dropped by 10 and by 4, one by 11; one
     * is dropped by 8, the next are let in, and the last is dropped by 11. Then a block that waits, and the refusals. */
    const input inputs[] = {
        {ARRIVES(*first, &reached[0], &empty_shelf)},
        {ARRIVES(*last, but_one, &empty_shelf)},
        {ARRIVES(*next, held, &in_order)},
        {ARRIVES(*lets_in, held, &in_order), .ended = 10},
        {ARRIVES(*lets_in, held, &reversed), .ended = 10},
        {ARRIVES(*lets_in, held, &orphans), .ended = 10},
        {ARRIVES(*first, &few_sites, &in_order), .ended = 10},
        {ARRIVES(*lets_in, but_one, &in_order), .ended = 1},
        {ARRIVES(*next, &second_held, &in_order), .ended = 10},
        {ARRIVES(*waits, held, &empty_shelf), .refusal = 9},
        {ARRIVES(*waits, held, &in_order), .refusal = 20},
        {ARRIVES(spare_orphan, held, &in_order), .refusal = 19},
        {ARRIVES(*waits, held, &in_order), .campaign = GT_CAMPAIGNS, .refusal = 21},
        {.table = held, .shelf = &in_order, BLOCK(*last), .number = 1, .room = ALL - 1, .refusal = 17},
        {ARRIVES(*last, held, &same_bytes_twice), .refusal = 2},
        {ARRIVES(*last, &out_of_form, &in_order), .refusal = 2},
        {.table = FULL, .shelf = &in_order, .bytes = last->bytes, .length = 4, .number = 1, .room = ALL, .refusal = 3},
        {ARRIVES(bad_site, FULL, &in_order), .refusal = 4},
        {.table = FULL, .shelf = &in_order, BLOCK(*last), .number = 0, .room = ALL, .refusal = 5},
        {ARRIVES(bad_request, FULL, &in_order), .refusal = 6},
        {ARRIVES(slot_twice, FULL, &in_order), .refusal = 18},
        {ARRIVES(repeated, FULL, &in_order), .refusal = 7},
        {ARRIVES(*last, FULL, &in_order), .refusal = 8},
        {ARRIVES(orphan, FULL, &in_order), .refusal = 10},
        {ARRIVES(another, FULL, &in_order), .refusal = 11},
    };

    MEASURE("gt_arrive", call_arrive, inputs);
}

static void measure_join(void)
{
    enum { ALL = GT_RECORDS_NUMBERS };
    const table *empty = &reached[0], *round = &reached[ROUND], *most = &reached[3 * ROUND];
    /* Nothing or all is new, or in common; some is, with references to both; parts of the right, of the left, and of both. Then
     * the refusals. */
    const input inputs[] = {
        {.table = empty, .right = empty, .room = ALL},
        {.table = empty, .right = FULL, .room = ALL},
        {.table = FULL, .right = empty, .room = ALL},
        {.table = FULL, .right = FULL, .room = ALL},
        {.table = round, .right = FULL, .room = ALL},
        {.table = &forked, .right = most, .room = ALL},
        {.table = most, .right = &forked, .room = ALL},
        {.table = &bare, .right = FULL, .room = ALL},
        {.table = FULL, .right = &bare, .room = ALL},
        {.table = &out_of_form, .right = FULL, .room = ALL, .refusal = 2},
        {.table = FULL, .right = &out_of_form, .room = ALL, .refusal = 2},
        {.table = FULL, .right = FULL, .room = ALL - 1, .refusal = 12},
        {.table = &aged, .right = FULL, .room = ALL, .refusal = 31},
        {.table = FULL, .right = &aged, .room = ALL, .refusal = 31},
        {.table = empty, .right = &few_sites, .room = ALL, .refusal = 23},
        {.table = FULL, .right = &clashing, .room = ALL, .refusal = 24},
        {.table = FULL, .right = &forked, .room = ALL, .refusal = 25},
    };

    MEASURE("gt_join", call_join, inputs);
}

/* What ending the thread takes. */
static void measure_nothing(void)
{
    const input inputs[] = {{.refusal = 0}};

    MEASURE("nothing", call_nothing, inputs);
}

int main(void)
{
    busy = busy_campaign();
    prepare_tables();
    prepare_aged_tables();
    prepare_forks();
    prepare_blocks();
    prepare_shelves();
    prepare_tables_beside_shelves();

    puts("call               inputs   bytes of stack");
    measure_nothing();
    measure_digest();
    measure_read_block();
    measure_fresh();
    measure_in_form();
    measure_admit();
    measure_interpret();
    measure_retire();
    measure_take_back();
    measure_forks();
    measure_ancestors();
    measure_build();
    measure_replay();
    measure_shelf_in_form();
    measure_arrive();
    measure_join();
    return 0;
}
