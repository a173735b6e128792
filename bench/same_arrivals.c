/* The two controllers answer alike on random arrivals. */
#include "same_arrivals.h"

#include <string.h>

#include "chance.h"
#include "expect.h"
#include "layout.h"

enum { POOL = 100, ARRIVALS_IN_A_POOL = 800, AHEAD = 12, REFUSALS = 22 };

/* How long an entry of a shelf is, in the layout of docs/FORMATS.md. */
enum { ENTRY_BYTES = 3 + GT_MAX_BLOCK_BYTES };

/* ---- Calls on both */

static const controller *const ours = &controllers[OURS], *const other = &controllers[IN_C];

static void expect_same_state(uint8_t campaign)
{
    seen_state x = ours->seen(campaign), y = other->seen(campaign);

    expect(memcmp(x.table, y.table, sizeof x.table) == 0, "two tables differ");
    expect(memcmp(x.shelf, y.shelf, sizeof x.shelf) == 0, "two shelves differ");
}

arrived arrive_at_both(uint8_t campaign, const built_block *block, uint8_t verdict)
{
    arrived x = ours->arrive(campaign, block->bytes, block->length, verdict);
    arrived y = other->arrive(campaign, block->bytes, block->length, verdict);

    expect(alike(x.answer, y.answer), "two answers to an arrival differ");
    expect(x.ended == y.ended, "two arrivals ended not as many waiting blocks");
    for (size_t i = 0; i < x.ended; i++)
        expect(alike(x.outcomes[i], y.outcomes[i]), "two outcomes differ");
    expect_same_state(campaign < GT_CAMPAIGNS ? campaign : 0);
    return x;
}

bool form_at_both(void)
{
    bool in_form = ours->shelf_in_form();

    expect(other->shelf_in_form() == in_form, "one of two equal shelves is in form");
    return in_form;
}

static void put_shelf_at_both(const uint8_t shelf[GT_SHELF_BYTES])
{
    ours->put_shelf(shelf);
    other->put_shelf(shelf);
}

static void fresh_at_both(uint8_t campaign, uint8_t sites, const uint8_t owners[GT_SLOTS])
{
    expect(ours->fresh(campaign, sites, owners).refusal == 0 && other->fresh(campaign, sites, owners).refusal == 0,
           "the setup was refused");
}

static void admit_at_both(uint8_t campaign, const built_block *block)
{
    expect(alike(ours->admit(campaign, block->bytes, block->length), other->admit(campaign, block->bytes, block->length)),
           "two answers to an admission differ");
}

static void empty_both(void)
{
    static const uint8_t empty[GT_SHELF_BYTES];

    put_shelf_at_both(empty);
}

void start_both(uint8_t sites, const uint8_t owners[GT_SLOTS])
{
    for (uint8_t campaign = 0; campaign < GT_CAMPAIGNS; campaign++)
        fresh_at_both(campaign, sites, owners);
    empty_both();
}

/* ---- The pool: blocks of which all campaigns are sent some, each in an order of its own */

static built_block pool[POOL];
static bool leads_on[POOL]; /* others refer to it */

/* A block without its parent is one that nobody builds on. */
static void fill_pool(uint8_t sites)
{
    known_blocks known = {.sites = sites, .count = 0};

    for (size_t i = 0; i < POOL; i++) {
        pool[i] = some_block(&known);
        leads_on[i] = !one_in(10);
        if (leads_on[i])
            know(&known, &pool[i]);
        else
            pool[i].bytes[2]++;
    }
}

static bool holds(const uint8_t table[GT_TABLE_BYTES], const built_block *block)
{
    uint8_t digest[GT_DIGEST_BYTES];

    gt_digest(block->bytes, block->length, digest, sizeof digest);
    for (size_t place = 0; place < table[GT_TABLE_COUNT]; place++)
        if (memcmp(table + GT_TABLE_ROWS + GT_ROW_BYTES * place, digest, sizeof digest) == 0)
            return true;
    return false;
}

/* The first block that a campaign lacks, or one ahead of it. */
static built_block sent_to(uint8_t campaign)
{
    seen_state seen = ours->seen(campaign);
    size_t i = 0;

    while (i < POOL - 1 && (!leads_on[i] || holds(seen.table, &pool[i])))
        i++;
    if (!one_in(5))
        i += below(AHEAD);
    return pool[i < POOL ? i : POOL - 1];
}

/* ---- Shelves that no arrivals made */

static uint8_t *entry_of(uint8_t shelf[GT_SHELF_BYTES], size_t i) { return shelf + 1 + ENTRY_BYTES * i; }

/* One more entry: a copy of another, for any campaign. */
static void repeat_entry(uint8_t shelf[GT_SHELF_BYTES])
{
    uint8_t *copy = entry_of(shelf, shelf[0]);

    memcpy(copy, entry_of(shelf, below(shelf[0])), ENTRY_BYTES);
    copy[0] = (uint8_t)below(GT_CAMPAIGNS);
    shelf[0]++;
}

/* The count, or an entry that waits or the one behind them: its campaign, or a bit of it, more often near its head. */
static void change_shelf(uint8_t shelf[GT_SHELF_BYTES])
{
    bool full = shelf[0] == GT_SHELF_PLACES;
    uint8_t *entry = entry_of(shelf, below(full ? GT_SHELF_PLACES : shelf[0] + 1u));

    if (shelf[0] > 0 && !full && one_in(3))
        repeat_entry(shelf);
    else if (one_in(6))
        shelf[0] = (uint8_t)(shelf[0] + below(3) - 1);
    else if (one_in(3))
        entry[0] = (uint8_t)below(GT_CAMPAIGNS + 2);
    else
        entry[one_in(2) ? below(12) : below(ENTRY_BYTES)] ^= (uint8_t)(1 << below(8));
}

/* ---- Arrivals */

static size_t answered[REFUSALS], ended_with[REFUSALS], forms[2];

static void count_answer(const arrived *a)
{
    answered[a->answer.refusal]++;
    for (size_t i = 0; i < a->ended; i++)
        ended_with[a->outcomes[i].refusal]++;
}

/* The last reference is then the first once more. */
static void repeat_reference(built_block *block)
{
    const uint8_t references = block->bytes[3];

    if (references > 1)
        memcpy(block->bytes + 5 + GT_DIGEST_BYTES * (references - 1), block->bytes + 5, GT_DIGEST_BYTES);
}

static void send(void)
{
    uint8_t campaign = (uint8_t)below(GT_CAMPAIGNS), verdict = one_in(30) ? (uint8_t)below(256) : 1;
    built_block block = sent_to(campaign);

    if (one_in(50))
        repeat_reference(&block);
    if (one_in(50))
        repeat_slot(&block);
    if (one_in(20))
        damage(&block);
    if (one_in(50))
        campaign = (uint8_t)(GT_CAMPAIGNS + below(256 - GT_CAMPAIGNS));
    arrived a = arrive_at_both(campaign, &block, verdict);
    count_answer(&a);
}

/* One that is still in form stays changed. */
static void send_to_changed_shelf(void)
{
    seen_state before = ours->seen(0), changed = before;

    change_shelf(changed.shelf);
    put_shelf_at_both(changed.shelf);
    bool in_form = form_at_both();
    forms[in_form]++;
    send();
    if (!in_form)
        put_shelf_at_both(before.shelf);
}

static void admit_past_the_shelf(void)
{
    uint8_t campaign = (uint8_t)below(GT_CAMPAIGNS);
    built_block block = sent_to(campaign);

    admit_at_both(campaign, &block);
}

/* Its waiting blocks stay, of sites that there may no longer be. */
static void start_again(uint8_t campaign)
{
    static const uint8_t owners[GT_SLOTS];

    fresh_at_both(campaign, some_sites(), owners);
}

static void start_pool(void)
{
    static const uint8_t owners[GT_SLOTS];
    uint8_t sites = some_sites();

    fill_pool(sites);
    start_both(sites, owners);
}

/* Comparisons of what never came would say nothing. */
static void expect_all_kinds(void)
{
    static const uint8_t answers[] = {0, 2, 3, 4, 5, 6, 7, 8, 9, 10, 11, 18, 19, 20, 21}, outcomes[] = {0, 4, 8, 10, 11};

    for (size_t i = 0; i < sizeof answers; i++)
        expect(answered[answers[i]] > 0, "a refusal did not come at random");
    for (size_t i = 0; i < sizeof outcomes; i++)
        expect(ended_with[outcomes[i]] > 0, "an outcome did not come at random");
    expect(forms[false] > 0 && forms[true] > 0, "changed shelves were all in form, or none");
}

void expect_same_arrivals_at_random(size_t arrivals)
{
    for (size_t i = 0; i < arrivals; i++) {
        if (i % ARRIVALS_IN_A_POOL == 0)
            start_pool();
        if (one_in(20))
            admit_past_the_shelf();
        if (one_in(400))
            start_again((uint8_t)below(GT_CAMPAIGNS));
        if (one_in(50)) /* so that it isn't always full of what waits for ever */
            empty_both();
        if (one_in(15))
            send_to_changed_shelf();
        else
            send();
        expect(form_at_both(), "a shelf that arrivals left is not in form");
    }
    expect_all_kinds();
}
