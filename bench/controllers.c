/* The two behind one face. */
#include "controllers.h"

#include <string.h>

#include "layout.h"

static size_t lent(uint8_t campaign) { return campaign < GT_CAMPAIGNS ? campaign : 0; }

/* ---- The proved one */

static uint8_t our_tables[GT_CAMPAIGNS][GT_TABLE_BYTES], our_kept_table[GT_TABLE_BYTES];
static uint8_t our_shelf[GT_SHELF_BYTES], our_kept_shelf[GT_SHELF_BYTES];

static gt_answer our_fresh(uint8_t campaign, uint8_t sites, const uint8_t owners[GT_SLOTS])
{
    return gt_fresh(sites, owners, GT_SLOTS, our_tables[campaign], GT_TABLE_BYTES);
}

static gt_answer our_admit(uint8_t campaign, const uint8_t *block, size_t length)
{
    return gt_admit(our_tables[campaign], GT_TABLE_BYTES, block, length, 1);
}

static arrived our_arrive(uint8_t campaign, const uint8_t *block, size_t length, uint8_t verdict)
{
    uint64_t outcomes[GT_OUTCOMES_NUMBERS];
    gt_arrival arrival = gt_arrive(our_tables[lent(campaign)], GT_TABLE_BYTES, our_shelf, GT_SHELF_BYTES, campaign, block, length,
                                   verdict, outcomes, GT_OUTCOMES_NUMBERS);
    arrived answer = {.answer = arrival.answer, .ended = arrival.ended};

    for (size_t i = 0; i < arrival.ended; i++)
        answer.outcomes[i] = (gt_answer){(uint8_t)outcomes[2 * i], outcomes[2 * i + 1]};
    return answer;
}

static bool our_shelf_in_form(void) { return gt_shelf_in_form(our_shelf, GT_SHELF_BYTES); }

static void our_put_shelf(const uint8_t shelf[GT_SHELF_BYTES]) { memcpy(our_shelf, shelf, GT_SHELF_BYTES); }

static seen_state our_seen(uint8_t campaign)
{
    seen_state seen;

    memcpy(seen.table, our_tables[campaign], GT_TABLE_BYTES);
    memcpy(seen.shelf, our_shelf, GT_SHELF_BYTES);
    return seen;
}

static void our_keep(void)
{
    memcpy(our_kept_table, our_tables[0], GT_TABLE_BYTES);
    memcpy(our_kept_shelf, our_shelf, GT_SHELF_BYTES);
}

static void our_put_back(void)
{
    memcpy(our_tables[0], our_kept_table, GT_TABLE_BYTES);
    memcpy(our_shelf, our_kept_shelf, GT_SHELF_BYTES);
}

/* ---- The one in C */

static baseline_table c_tables[CAMPAIGNS], c_kept_table;
static baseline_shelf c_shelf, c_kept_shelf;

static gt_answer c_fresh(uint8_t campaign, uint8_t sites, const uint8_t owners[GT_SLOTS])
{
    return from_c(baseline_fresh(&c_tables[campaign], sites, owners));
}

static gt_answer c_admit(uint8_t campaign, const uint8_t *block, size_t length)
{
    return from_c(baseline_admit(&c_tables[campaign], block, length, 1));
}

static arrived c_arrive(uint8_t campaign, const uint8_t *block, size_t length, uint8_t verdict)
{
    baseline_arrival arrival = baseline_arrive(&c_tables[lent(campaign)], &c_shelf, campaign, block, length, verdict);
    arrived answer = {.answer = from_c(arrival.answer), .ended = arrival.ended};

    for (size_t i = 0; i < arrival.ended; i++)
        answer.outcomes[i] = from_c(arrival.outcomes[i]);
    return answer;
}

static bool c_shelf_in_form(void) { return baseline_shelf_in_form(&c_shelf); }

/* From and to the layout of a shelf, in which an entry is campaign, length and block. */
enum { ENTRY_BYTES = 3 + MAX_BLOCK_BYTES };

static void c_put_shelf(const uint8_t shelf[GT_SHELF_BYTES])
{
    c_shelf.count = shelf[0];
    for (size_t i = 0; i < SHELF_PLACES; i++) {
        const uint8_t *entry = shelf + 1 + ENTRY_BYTES * i;
        c_shelf.waiting[i].campaign = entry[0];
        c_shelf.waiting[i].length = (uint16_t)(entry[1] << 8 | entry[2]);
        memcpy(c_shelf.waiting[i].bytes, entry + 3, MAX_BLOCK_BYTES);
    }
}

static void see_shelf(uint8_t shelf[GT_SHELF_BYTES])
{
    shelf[0] = c_shelf.count;
    for (size_t i = 0; i < SHELF_PLACES; i++) {
        const baseline_waiting *w = &c_shelf.waiting[i];
        uint8_t *entry = shelf + 1 + ENTRY_BYTES * i;
        memcpy(entry, (uint8_t[]){w->campaign, (uint8_t)(w->length >> 8), (uint8_t)w->length}, 3);
        memcpy(entry + 3, w->bytes, MAX_BLOCK_BYTES);
    }
}

static seen_state c_seen(uint8_t campaign)
{
    seen_state seen;

    see_table(&c_tables[campaign], seen.table);
    see_shelf(seen.shelf);
    return seen;
}

static void c_keep(void)
{
    c_kept_table = c_tables[0];
    c_kept_shelf = c_shelf;
}

static void c_put_back(void)
{
    c_tables[0] = c_kept_table;
    c_shelf = c_kept_shelf;
}

const controller controllers[COMPARED] = {
    [OURS] = {our_fresh, our_admit, our_arrive, our_shelf_in_form, our_put_shelf, our_seen, our_keep, our_put_back},
    [IN_C] = {c_fresh, c_admit, c_arrive, c_shelf_in_form, c_put_shelf, c_seen, c_keep, c_put_back},
};
