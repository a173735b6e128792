/* The shelf: its form, and arrivals. */
#include "inner.h"

/* ---- Places of the shelf */

/* How many each campaign holds. */
typedef struct {
    size_t of[CAMPAIGNS];
} holders;

static holders holders_of(const baseline_shelf *shelf)
{
    holders held = {{0}};

    for (size_t i = 0; i < shelf->count; i++)
        held.of[shelf->waiting[i].campaign]++;
    return held;
}

/* What a campaign lacks of the places that it may always hold. */
static size_t lack(size_t held) { return held < RESERVED_PLACES ? RESERVED_PLACES - held : 0; }

static size_t lack_of_all(const holders *held)
{
    size_t sum = 0;

    for (size_t campaign = 0; campaign < CAMPAIGNS; campaign++)
        sum += lack(held->of[campaign]);
    return sum;
}

/* The free places must cover what the others lack after one more is taken. */
static bool may_take(const baseline_shelf *shelf, uint8_t campaign)
{
    holders held = holders_of(shelf);
    size_t own = held.of[campaign], others_lack = lack_of_all(&held) - lack(own);

    return own < MOST_PLACES && SHELF_PLACES - (size_t)shelf->count > others_lack;
}

/* ---- Form */

static bool same_bytes(const baseline_waiting *x, uint8_t campaign, const uint8_t *bytes, size_t length)
{
    return x->campaign == campaign && x->length == length && memcmp(x->bytes, bytes, length) == 0;
}

/* Whether the bytes wait for the campaign in one of the first entries. */
static bool waits(const baseline_shelf *shelf, size_t entries, uint8_t campaign, const uint8_t *bytes, size_t length)
{
    for (size_t i = 0; i < entries; i++)
        if (same_bytes(&shelf->waiting[i], campaign, bytes, length))
            return true;
    return false;
}

static bool accepted(const uint8_t *bytes, size_t length)
{
    baseline_block block;

    return baseline_read(bytes, length, &block) && baseline_check_lists(&block).refusal == NONE;
}

static bool entry_in_form(const baseline_shelf *shelf, size_t entry)
{
    const baseline_waiting *w = &shelf->waiting[entry];

    return w->campaign < CAMPAIGNS && w->length <= MAX_BLOCK_BYTES && accepted(w->bytes, w->length)
        && all_zero(w->bytes + w->length, MAX_BLOCK_BYTES - (size_t)w->length)
        && !waits(shelf, entry, w->campaign, w->bytes, w->length);
}

static bool places_in_form(const baseline_shelf *shelf)
{
    holders held = holders_of(shelf);

    for (size_t campaign = 0; campaign < CAMPAIGNS; campaign++)
        if (held.of[campaign] > MOST_PLACES)
            return false;
    return SHELF_PLACES - (size_t)shelf->count >= lack_of_all(&held);
}

bool baseline_shelf_in_form(const baseline_shelf *shelf)
{
    size_t count = shelf->count;

    if (count > SHELF_PLACES)
        return false;
    for (size_t entry = 0; entry < count; entry++)
        if (!entry_in_form(shelf, entry))
            return false;
    return places_in_form(shelf) && all_zero(shelf->waiting + count, (SHELF_PLACES - count) * sizeof *shelf->waiting);
}

/* ---- An arrival that waits */

static baseline_answer let_wait(baseline_shelf *shelf, uint8_t campaign, const uint8_t *bytes, size_t length, size_t index)
{
    if (waits(shelf, shelf->count, campaign, bytes, length))
        return answer(WAITS_ALREADY, 0);
    if (!may_take(shelf, campaign))
        return answer(NO_SHELF_PLACE, 0);
    baseline_waiting *w = &shelf->waiting[shelf->count++];
    w->campaign = campaign;
    w->length = (uint16_t)length;
    memcpy(w->bytes, bytes, length);
    return answer(NOT_HELD, index);
}

/* ---- Waiting blocks that are tried */

/* A waiting block. It is read and its digest worked out once, however many passes try it. */
typedef struct {
    baseline_block block;
    baseline_digest digest;
} candidate;

/* Fills the candidates of a campaign, each at the index of its entry; gives these as a set. */
static uint64_t read_waiting(const baseline_shelf *shelf, uint8_t campaign, candidate candidates[SHELF_PLACES])
{
    uint64_t entries = 0;

    for (size_t i = 0; i < shelf->count; i++) {
        const baseline_waiting *w = &shelf->waiting[i];
        if (w->campaign == campaign) {
            baseline_read(w->bytes, w->length, &candidates[i].block); /* the form says that it is a block */
            candidates[i].digest = baseline_digest_of(w->bytes, w->length);
            entries |= UINT64_C(1) << i;
        }
    }
    return entries;
}

static baseline_answer try(baseline_table *table, const candidate *c)
{
    return c->block.site < table->sites ? baseline_hold(table, &c->block, &c->digest) : answer(NO_SITE, 0);
}

/* Tries each entry of the set once, and takes those out of it that end. Whether one was let in. */
static bool pass(baseline_table *table, const candidate candidates[SHELF_PLACES], uint64_t *entries, baseline_arrival *arrival)
{
    bool let_in = false;

    for (uint64_t rest = *entries; rest != 0; rest = without_lowest(rest)) {
        baseline_answer tried = try(table, &candidates[lowest(rest)]);
        if (tried.refusal == NOT_HELD)
            continue;
        *entries &= ~(UINT64_C(1) << lowest(rest));
        arrival->outcomes[arrival->ended++] = answer(tried.refusal, tried.refusal == NONE ? tried.value : 0);
        let_in |= tried.refusal == NONE;
    }
    return let_in;
}

/* The entries that stay move up, in their order. */
static void keep_entries(baseline_shelf *shelf, uint64_t entries)
{
    size_t kept = 0;

    for (uint64_t rest = entries; rest != 0; rest = without_lowest(rest)) {
        if (kept != lowest(rest))
            shelf->waiting[kept] = shelf->waiting[lowest(rest)];
        kept++;
    }
    memset(shelf->waiting + kept, 0, (shelf->count - kept) * sizeof *shelf->waiting);
    shelf->count = (uint8_t)kept;
}

static void try_waiting(baseline_table *table, baseline_shelf *shelf, uint8_t campaign, baseline_arrival *arrival)
{
    candidate candidates[SHELF_PLACES];
    uint64_t all = (UINT64_C(1) << shelf->count) - 1;
    uint64_t tried = read_waiting(shelf, campaign, candidates), others = all & ~tried;

    while (pass(table, candidates, &tried, arrival))
        ;
    if (arrival->ended > 0)
        keep_entries(shelf, others | tried);
}

baseline_arrival baseline_arrive(baseline_table *table, baseline_shelf *shelf, uint8_t campaign, const uint8_t *bytes,
                                 size_t length, uint8_t verdict)
{
    baseline_arrival arrival;

    arrival.ended = 0;
    if (campaign >= CAMPAIGNS)
        arrival.answer = answer(NO_CAMPAIGN, 0);
    else if (!baseline_shelf_in_form(shelf))
        arrival.answer = answer(NOT_IN_FORM, 0);
    else
        arrival.answer = baseline_admit(table, bytes, length, verdict);
    if (arrival.answer.refusal == NOT_HELD)
        arrival.answer = let_wait(shelf, campaign, bytes, length, arrival.answer.value);
    else if (arrival.answer.refusal == NONE)
        try_waiting(table, shelf, campaign, &arrival);
    return arrival;
}
