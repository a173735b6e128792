/* What an arrival costs as the table fills, ours against the baseline in C and against a digest; and a million arrivals that
 * come after the 64th block, all refused.
 * It prints what it measures and judges neither time nor memory. An answer other than the expected one, a difference between
 * the two, or a refused arrival that changed a byte of the table or the records ends it with status 1. */
#include <stdio.h>
#include <string.h>

#include "campaigns.h"
#include "compared.h"
#include "expect.h"
#include "layout.h"
#include "timing.h"

enum { CALLS = 1000, REFUSED_ARRIVALS = 1000000, BATCHES = 10, REFUSED_IN_A_BATCH = REFUSED_ARRIVALS / BATCHES };

enum { BUSY, ORDINARY, MEASURED_CAMPAIGNS };

static campaign measured[MEASURED_CAMPAIGNS];

/* ---- An arrival at a table that holds so many blocks */

static const size_t held_counts[] = {8, 16, 32, LAST_PLACE, GT_MAX_PLACES};

static built_block arriving;
static uint8_t our_kept[GT_TABLE_BYTES], our_table[GT_TABLE_BYTES];
static baseline_table c_kept, c_table;
static uint16_t our_records[GT_RECORDS_NUMBERS], c_records[GT_RECORDS_NUMBERS];

/* The campaign's next block; after its last one what site 0 would build, with the requests of the last. */
static built_block next_of(const campaign *c, size_t held)
{
    const built_block *last = &c->blocks[LAST_PLACE];
    size_t requests = (size_t)GT_REQUEST_BYTES * last->bytes[4];

    return held < GT_MAX_PLACES ? c->blocks[held] : build_next(our_kept, 0, last->bytes + last->length - requests, requests);
}

static void prepare(const campaign *c, size_t held)
{
    hold_first(c, held, our_kept, our_records);
    put_table(&c_kept, our_kept);
    memcpy(c_records, our_records, sizeof our_records);
    arriving = next_of(c, held);
}

/* The kinds that are timed. Each gives its refusal. The table is put back before an arrival; that copy is in the time. */

static uint8_t our_arrival(void)
{
    memcpy(our_table, our_kept, GT_TABLE_BYTES);
    return admit_and_interpret(our_table, our_records, &arriving).refusal;
}

static uint8_t c_arrival(void)
{
    c_table = c_kept;
    baseline_answer answer = baseline_admit(&c_table, arriving.bytes, arriving.length, 1);
    if (answer.refusal == NONE)
        answer = baseline_interpret(&c_table, answer.value, c_records, RECORDS_NUMBERS);
    return answer.refusal;
}

static uint8_t one_digest(void)
{
    static const uint8_t message[GT_MAX_BLOCK_BYTES];
    uint8_t digest[GT_DIGEST_BYTES];

    return gt_digest(message, sizeof message, digest, sizeof digest).refusal;
}

enum { DIGEST = COMPARED, KINDS };

static uint8_t (*const calls[KINDS])(void) = {[OURS] = our_arrival, [IN_C] = c_arrival, [DIGEST] = one_digest};

static uint8_t expected_of(size_t kind, size_t held) { return kind != DIGEST && held == GT_MAX_PLACES ? FULL : NONE; }

static void call_often(size_t kind, const void *context)
{
    uint8_t expected = expected_of(kind, *(const size_t *)context);
    bool all = true;

    for (int i = 0; i < CALLS; i++)
        all = calls[kind]() == expected && all;
    expect(all, "a call was answered otherwise than expected");
}

/* An arrival at each of the two leaves the same. */
static void expect_same(size_t held)
{
    uint8_t seen[GT_TABLE_BYTES];

    expect(our_arrival() == expected_of(OURS, held), "ours answered otherwise than expected");
    expect(c_arrival() == expected_of(IN_C, held), "C answered otherwise than expected");
    see_table(&c_table, seen);
    expect(memcmp(our_table, seen, sizeof seen) == 0, "the two tables differ");
    expect(memcmp(our_records, c_records, sizeof our_records) == 0, "the two records differ");
}

static void compare_arrivals(const campaign *c, size_t held)
{
    static timing timings[KINDS];

    prepare(c, held);
    expect_same(held);
    time_in_turn(KINDS, timings, call_often, &held);
    printf("%6zu %10d %10d %11zu", held, expected_of(OURS, held), arriving.bytes[3], arriving.length);
    print_microseconds(COMPARED, timings, CALLS);
    print_ratio(&timings[IN_C], &timings[OURS]);
    print_ratio(&timings[OURS], &timings[DIGEST]);
    puts("");
}

static void compare_campaign(const campaign *c)
{
    puts("");
    puts(c->name);
    puts("  held    refusal references block bytes    ours us       C us     C/ours    digests");
    for (size_t i = 0; i < sizeof held_counts / sizeof *held_counts; i++)
        compare_arrivals(c, held_counts[i]);
}

/* ---- A million arrivals after the 64th block */

enum { HELD_ONE_IN = 4, MOST_SITES = 16 };

/* What is lent to the calls, and how it was before the first arrival; and a next block of each site. */
typedef struct {
    uint8_t table[GT_TABLE_BYTES], table_before[GT_TABLE_BYTES];
    uint16_t records[GT_RECORDS_NUMBERS], records_before[GT_RECORDS_NUMBERS];
    built_block next[MOST_SITES];
} full_site;

static full_site full_sites[MEASURED_CAMPAIGNS];

static void fill_site(full_site *s, const campaign *c)
{
    const uint8_t requests[] = {0, 0, 1, 1, 0, 1};

    hold_first(c, GT_MAX_PLACES, s->table, s->records);
    for (uint8_t site = 0; site < c->sites; site++)
        s->next[site] = build_next(s->table, site, requests, sizeof requests);
    memcpy(s->table_before, s->table, sizeof s->table);
    memcpy(s->records_before, s->records, sizeof s->records);
}

/* No two arrivals have the same two numbers in their requests, so no block comes twice. */
static void number(built_block *b, size_t arrival)
{
    size_t low = 1 + arrival % 65535, high = 1 + arrival / 65535;
    uint8_t *end = b->bytes + b->length;

    end[-5] = (uint8_t)(high >> 8);
    end[-4] = (uint8_t)high;
    end[-2] = (uint8_t)(low >> 8);
    end[-1] = (uint8_t)low;
}

/* Whether a held block is refused by its place, and a new one since the table is full. */
static bool is_refused(full_site *s, const campaign *c, size_t arrival)
{
    bool is_held = arrival % HELD_ONE_IN == 0;
    size_t turn = arrival / HELD_ONE_IN, place = turn % GT_MAX_PLACES;
    built_block *next = &s->next[turn % c->sites];

    number(next, arrival);
    gt_answer answer = admit_and_interpret(s->table, s->records, is_held ? &c->blocks[place] : next);
    return is_held ? answer.refusal == DIGEST_HELD && answer.value == place : answer.refusal == FULL && answer.value == 0;
}

static void refuse_often(size_t kind, const void *context)
{
    size_t first = REFUSED_IN_A_BATCH * *(const size_t *)context;
    bool all = true;

    for (size_t i = 0; i < REFUSED_IN_A_BATCH; i++)
        all = is_refused(&full_sites[kind], &measured[kind], first + i) && all;
    expect(all, "an arrival at a full table was answered otherwise than expected");
}

static void expect_as_before(const full_site *s)
{
    expect(memcmp(s->table, s->table_before, sizeof s->table) == 0, "a refused arrival changed the table");
    expect(memcmp(s->records, s->records_before, sizeof s->records) == 0, "a refused arrival changed the records");
}

/* The most memory that was resident so far. Not from getrusage: there Linux counts what started the program too. */
static long peak_kib(void)
{
    FILE *status = fopen("/proc/self/status", "r");
    char line[256];
    long peak = 0;

    expect(status != NULL, "the system does not say how much memory was used");
    while (peak == 0 && fgets(line, sizeof line, status) != NULL)
        sscanf(line, "VmHWM: %ld kB", &peak);
    fclose(status);
    return peak;
}

static void refuse_batch(size_t batch)
{
    double microseconds[MEASURED_CAMPAIGNS];

    for (size_t i = 0; i < MEASURED_CAMPAIGNS; i++) {
        microseconds[i] = 1e6 * seconds_of(refuse_often, i, &batch) / REFUSED_IN_A_BATCH;
        expect_as_before(&full_sites[i]);
    }
    printf("%5zu %11.2f %11.2f %10ld\n", batch + 1, microseconds[BUSY], microseconds[ORDINARY], peak_kib());
}

static void refuse_a_million(void)
{
    for (size_t i = 0; i < MEASURED_CAMPAIGNS; i++)
        fill_site(&full_sites[i], &measured[i]);
    peak_kib(); /* what reading it takes itself is there before the first batch */
    puts("");
    puts("batch     busy us ordinary us   peak KiB");
    for (size_t batch = 0; batch < BATCHES; batch++)
        refuse_batch(batch);
}

int main(void)
{
    measured[BUSY] = busy_campaign();
    measured[ORDINARY] = ordinary_campaign();

    puts("An arrival as the table fills: the campaign's next block is admitted and interpreted. The proved core (ours) against");
    puts("C, and against gt_digest of the longest block. At a full table the block that site 0 would build next is refused");
    puts("with 11. Blocks of the first round have no references: in the busy campaign the one that comes when 8 are held.");
    puts("Before timing, each arrival is made at both; the answers, the tables and all 20,480 numbers of the records are");
    puts("compared.");
    printf("Measured in CPU time: medians of %d repetitions, each a batch of %d calls of each in turn, after a batch of each\n",
           REPETITIONS, CALLS);
    printf("to warm up. The table is put back before each arrival; that copy, of %d bytes in ours, is counted with it. The\n",
           GT_TABLE_BYTES);
    puts("record buffer is not cleared. C/ours is C's time over ours, digests are our time over that of a digest, each the");
    puts("median of the repetitions' ratios: where C/ours is above 1, ours is the faster one.");
    for (size_t i = 0; i < MEASURED_CAMPAIGNS; i++)
        compare_campaign(&measured[i]);

    puts("");
    printf("After the 64th block: %d arrivals at the full table of each campaign, in %d batches. One in %d is a held block and\n",
           REFUSED_ARRIVALS, BATCHES, HELD_ONE_IN);
    puts("gets 8; the others get 11: next blocks of all sites, each with requests of its own, so that no two are the same.");
    puts("Shown are the CPU time of an arrival in each batch, and the most memory that the program has had by then. Nothing is");
    puts("put back: after each batch the table and the records must be what they were before the first.");
    refuse_a_million();
    return 0;
}
