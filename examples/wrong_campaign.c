/* An observer loads the wrong campaign's file into a running table, and undoes it: what the file brought is taken back, block
 * by block, until the table is the one before. An interpreted block can't be taken back, so what a file brings is admitted and
 * looked at first, and interpreted only then.
 *
 *   make host
 *   gcc -std=c11 -Ihost -o wrong_campaign examples/wrong_campaign.c target/staticlib/libc_interface.a
 *   ./wrong_campaign examples/four_sites.campaign examples/another_night.campaign
 *
 * The first file is the running campaign's; the second is another campaign's, of the same sites and owners.
 */
#include "giangotum_core.h"

#include <inttypes.h>
#include <stdio.h>
#include <stdlib.h>
#include <string.h>

/* How many of the running campaign's blocks the link has brought before a file is loaded. */
enum { BROUGHT = 4 };

enum { LAST_INTERPRETED = 33 };

static void fail(const char *what)
{
    fprintf(stderr, "wrong_campaign: %s\n", what);
    exit(EXIT_FAILURE);
}

/* Ends the program where a call is refused that nothing here gives a reason to refuse. */
static void expect(const char *call, gt_answer answer)
{
    if (answer.refusal != 0) {
        fprintf(stderr, "wrong_campaign: %s is refused with %d\n", call, answer.refusal);
        exit(EXIT_FAILURE);
    }
}

/* ---- Files: a setup, and then arrivals, as docs/FORMATS.md has them for the listing */

typedef struct {
    uint8_t verdict;
    uint8_t bytes[UINT16_MAX];
    size_t length;
} arrival;

static FILE *open_file(const char *name, uint8_t setup[1 + GT_SLOTS])
{
    FILE *file = fopen(name, "rb");

    if (file == NULL || fread(setup, 1, 1 + GT_SLOTS, file) < 1 + GT_SLOTS)
        fail("a file can't be read, or has no setup");
    return file;
}

/* False at the file's end. */
static bool next_arrival(FILE *file, arrival *a)
{
    uint8_t head[3];
    size_t got = fread(head, 1, sizeof head, file);

    if (got == 0 && feof(file))
        return false;
    a->length = (size_t)head[0] << 8 | head[1];
    a->verdict = head[2];
    if (got < sizeof head || fread(a->bytes, 1, a->length, file) < a->length)
        fail("a file ends within an arrival, or can't be read");
    return true;
}

/* ---- The running table and its records */

static uint8_t table[GT_TABLE_BYTES];
static uint16_t records[GT_RECORDS_NUMBERS]; /* of any content */

static void start(const char *name)
{
    uint8_t setup[1 + GT_SLOTS];

    fclose(open_file(name, setup));
    expect("the setup", gt_fresh(setup[0], setup + 1, GT_SLOTS, table, sizeof table));
}

/* Admits a file's first arrivals, and interprets none of them. A table begins with its setup, as a file does. */
static void load(const char *name, size_t most)
{
    static arrival a;
    uint8_t setup[1 + GT_SLOTS];
    FILE *file = open_file(name, setup);
    size_t held = table[GT_TABLE_COUNT];

    if (memcmp(setup, table, sizeof setup) != 0)
        fail("the file has another setup than the table");
    for (size_t i = 0; i < most && next_arrival(file, &a); i++) {
        gt_answer answer = gt_admit(table, sizeof table, a.bytes, a.length, a.verdict);
        if (answer.refusal != 0)
            printf("  arrival %zu is refused with %d\n", i, answer.refusal);
    }
    fclose(file);
    printf("  %zu blocks are admitted, %d are held\n", table[GT_TABLE_COUNT] - held, table[GT_TABLE_COUNT]);
}

/* Whether all that is held may be of one campaign. In two campaigns most sites have a first block each, and so seem to fork. */
static bool one_campaign(void)
{
    gt_forked_sites forks = gt_forks(table, sizeof table);

    if (forks.refusal != 0)
        fail("the table is damaged");
    printf("  sites that seem to fork: %" PRIu32 ", %s f\n", forks.count, forks.at_most_f ? "at most" : "more than");
    return forks.at_most_f;
}

/* The last number of a slot's record is what this block delivers. */
static void interpret(size_t place)
{
    expect("an interpretation", gt_interpret(table, sizeof table, place, records, GT_RECORDS_NUMBERS));
    for (size_t slot = 0; slot < GT_SLOTS; slot++) {
        size_t end = GT_PART_NUMBERS * place + GT_RECORD_NUMBERS * (slot + 1);
        if (records[end - 1] != 0)
            printf("  place %zu delivers %" PRIu16 " in slot %zu\n", place, records[end - 1], slot);
    }
}

int main(int argc, char **argv)
{
    static uint8_t before[GT_TABLE_BYTES];

    if (argc != 3)
        fail("give two files: the running campaign's, and another one's");
    start(argv[1]);
    puts("the link brings the first blocks");
    load(argv[1], BROUGHT);
    for (size_t place = 0; place < table[GT_TABLE_COUNT]; place++)
        interpret(place);
    memcpy(before, table, sizeof table);

    puts("a file is loaded");
    load(argv[2], SIZE_MAX);
    if (one_campaign())
        fail("this file is not another campaign's");
    puts("it is another campaign's, and its blocks are taken back");
    while (table[GT_TABLE_COUNT] > before[GT_TABLE_COUNT])
        expect("a taking back", gt_take_back(table, sizeof table));
    if (memcmp(table, before, sizeof table) != 0)
        fail("the table is not the one before");
    printf("  %d blocks are held, and the table is the one before, byte for byte\n", table[GT_TABLE_COUNT]);
    if (gt_take_back(table, sizeof table).refusal != LAST_INTERPRETED)
        fail("an interpreted block was taken back");

    puts("the right file is loaded");
    load(argv[1], SIZE_MAX);
    if (!one_campaign())
        fail("this file is another campaign's too");
    for (size_t place = before[GT_TABLE_COUNT]; place < table[GT_TABLE_COUNT]; place++)
        interpret(place);
    return 0;
}
