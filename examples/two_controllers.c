/* A dome gets a new controller while the old one still holds a campaign. Each has blocks that the other lacks. Joined, the
 * new one has them all, with what either worked out of them, and goes on with the campaign.
 *
 *   make host
 *   gcc -std=c11 -Ihost -o two_controllers examples/two_controllers.c target/staticlib/libc_interface.a
 *   ./two_controllers
 */
#include "giangotum_core.h"

#include <inttypes.h>
#include <stdio.h>
#include <stdlib.h>

enum { SITES = 4, SLOT = 0, NUMBER = 42 };

/* What is wrong when a join is refused, and what to do. */
static const char *const causes[] = {
    [2] = "a table is damaged: take a copy of it that is in form",
    [12] = "a record buffer has another length: lend three of GT_RECORDS_NUMBERS numbers",
    [23] = "the setups differ, so these are two campaigns: keep both tables, each with its own records",
    [24] = "the two have different blocks under one digest: find the table that was changed, and leave it out",
    [25] = "together they have more blocks than a table holds: keep both tables, each with its own records",
    [31] = "one of the two has retired blocks, so what they share can't be told: keep both tables, each with its own records",
};

/* The value of a call that nothing here gives a reason to refuse. */
static size_t expected(gt_answer answer)
{
    if (answer.refusal != 0) {
        fprintf(stderr, "refused with %d\n", answer.refusal);
        exit(EXIT_FAILURE);
    }
    return answer.value;
}

/* ---- Controllers, and what they are sent */

typedef struct {
    uint8_t table[GT_TABLE_BYTES];
    uint16_t *records;
} controller;

typedef struct {
    uint8_t bytes[GT_MAX_BLOCK_BYTES];
    size_t length;
} block;

/* Slot 0 has this owner. */
static void start(controller *c, uint8_t owner, uint16_t *records)
{
    const uint8_t owners[GT_SLOTS] = {owner, 1, 2, 3, 0, 1, 2, 3};

    expected(gt_fresh(SITES, owners, GT_SLOTS, c->table, GT_TABLE_BYTES));
    c->records = records;
}

/* The link's verdict on each block here is 1: its signature is good. */
static size_t admit(controller *c, const block *b)
{
    return expected(gt_admit(c->table, GT_TABLE_BYTES, b->bytes, b->length, 1));
}

static void interpret(controller *c, size_t place)
{
    expected(gt_interpret(c->table, GT_TABLE_BYTES, place, c->records, GT_RECORDS_NUMBERS));
}

static void hold(controller *c, const block *b) { interpret(c, admit(c, b)); }

/* A site builds on all that the controller holds. The campaign's first block has the request. */
static block next_block(const controller *c, uint8_t site)
{
    const uint8_t request[] = {SLOT, 0, NUMBER};
    size_t length = site == 0 && c->table[GT_TABLE_COUNT] == 0 ? sizeof request : 0;
    block b;

    b.length = expected(gt_build(c->table, GT_TABLE_BYTES, site, request, length, b.bytes, sizeof b.bytes));
    return b;
}

static void build_round(const controller *c, block round[SITES])
{
    for (uint8_t site = 0; site < SITES; site++)
        round[site] = next_block(c, site);
}

/* ---- Lists */

static const uint8_t *row_of(const controller *c, size_t place) { return c->table + GT_TABLE_ROWS + GT_ROW_BYTES * place; }

/* The last number of a slot's record is what this block delivers. Only an interpreted place has records. */
static void list_place(const controller *c, size_t place)
{
    const uint8_t *row = row_of(c, place);
    size_t end = GT_PART_NUMBERS * place + GT_RECORD_NUMBERS * (SLOT + 1);

    printf("%5zu %4d %3d %11s ", place, row[GT_ROW_SITE], row[GT_ROW_SEQUENCE] << 8 | row[GT_ROW_SEQUENCE + 1],
           row[GT_ROW_MARK] ? "yes" : "no");
    if (row[GT_ROW_MARK] && c->records[end - 1] != 0)
        printf("%9" PRIu16 "\n", c->records[end - 1]);
    else
        printf("%9s\n", "-");
}

static void list(const controller *c)
{
    puts("place site seq interpreted delivered");
    for (size_t place = 0; place < c->table[GT_TABLE_COUNT]; place++)
        list_place(c, place);
}

/* ---- The join */

/* The left's table becomes that of both, and from then on goes with the third buffer. A refusal leaves all as it was. */
static void join(controller *left, const controller *right, uint16_t *third)
{
    gt_answer answer = gt_join(left->table, GT_TABLE_BYTES, right->table, GT_TABLE_BYTES, left->records, GT_RECORDS_NUMBERS,
                               right->records, GT_RECORDS_NUMBERS, third, GT_RECORDS_NUMBERS);

    if (answer.refusal == 0) {
        left->records = third;
        printf("joined: %zu blocks\n", answer.value);
    } else {
        printf("refused with %d: %s\n", answer.refusal, causes[answer.refusal]);
    }
}

/* Two rounds reach both, the new one in another order. Of the third round the old one gets the blocks of sites 0, 1 and 2,
 * and one that site 0 builds on these; the new one gets those of sites 3 and 2, and has not interpreted them yet. */
static void send_blocks(controller *old, controller *new)
{
    block round[SITES], last;

    for (size_t sent = 0; sent < 2; sent++) {
        build_round(old, round);
        for (size_t i = 0; i < SITES; i++) {
            hold(old, &round[i]);
            hold(new, &round[SITES - 1 - i]);
        }
    }
    build_round(old, round);
    for (size_t i = 0; i < 3; i++)
        hold(old, &round[i]);
    last = next_block(old, 0);
    hold(old, &last);
    admit(new, &round[3]);
    admit(new, &round[2]);
}

/* A block of site 3, on blocks that only the old one held and on one that only the new one did. */
static void go_on(controller *c)
{
    block b = next_block(c, 3);

    for (size_t place = 0; place < c->table[GT_TABLE_COUNT]; place++)
        if (!row_of(c, place)[GT_ROW_MARK])
            interpret(c, place);
    hold(c, &b);
    list_place(c, c->table[GT_TABLE_COUNT] - 1u);
}

int main(void)
{
    static uint16_t records[4][GT_RECORDS_NUMBERS];
    static controller old, new, other;

    start(&old, 0, records[0]);
    start(&new, 0, records[1]);
    start(&other, 1, records[2]);
    send_blocks(&old, &new);

    puts("the old controller");
    list(&old);
    puts("\nthe new controller");
    list(&new);
    puts("\nthe new controller with the old one");
    join(&new, &old, records[3]);
    list(&new);
    puts("\na further block");
    go_on(&new);
    puts("\nthe new controller with one of another campaign");
    join(&new, &other, records[1]);
    return 0;
}
