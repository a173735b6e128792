/* One site of a campaign: it receives what the link brings, admits and interprets each block, says what is delivered and what is
 * refused, and then builds its own next block, with a request.
 *
 *   make host
 *   gcc -std=c11 -Ihost -o one_site examples/one_site.c target/staticlib/libc_interface.a
 *   ./one_site next.arrival < examples/four_sites.campaign
 *
 * The input is a setup and then arrivals, as docs/FORMATS.md has them for the listing. The block that is built goes to the file
 * named, as an arrival, so that the other sites can receive it:
 *
 *   cat examples/four_sites.campaign next.arrival | target/bin/listing
 */
#include "giangotum_core.h"

#include <inttypes.h>
#include <stdio.h>
#include <stdlib.h>

/* Which site we are, and what we request: number 501, high byte first, in slot 2, which we own in that campaign. */
enum { OWN_SITE = 2 };
static const uint8_t requests[] = {2, 501 >> 8, 501 & 255};

enum { NOT_HELD = 9 };

static void fail(const char *what)
{
    fprintf(stderr, "one_site: %s\n", what);
    exit(EXIT_FAILURE);
}

/* The value of a call that nothing here gives a reason to refuse. */
static size_t expected(const char *call, gt_answer answer)
{
    if (answer.refusal != 0) {
        fprintf(stderr, "one_site: %s is refused with %d\n", call, answer.refusal);
        exit(EXIT_FAILURE);
    }
    return answer.value;
}

/* ---- What the site keeps */

static uint8_t table[GT_TABLE_BYTES];
static uint16_t records[GT_RECORDS_NUMBERS]; /* of any content */

/* The empty table of a setup: how many sites there are, and the owner of each slot. */
static void start(void)
{
    uint8_t setup[1 + GT_SLOTS];

    if (fread(setup, 1, sizeof setup, stdin) < sizeof setup)
        fail("the input has no setup, or can't be read");
    expected("the setup", gt_fresh(setup[0], setup + 1, GT_SLOTS, table, sizeof table));
}

/* ---- Receive */

typedef struct {
    uint8_t verdict; /* the link's on the block's signature: 1 if it is good */
    size_t length;
    uint8_t bytes[UINT16_MAX];
} arrival;

/* False at the input's end. */
static bool receive(arrival *a)
{
    uint8_t head[3];
    size_t got = fread(head, 1, sizeof head, stdin);

    if (got == 0 && feof(stdin))
        return false;
    if (got < sizeof head)
        fail("the input ends within an arrival, or can't be read");
    a->length = (size_t)head[0] << 8 | head[1];
    a->verdict = head[2];
    if (fread(a->bytes, 1, a->length, stdin) < a->length)
        fail("the input ends within an arrival, or can't be read");
    return true;
}

/* ---- Admit and interpret */

/* Works out what the block at a place says. The last number of a slot's record is what this block delivers, 0 if nothing. */
static void interpret(size_t place)
{
    expected("an interpretation", gt_interpret(table, sizeof table, place, records, GT_RECORDS_NUMBERS));
    for (size_t slot = 0; slot < GT_SLOTS; slot++) {
        uint16_t delivered = records[GT_PART_NUMBERS * place + GT_RECORD_NUMBERS * (slot + 1) - 1];
        if (delivered != 0)
            printf("  slot %zu has %" PRIu16 "\n", slot, delivered);
    }
}

/* Any bytes may have come, of any length and with any verdict. By a refusal the table stays as it was. */
static void hold(const arrival *a)
{
    gt_answer answer = gt_admit(table, sizeof table, a->bytes, a->length, a->verdict);

    if (answer.refusal == 0) {
        printf("held at place %zu\n", answer.value);
        interpret(answer.value);
    } else if (answer.refusal == NOT_HELD)
        printf("refused with 9: reference %zu is to a block that has not come; send this one again after it\n", answer.value);
    else
        printf("refused with %d\n", answer.refusal);
}

/* ---- Build */

/* Our next block. It is held here before it is handed out, so that no other block of ours can get its sequence number. */
static void build(arrival *own)
{
    own->length = expected("building",
                           gt_build(table, sizeof table, OWN_SITE, requests, sizeof requests, own->bytes, sizeof own->bytes));
    own->verdict = 1;
    interpret(expected("our own block", gt_admit(table, sizeof table, own->bytes, own->length, own->verdict)));
}

static void hand_out(const char *name, const arrival *own)
{
    const uint8_t head[] = {(uint8_t)(own->length >> 8), (uint8_t)own->length, own->verdict};
    FILE *file = fopen(name, "wb");

    if (file == NULL || fwrite(head, 1, sizeof head, file) < sizeof head || fwrite(own->bytes, 1, own->length, file) < own->length
        || fclose(file) != 0)
        fail("the file for our block can't be written");
}

int main(int argc, char **argv)
{
    static arrival a;
    gt_fields fields;

    if (argc != 2)
        fail("name the file that our next block is written to");
    start();
    for (size_t number = 0; receive(&a); number++) {
        printf("arrival %zu: ", number);
        hold(&a);
    }
    build(&a);
    hand_out(argv[1], &a);
    fields = gt_read_block(a.bytes, a.length).fields;
    printf("our next block: site %d, sequence number %d, references %zu, requests %zu, %zu bytes\n", fields.site, fields.sequence,
           fields.references, fields.requests, a.length);
    return 0;
}
