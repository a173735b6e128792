/* The listing program of document 01 on the baseline: a setup and arrivals on standard input, a line for each delivery
 * and each refused arrival on standard output. Its memory is fixed. */
#include <inttypes.h>
#include <stdio.h>

#include "core.h"

enum { STREAM_BYTES = 1 << 16, DELIVERED_HERE = RECORD_NUMBERS - 1 };

static baseline_table table;
static uint16_t records[RECORDS_NUMBERS];
static uint8_t arrived[1 + MAX_BLOCK_BYTES]; /* the verdict, then the block */

/* Reads this many bytes; false if the input ends before. */
static bool read_bytes(uint8_t *bytes, size_t length) { return fread(bytes, 1, length, stdin) == length; }

static bool skip_bytes(size_t length)
{
    while (length > sizeof arrived) {
        if (!read_bytes(arrived, sizeof arrived))
            return false;
        length -= sizeof arrived;
    }
    return read_bytes(arrived, length);
}

static void write_refusal(size_t arrival, unsigned refusal) { printf("%zu - - - - - %u\n", arrival, refusal); }

static void write_deliveries(size_t arrival, size_t place)
{
    const baseline_row *row = &table.rows[place];

    for (size_t slot = 0; slot < SLOTS; slot++) {
        unsigned number = records[RECORD_NUMBERS * (SLOTS * place + slot) + DELIVERED_HERE];
        if (number != 0)
            printf("%zu %zu %" PRIu8 " %" PRIu16 " %zu %u 0\n", arrival, place, row->site, row->sequence, slot, number);
    }
}

static void answer_block(size_t arrival, size_t length)
{
    baseline_answer answer = baseline_admit(&table, arrived + 1, length, arrived[0]);

    if (answer.refusal != NONE)
        write_refusal(arrival, answer.refusal);
    else {
        baseline_interpret(&table, answer.value, records, RECORDS_NUMBERS); /* all references are interpreted */
        write_deliveries(arrival, answer.value);
    }
}

/* Answers the next arrival. False at the input's end; what the end cuts is an arrival too. */
static bool answer_arrival(size_t arrival)
{
    uint8_t prefix[2] = {0};
    size_t got = fread(prefix, 1, sizeof prefix, stdin);
    size_t length = (size_t)prefix[0] << 8 | prefix[1];

    if (got == 0)
        return false;
    bool fits = got == sizeof prefix && length <= MAX_BLOCK_BYTES;
    bool whole = got == sizeof prefix && (fits ? read_bytes(arrived, 1 + length) : skip_bytes(1 + length));
    if (fits && whole)
        answer_block(arrival, length);
    else
        write_refusal(arrival, NO_BLOCK);
    return whole;
}

static bool read_setup(void)
{
    uint8_t setup[1 + SLOTS];

    return read_bytes(setup, sizeof setup) && baseline_fresh(&table, setup[0], setup + 1).refusal == NONE;
}

int main(void)
{
    static char input[STREAM_BYTES], output[STREAM_BYTES];

    setvbuf(stdin, input, _IOFBF, sizeof input);
    setvbuf(stdout, output, _IOFBF, sizeof output);
    puts("arrival place site seq slot number refusal");
    if (!read_setup())
        puts("- - - - - - 1");
    else
        for (size_t arrival = 0; answer_arrival(arrival);)
            arrival++;
    return 0;
}
