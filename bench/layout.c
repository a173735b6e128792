/* Tables field by field. */
#include "layout.h"

#include <string.h>

static uint8_t high(uint16_t number) { return (uint8_t)(number >> 8); }

static uint16_t number_at(const uint8_t *bytes) { return (uint16_t)(bytes[0] << 8 | bytes[1]); }

/* Reads what the layout has for a place, and gives where the next one begins. */
static const uint8_t *put_row(baseline_row *row, const uint8_t *bytes)
{
    memcpy(&row->digest, bytes, DIGEST_BYTES);
    bytes += DIGEST_BYTES;
    row->site = *bytes++;
    row->sequence = number_at(bytes);
    bytes += 2;
    for (size_t i = 0; i < 8; i++)
        row->references |= (uint64_t)*bytes++ << 8 * i;
    for (size_t slot = 0; slot < SLOTS; slot++, bytes += 2)
        row->requests[slot] = number_at(bytes);
    row->interpreted = *bytes++;
    return bytes;
}

void put_table(baseline_table *table, const uint8_t bytes[GT_TABLE_BYTES])
{
    memset(table, 0, sizeof *table);
    table->sites = *bytes++;
    memcpy(table->owners, bytes, SLOTS);
    bytes += SLOTS;
    table->retired = *bytes++;
    table->count = *bytes++;
    for (size_t place = 0; place < PLACES; place++)
        bytes = put_row(&table->rows[place], bytes);
}

/* Writes what the layout has for a place, and gives where the next one begins. */
static uint8_t *see_row(const baseline_row *row, uint8_t *bytes)
{
    memcpy(bytes, &row->digest, DIGEST_BYTES);
    bytes += DIGEST_BYTES;
    *bytes++ = row->site;
    *bytes++ = high(row->sequence);
    *bytes++ = (uint8_t)row->sequence;
    for (size_t i = 0; i < 8; i++)
        *bytes++ = (uint8_t)(row->references >> 8 * i);
    for (size_t slot = 0; slot < SLOTS; slot++) {
        *bytes++ = high(row->requests[slot]);
        *bytes++ = (uint8_t)row->requests[slot];
    }
    *bytes++ = row->interpreted;
    return bytes;
}

void see_table(const baseline_table *table, uint8_t bytes[GT_TABLE_BYTES])
{
    *bytes++ = table->sites;
    memcpy(bytes, table->owners, SLOTS);
    bytes += SLOTS;
    *bytes++ = table->retired;
    *bytes++ = table->count;
    for (size_t place = 0; place < PLACES; place++)
        bytes = see_row(&table->rows[place], bytes);
}
