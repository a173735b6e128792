/* One slot's process, and the interpretation of a place. */
#include "inner.h"

/* Kinds of messages, and what a process has for each: the number sent, 0 if none. A delivery is noted like a message. */
enum { SEND, ECHO, READY, DELIVERY, KINDS };

typedef struct {
    uint16_t sent[KINDS];
    uint16_t echoes[MAX_SITES];  /* heard from each site */
    uint16_t readies[MAX_SITES]; /* heard from each site */
    uint16_t made[KINDS];        /* in this block */
} record;

_Static_assert(sizeof(record) == RECORD_NUMBERS * sizeof(uint16_t), "a record is 40 numbers");

/* What of the setup a slot's process needs. */
typedef struct {
    size_t sites;
    size_t few;    /* f + 1 */
    size_t quorum; /* 2f + 1 */
    uint8_t owner;
} process;

/* The least number of each kind and sender in the messages that a block hears, 0 where there is none. A second number of
 * a sender comes after the least, and is then ignored: one was heard from it, or an ECHO was sent. */
typedef struct {
    uint16_t number[DELIVERY][MAX_SITES];
} messages;

/* Sending or delivering. */
static void make(record *r, int kind, uint16_t v)
{
    r->sent[kind] = v;
    r->made[kind] = v;
}

static size_t supporters(const process *p, const uint16_t heard[MAX_SITES], uint16_t v)
{
    size_t count = 0;

    for (size_t site = 0; site < MAX_SITES; site++)
        count += site < p->sites && heard[site] == v;
    return count;
}

static void hear_send(record *r, uint16_t v)
{
    if (r->sent[ECHO] == 0)
        make(r, ECHO, v);
}

static void hear_echo(const process *p, record *r, size_t sender, uint16_t v)
{
    if (r->echoes[sender] != 0)
        return;
    r->echoes[sender] = v;
    if (r->sent[READY] == 0 && supporters(p, r->echoes, v) >= p->quorum)
        make(r, READY, v);
}

static void hear_ready(const process *p, record *r, size_t sender, uint16_t v)
{
    if (r->readies[sender] != 0)
        return;
    r->readies[sender] = v;
    if (r->sent[READY] != 0 && r->sent[DELIVERY] != 0)
        return;
    size_t count = supporters(p, r->readies, v);
    if (r->sent[READY] == 0 && count >= p->few)
        make(r, READY, v);
    if (r->sent[DELIVERY] == 0 && count >= p->quorum)
        make(r, DELIVERY, v);
}

/* SEND before ECHO before READY, lower senders first. */
static void hear(const process *p, record *r, const messages *m)
{
    if (m->number[SEND][p->owner] != 0)
        hear_send(r, m->number[SEND][p->owner]);
    for (size_t sender = 0; sender < p->sites; sender++)
        if (m->number[ECHO][sender] != 0)
            hear_echo(p, r, sender, m->number[ECHO][sender]);
    for (size_t sender = 0; sender < p->sites; sender++)
        if (m->number[READY][sender] != 0)
            hear_ready(p, r, sender, m->number[READY][sender]);
}

/* A record of a place and a slot. */
static record *record_at(uint16_t *records, size_t place, size_t slot)
{
    return (record *)(records + RECORD_NUMBERS * (SLOTS * place + slot));
}

/* Notes what a block that is referred to made in a slot. */
static void collect(messages *m, uint8_t sender, const record *of)
{
    for (int kind = SEND; kind < DELIVERY; kind++) {
        uint16_t v = of->made[kind], *least = &m->number[kind][sender];
        if (v != 0 && (*least == 0 || v < *least))
            *least = v;
    }
}

static messages messages_for(const baseline_table *table, uint64_t places, uint16_t *records, size_t slot)
{
    messages m = {0};

    for (uint64_t rest = places; rest != 0; rest = without_lowest(rest)) {
        size_t place = lowest(rest);
        collect(&m, table->rows[place].site, record_at(records, place, slot));
    }
    return m;
}

/* The parent's place; the count where there is none. In form it is the only one. */
static size_t parent_of(const baseline_table *table, const baseline_row *row)
{
    if (row->sequence == 0)
        return table->count;
    for (uint64_t rest = row->references; rest != 0; rest = without_lowest(rest))
        if (is_parent(&table->rows[lowest(rest)], row->site, row->sequence))
            return lowest(rest);
    return table->count;
}

/* The record that a block's process starts with. */
static void start(record *r, const record *parent)
{
    if (parent == NULL)
        memset(r, 0, sizeof *r);
    else
        memcpy(r, parent, sizeof *r);
    memset(r->made, 0, sizeof r->made);
}

static void interpret_slot(const baseline_table *table, size_t place, size_t parent, uint16_t *records, size_t slot)
{
    const baseline_row *row = &table->rows[place];
    size_t f = (table->sites - 1u) / 3;
    process p = {.sites = table->sites, .few = f + 1, .quorum = 2 * f + 1, .owner = table->owners[slot]};
    messages m = messages_for(table, row->references, records, slot);
    record *r = record_at(records, place, slot);

    start(r, parent < table->count ? record_at(records, parent, slot) : NULL);
    if (row->requests[slot] != 0 && row->site == p.owner && r->sent[SEND] == 0)
        make(r, SEND, row->requests[slot]);
    hear(&p, r, &m);
}

/* The places of a set that aren't interpreted. */
static uint64_t uninterpreted(const baseline_table *table, uint64_t places)
{
    uint64_t found = 0;

    for (uint64_t rest = places; rest != 0; rest = without_lowest(rest))
        found |= (uint64_t)!table->rows[lowest(rest)].interpreted << lowest(rest);
    return found;
}

baseline_answer baseline_interpret(baseline_table *table, size_t place, uint16_t *records, size_t numbers)
{
    if (!baseline_in_form(table))
        return answer(NOT_IN_FORM, 0);
    if (numbers != RECORDS_NUMBERS)
        return answer(WRONG_RECORDS, 0);
    if (place >= table->count)
        return answer(NO_PLACE, 0);
    baseline_row *row = &table->rows[place];
    if (row->interpreted)
        return answer(INTERPRETED, 0);
    uint64_t missing = uninterpreted(table, row->references);
    if (missing != 0)
        return answer(NOT_INTERPRETED, lowest(missing));
    size_t parent = parent_of(table, row);
    for (size_t slot = 0; slot < SLOTS; slot++)
        interpret_slot(table, place, parent, records, slot);
    row->interpreted = 1;
    return answer(NONE, 0);
}
