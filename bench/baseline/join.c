/* The join of two tables with their records. */
#include "inner.h"

/* ---- Where the right's blocks come to stand */

typedef struct {
    uint8_t place[PLACES]; /* in the result, of each of the right's blocks */
    uint64_t common;       /* those of the right's places whose blocks the left holds */
    size_t count;          /* of the result; more than fit, if it comes to that */
} placing;

/* Looks each of the right's blocks up once. */
static placing placing_of(const baseline_table *left, const baseline_table *right)
{
    placing p = {.count = left->count};

    for (size_t i = 0; i < right->count; i++) {
        size_t held = place_of(left, &right->rows[i].digest);
        if (held < left->count) {
            p.place[i] = (uint8_t)held;
            p.common |= UINT64_C(1) << i;
        } else {
            p.place[i] = (uint8_t)p.count++;
        }
    }
    return p;
}

/* The places in the result of some of the right's places, all of which fit. */
static uint64_t renumbered(const placing *p, uint64_t places)
{
    uint64_t result = 0;

    for (uint64_t rest = places; rest != 0; rest = without_lowest(rest))
        result |= UINT64_C(1) << p->place[lowest(rest)];
    return result;
}

/* ---- Checks */

static bool same_setup(const baseline_table *x, const baseline_table *y)
{
    return x->sites == y->sites && memcmp(x->owners, y->owners, SLOTS) == 0;
}

/* All fields but the mark. A block that the left lacks may have no place, so such a reference is looked for first. */
static bool same_block(const baseline_row *of_left, const baseline_row *of_right, const placing *p)
{
    return of_left->site == of_right->site && of_left->sequence == of_right->sequence
        && memcmp(of_left->requests, of_right->requests, sizeof of_left->requests) == 0
        && (of_right->references & ~p->common) == 0 && of_left->references == renumbered(p, of_right->references);
}

/* The lowest place of the left whose digest the right has for another block; the left's count where there is none. */
static size_t lowest_clash(const baseline_table *left, const baseline_table *right, const placing *p)
{
    size_t clash = left->count;

    for (uint64_t rest = p->common; rest != 0; rest = without_lowest(rest)) {
        size_t place = p->place[lowest(rest)];
        if (place < clash && !same_block(&left->rows[place], &right->rows[lowest(rest)], p))
            clash = place;
    }
    return clash;
}

/* ---- The result */

static void copy_part(uint16_t *to, size_t place, const uint16_t *from, size_t from_place)
{
    memcpy(to + PART_NUMBERS * place, from + PART_NUMBERS * from_place, PART_NUMBERS * sizeof *to);
}

/* Not marked yet. */
static void put_row(baseline_row *row, const baseline_row *of_right, const placing *p)
{
    *row = *of_right;
    row->references = renumbered(p, of_right->references);
    row->interpreted = 0;
}

/* New rows, and the marks and parts that only the right has. */
static void take_over(baseline_table *left, const baseline_table *right, const placing *p, const uint16_t *records,
                      uint16_t *third)
{
    for (size_t i = 0; i < right->count; i++) {
        const baseline_row *of_right = &right->rows[i];
        baseline_row *row = &left->rows[p->place[i]];
        if (p->place[i] >= left->count)
            put_row(row, of_right, p);
        if (of_right->interpreted && !row->interpreted) {
            row->interpreted = 1;
            copy_part(third, p->place[i], records, i);
        }
    }
    left->count = (uint8_t)p->count;
}

baseline_answer baseline_join(baseline_table *left, const baseline_table *right, baseline_records of_left,
                              baseline_records of_right, uint16_t *third, size_t numbers)
{
    if (!baseline_in_form(left) || !baseline_in_form(right))
        return answer(NOT_IN_FORM, 0);
    if (of_left.numbers != RECORDS_NUMBERS || of_right.numbers != RECORDS_NUMBERS || numbers != RECORDS_NUMBERS)
        return answer(WRONG_RECORDS, 0);
    if (left->retired || right->retired)
        return answer(HAS_RETIRED, 0);
    if (!same_setup(left, right))
        return answer(OTHER_SETUP, 0);
    placing p = placing_of(left, right);
    size_t clash = lowest_clash(left, right, &p);
    if (clash < left->count)
        return answer(OTHER_BLOCK, clash);
    if (p.count > PLACES)
        return answer(TOO_MANY, 0);
    for (size_t place = 0; place < left->count; place++)
        if (left->rows[place].interpreted)
            copy_part(third, place, of_left.records, place);
    take_over(left, right, &p, of_right.records, third);
    return answer(NONE, left->count);
}
