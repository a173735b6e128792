/* The join of two tables: the proved one and the one in C behind one face. */
#ifndef JOINERS_H
#define JOINERS_H

#include "compared.h"

/* A table, in the layout of docs/FORMATS.md, and its records, of which so many numbers are lent. */
typedef struct {
    uint8_t table[GT_TABLE_BYTES];
    uint16_t records[GT_RECORDS_NUMBERS];
    size_t numbers;
} side;

typedef struct {
    side left, right;
} pair;

typedef struct {
    /* Takes over the tables of the pair that the next joins are about. */
    void (*take)(const pair *of);
    /* Joins a copy of the left's table and the right's, with so many numbers of a third buffer. */
    gt_answer (*join)(const pair *of, uint16_t *third, size_t numbers);
    /* The table that the last join left. */
    void (*see)(uint8_t table[GT_TABLE_BYTES]);
} joiner;

extern const joiner joiners[COMPARED];

#endif
