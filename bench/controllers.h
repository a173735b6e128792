/* A controller of four campaigns with one shelf: the proved one and the one in C behind one face. Each keeps four tables and
 * a shelf of its own. Campaigns above 3 have the table of campaign 0, since one must be lent. */
#ifndef CONTROLLERS_H
#define CONTROLLERS_H

#include "compared.h"

/* What an arrival is answered, and the outcomes of the waiting blocks that it ended. */
typedef struct {
    gt_answer answer;
    size_t ended;
    gt_answer outcomes[GT_SHELF_MOST];
} arrived;

/* A campaign's table and the shelf, in the layouts of docs/FORMATS.md. */
typedef struct {
    uint8_t table[GT_TABLE_BYTES];
    uint8_t shelf[GT_SHELF_BYTES];
} seen_state;

typedef struct {
    gt_answer (*fresh)(uint8_t campaign, uint8_t sites, const uint8_t owners[GT_SLOTS]);
    /* Past the shelf. */
    gt_answer (*admit)(uint8_t campaign, const uint8_t *block, size_t length);
    arrived (*arrive)(uint8_t campaign, const uint8_t *block, size_t length, uint8_t verdict);
    bool (*shelf_in_form)(void);
    void (*put_shelf)(const uint8_t shelf[GT_SHELF_BYTES]);
    seen_state (*seen)(uint8_t campaign);
    /* Keeps campaign 0's table and the shelf as they are; later copies them back. */
    void (*keep)(void);
    void (*put_back)(void);
} controller;

extern const controller controllers[COMPARED];

#endif
