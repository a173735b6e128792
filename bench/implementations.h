/* The proved core and the one in C behind one face. Each keeps a table and a record buffer of its own. */
#ifndef IMPLEMENTATIONS_H
#define IMPLEMENTATIONS_H

#include "compared.h"

typedef struct {
    const char *name;
    void (*digest)(const uint8_t *message, size_t length, uint8_t digest[GT_DIGEST_BYTES]);
    gt_answer (*fresh)(uint8_t sites, const uint8_t owners[GT_SLOTS]);
    bool (*in_form)(void);
    gt_answer (*admit)(const uint8_t *block, size_t length, uint8_t verdict);
    gt_answer (*interpret)(size_t place);
    gt_answer (*retire)(void);
    gt_answer (*take_back)(void);
    const uint16_t *records;
} implementation;

extern const implementation implementations[COMPARED];

#endif
