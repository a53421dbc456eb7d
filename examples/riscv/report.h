/* What the host prints of a run. */
#ifndef REPORT_H
#define REPORT_H

#include "machine.h"

enum { CHANGES_MAX = HEKTHUMAR_LIST_LENGTH(FRAMES) };

/* What a number says. */
const char *sentence(uint8_t number);

/* Number, sentence, which byte is absent, kind, address and pc. */
void print_refusal(const struct machine *m);

/* Writes the change list to `list`, of CHANGES_MAX bytes, and prints its entries; the number of pages, or -1 on a refusal. */
int print_changes(struct buffers *b, uint8_t *list);

#endif
