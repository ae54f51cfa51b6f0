/* What the files behind history.h share: words for versions and for the consoles on them. */
#ifndef HISTORY_PARTS_H
#define HISTORY_PARTS_H

#include "history.h"

int is_merge(const struct version *version);

/* Prints what an entry changes, as `level 250`, without its strip. */
void print_change(FILE *file, const struct version *entry);

/* Prints an entry in words, as `level 250 on strip 6`. */
void print_entry(const struct version *entry);

/* How many consoles stand on a version. */
unsigned consoles_on(const struct history *history, unsigned version);

/* Prints the consoles that stand on a version, at least one: `console 3`, `consoles 0, 2`, or `consoles 0 to 7, 9`, which stays short with 16. */
void print_consoles(FILE *file, const struct history *history, unsigned version);

#endif
