/* The room of a pause tape taken apart: its versions with their parents, its heads, and what is shown of them. */
#ifndef HISTORY_H
#define HISTORY_H

#include <stddef.h>
#include <stdint.h>
#include <stdio.h>

#include "room.h"

/* A version: an entry (code 02 to 08) on its parent, or a merge (code 09) of the receiver's version, its parent, and the giver's. */
struct version {
    uint8_t code;
    uint8_t strip;
    uint16_t operand;
    uint16_t parent;
    uint16_t giver;
};

enum { ABSENT = -1 };

/* Version 0 has no record, but counts. */
struct history {
    unsigned capacity;
    unsigned versions;
    int is_hub_room;
    int head[ROOM_CONSOLES]; /* the console's version, or ABSENT */
    struct version version[ROOM_MAX_CAPACITY];
};

/* Takes a tape apart that room_pause wrote. */
void take_tape_apart(struct history *history, const uint8_t *tape, size_t length);

int is_full(const struct history *history);

/* Prints an entry in words, as `version 1: level 100 on strip 5`. */
void show_entry(const struct history *history, unsigned version);

/* Prints the entries that a console, which must be present, has heard, the newest first. */
void show_log(const struct history *history, unsigned console);

/* Prints the entries that the first console has heard and the second, both present, has not, the newest first. */
void show_missing(const struct history *history, unsigned first, unsigned second);

/* Prints the versions, the newest first, a line for each with a column for each console. */
void show_graph(const struct history *history);

/* Writes the versions as a Graphviz file. */
void write_dot(FILE *file, const struct history *history);

#endif
