/* The entries that a console has heard, and those that another one lacks. */
#include "history_parts.h"

#include <string.h>

/* A byte for each version: whether it is the console's head or an ancestor of it. A version's parents are lower, so that one walk downward
   finds all. An entry's giver reads as 0, and version 0 is everybody's ancestor. */
static void find_heard(const struct history *history, unsigned console, uint8_t is_heard[ROOM_MAX_CAPACITY])
{
    unsigned head = (unsigned)history->head[console];
    memset(is_heard, 0, ROOM_MAX_CAPACITY);
    is_heard[head] = 1;
    for (unsigned version = head; version > 0; version--)
        if (is_heard[version]) {
            is_heard[history->version[version].parent] = 1;
            is_heard[history->version[version].giver] = 1;
        }
}

/* Prints the entries that are in the first set and not in the second, the newest first; how many. */
static unsigned show_entries(const struct history *history, const uint8_t *is_in, const uint8_t *is_out)
{
    unsigned entries = 0;
    for (unsigned version = history->versions - 1; version > 0; version--)
        if (is_in[version] && !is_out[version] && !is_merge(&history->version[version])) {
            show_entry(history, version);
            entries++;
        }
    return entries;
}

void show_log(const struct history *history, unsigned console)
{
    static const uint8_t is_out[ROOM_MAX_CAPACITY];
    uint8_t is_heard[ROOM_MAX_CAPACITY];
    find_heard(history, console, is_heard);
    if (show_entries(history, is_heard, is_out) == 0)
        printf("no entry heard\n");
}

void show_missing(const struct history *history, unsigned first, unsigned second)
{
    uint8_t is_heard_by_first[ROOM_MAX_CAPACITY];
    uint8_t is_heard_by_second[ROOM_MAX_CAPACITY];
    find_heard(history, first, is_heard_by_first);
    find_heard(history, second, is_heard_by_second);
    if (show_entries(history, is_heard_by_first, is_heard_by_second) == 0)
        printf("console %u has heard all that console %u has\n", second, first);
}
