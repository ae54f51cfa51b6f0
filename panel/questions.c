/* Questions about consoles and their entries. */
#include <stdio.h>

#include "answers.h"
#include "panel.h"

static void print_head(unsigned console, int version)
{
    unsigned heard = room_heard(live_store, sizeof live_store, console).count;
    printf("console %u on version %d, %u %s heard\n", console, version, heard, heard == 1 ? "entry" : "entries");
}

void show_heads(const struct line *line)
{
    (void)line;
    const struct history *history = history_now();
    if (history == NULL)
        return;
    for (unsigned console = 0; console < ROOM_CONSOLES; console++)
        if (history->head[console] != ABSENT)
            print_head(console, history->head[console]);
    printf("%u of %u versions used%s\n", history->versions, history->capacity, history->is_hub_room ? "; console 0 is the hub" : "");
}

void show_heard(const struct line *line)
{
    say_number(line, room_heard(live_store, sizeof live_store, line->number[0]));
}

/* The unit is asked first whether the consoles are there: it has the refusals. Then the room's history; NULL where it refused. */
static const struct history *history_with(const struct line *line, uint32_t first, uint32_t second)
{
    return is_accepted(line, room_common(live_store, sizeof live_store, first, second)) ? history_now() : NULL;
}

void show_log_of(const struct line *line)
{
    const struct history *history = history_with(line, line->number[0], line->number[0]);
    if (history != NULL)
        show_log(history, line->number[0]);
}

void show_missing_of(const struct line *line)
{
    const struct history *history = history_with(line, line->number[0], line->number[1]);
    if (history != NULL)
        show_missing(history, line->number[0], line->number[1]);
}

void show_common(const struct line *line)
{
    say_number(line, room_common(live_store, sizeof live_store, line->number[0], line->number[1]));
}

static void print_origin(const struct line *line, uint32_t version)
{
    const struct history *history = history_now();
    if (version == 0)
        printf("no entry: strip %u shows no %s\n", (unsigned)line->number[1], line->number[2] == ROOM_LEVEL_CELL ? "level" : "heading");
    else if (history != NULL)
        show_entry(history, version);
}

void show_origin(const struct line *line)
{
    struct room_reply reply = room_origin(live_store, sizeof live_store, line->number[0], line->number[1], line->number[2]);
    if (is_accepted(line, reply))
        print_origin(line, reply.count);
}
