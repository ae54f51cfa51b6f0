/* That no room is lost unasked: what the room was at its last pause, and the ways to leave it behind. */
#include "keeping.h"

#include <stdio.h>
#include <string.h>

#include "input.h"
#include "outcome.h"

static const char CHANGED[] = "the room was changed since its last pause";

/* The tape of the room when it was opened, resumed or paused last. */
static uint8_t last_tape[ROOM_TAPE_BYTES(ROOM_MAX_CAPACITY)];
static size_t last_length;

static int has_ended;

void keep_as_unchanged(void)
{
    struct tape tape = tape_now();
    memcpy(last_tape, tape.bytes, tape.length);
    last_length = tape.length;
}

static int is_changed(void)
{
    struct tape tape = tape_now();
    return tape.length != last_length || memcmp(tape.bytes, last_tape, last_length) != 0;
}

static enum consent ask_to_lose_room(void)
{
    printf("%s\n", CHANGED);
    return ask("go on without it? (yes or no) ");
}

/* A script has nobody to ask. */
static int refuse_to_lose_room(const struct command *command)
{
    printf("refused: %s: `pause FILE` first, or type `%s!`\n", CHANGED, command->name);
    note(WAS_REFUSED);
    return 0;
}

int may_lose_room(const struct line *line)
{
    if (line->is_sure || !is_changed())
        return 1;
    if (!is_interactive())
        return refuse_to_lose_room(line->command);
    if (ask_to_lose_room() == YES)
        return 1;
    printf("nothing done\n");
    return 0;
}

void quit(const struct line *line)
{
    has_ended = may_lose_room(line);
}

/* Someone who ends the input once more instead of answering wants to go. */
static void end_of_typing(void)
{
    has_ended = !is_changed() || ask_to_lose_room() != NO;
    if (!has_ended)
        printf("nothing done\n");
}

static void end_of_script(void)
{
    has_ended = 1;
    if (!is_changed())
        return;
    printf("%s and is lost: a script that means it ends with `quit!`\n", CHANGED);
    note(WAS_REFUSED);
}

void meet_end_of_input(void)
{
    if (is_interactive())
        end_of_typing();
    else
        end_of_script();
}

int is_over(void)
{
    return has_ended;
}
