/* The wall of a debrief: a console's board in the live room and in the room that was frozen, compared. */
#include <stdio.h>
#include <string.h>

#include "answers.h"
#include "boards.h"
#include "panel.h"

/* The room as it was at the last freeze. Before the first it is all zero, which is no store. */
static uint8_t frozen_store[ROOM_STORE_BYTES(ROOM_MAX_CAPACITY)];

/* By way of a tape, so that what is frozen is the room that a pause now would give back. */
void freeze(const struct line *line)
{
    struct tape tape = tape_now();
    if (tape.length > 0)
        say_done(line, room_resume(tape.bytes, tape.length, frozen_store, sizeof frozen_store));
}

static const uint8_t *viewed(uint32_t console, uint32_t choice)
{
    return room_view(live_store, sizeof live_store, frozen_store, sizeof frozen_store, console, choice);
}

static uint32_t why_not_viewed(uint32_t console, uint32_t choice)
{
    return room_view_refusal(live_store, sizeof live_store, frozen_store, sizeof frozen_store, console, choice).answer;
}

/* As for any call, but that a frozen store which is none was never made. */
static const char *view_refusal_text(uint32_t answer, uint32_t choice)
{
    if (answer == ROOM_NO_STORE && choice == ROOM_FROZEN)
        return "nothing is frozen: `freeze` keeps the room as it is now";
    return room_refusal_text(answer);
}

/* Below a board on the wall: what the marks in it mean, or why there are none. */
static void say_compared(const uint8_t *board, const uint8_t *other, uint32_t console, uint32_t other_choice)
{
    const char *room = other_choice == ROOM_LIVE ? "live" : "frozen";
    if (other == NULL)
        printf("not compared with the %s room: %s\n", room, view_refusal_text(why_not_viewed(console, other_choice), other_choice));
    else if (memcmp(board, other, ROOM_BOARD_BYTES) == 0)
        printf("no cell differs from the %s board\n", room);
    else
        printf("* differs from the %s board\n", room);
}

/* Both boards are read where they stand: nothing here writes a store while they are in use. */
void show_wall(const struct line *line)
{
    uint32_t console = line->number[0];
    uint32_t choice = line->number[1];
    uint32_t other_choice = choice == ROOM_LIVE ? ROOM_FROZEN : ROOM_LIVE;
    const uint8_t *board = viewed(console, choice);
    const uint8_t *other = viewed(console, other_choice);
    if (board == NULL) {
        uint32_t answer = why_not_viewed(console, choice);
        say_refused(line, answer, view_refusal_text(answer, choice));
        return;
    }
    show_board(board, other);
    say_compared(board, other, console, other_choice);
}
