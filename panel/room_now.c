/* The room on the panel: its store, and what is asked of it all over the panel. */
#include "panel.h"

#include <stdio.h>

#include "answers.h"

uint8_t live_store[ROOM_STORE_BYTES(ROOM_MAX_CAPACITY)];

int is_present(uint32_t console)
{
    return room_common(live_store, sizeof live_store, console, console).answer == ROOM_ACCEPTED;
}

uint32_t common_version(uint32_t first, uint32_t second)
{
    return room_common(live_store, sizeof live_store, first, second).count;
}

struct tape tape_now(void)
{
    static uint8_t bytes[ROOM_TAPE_BYTES(ROOM_MAX_CAPACITY)];
    struct line pausing = {.command = find_command("pause")};
    struct room_reply reply = room_pause(live_store, sizeof live_store, bytes, sizeof bytes);
    return (struct tape){bytes, is_accepted(&pausing, reply) ? reply.count : 0};
}

const struct history *history_now(void)
{
    static struct history history;
    struct tape tape = tape_now();
    if (tape.length == 0)
        return NULL;
    take_tape_apart(&history, tape.bytes, tape.length);
    return &history;
}

static size_t encode(const struct line *line, uint8_t bytes[ROOM_MAX_COMMAND_BYTES])
{
    const struct operand *operand = line->command->operand;
    size_t length = 0;
    bytes[length++] = line->command->code;
    for (int i = 0; i < MOST_OPERANDS && operand[i].kind != NO_OPERAND; i++) {
        if (operand[i].kind == WIDE_NUMBER)
            bytes[length++] = (uint8_t)(line->number[i] >> 8);
        bytes[length++] = (uint8_t)(line->number[i] & 255u);
    }
    return length;
}

struct room_reply command_on(uint8_t *store, size_t store_length, const struct line *line)
{
    uint8_t bytes[ROOM_MAX_COMMAND_BYTES];
    return room_command(store, store_length, bytes, encode(line, bytes));
}
