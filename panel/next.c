/* What can be done next: which two consoles can merge or fast-forward, and what to type after a refusal. */
#include <stdio.h>
#include <string.h>

#include "answers.h"
#include "panel.h"

static void show_merge(unsigned receiver, unsigned giver, int no_version_left)
{
    if (no_version_left)
        printf("console %u could merge console %u, but the room is full\n", receiver, giver);
    else
        printf("console %u can merge console %u: `merge %u %u`\n", receiver, giver, receiver, giver);
}

/* A pair with what to type. In a full room a merge is not offered, as it would be refused. */
static void show_pair(uint32_t count, int no_version_left)
{
    unsigned receiver = ROOM_RECEIVER_OF(count);
    unsigned giver = ROOM_GIVER_OF(count);
    switch (ROOM_KIND_OF(count)) {
    case ROOM_ALL_AGREE: printf("nothing to merge: all consoles are on one version\n"); break;
    case ROOM_STUCK: printf("stuck: no two consoles can merge or fast-forward\n"); break;
    case ROOM_CAN_MERGE: show_merge(receiver, giver, no_version_left); break;
    case ROOM_CAN_FAST_FORWARD:
        printf("console %u can fast-forward to console %u: `forward %u %u`\n", receiver, giver, receiver, giver);
        break;
    default: printf("an answer that this panel does not know\n");
    }
}

/* The question leaves aside whether a version is free, so that is looked up in the history. */
void show_mergeable(const struct line *line)
{
    struct room_reply reply = room_mergeable(live_store, sizeof live_store);
    const struct history *history = is_accepted(line, reply) ? history_now() : NULL;
    if (history != NULL)
        show_pair(reply.count, is_full(history));
}

/* A fork's first operand is the new console, that of the other two commands the receiver. */
void show_way_through_hub(const struct line *line)
{
    unsigned first = line->number[0];
    unsigned giver = line->number[1];
    if (line->command->code == ROOM_FORK)
        printf("fork it from console 0: `fork %u 0`\n", first);
    else
        printf("console 0 takes over from console %u, then console %u from console 0: `gather` does so for all\n", giver, first);
}

/* ---- tried on a copy ---- */

static uint8_t copy[sizeof live_store];

/* Offers that command where the copy, which is as the room is until it accepts one, accepts it; whether it does. */
static int offer(const char *name, uint32_t receiver, uint32_t giver)
{
    struct line line = {.command = find_command(name), .number = {receiver, giver}};
    if (command_on(copy, sizeof copy, &line).answer != ROOM_ACCEPTED)
        return 0;
    printf("accepted now: `%s %u %u`\n", name, (unsigned)receiver, (unsigned)giver);
    return 1;
}

static int offer_of_two(uint32_t receiver, uint32_t giver)
{
    return offer("forward", receiver, giver) || offer("merge", receiver, giver) || offer("forward", giver, receiver) ||
           offer("merge", giver, receiver);
}

/* The same of one of the two and a third console, which gives. */
static int offer_from_third(const char *name, uint32_t receiver, uint32_t other)
{
    for (uint32_t third = 0; third < ROOM_CONSOLES; third++)
        if (third != receiver && third != other && offer(name, receiver, third))
            return 1;
    return 0;
}

static int offer_from_thirds(uint32_t receiver, uint32_t giver)
{
    return offer_from_third("forward", receiver, giver) || offer_from_third("forward", giver, receiver) ||
           offer_from_third("merge", receiver, giver) || offer_from_third("merge", giver, receiver);
}

void show_accepted_instead(const struct line *line, uint32_t answer)
{
    uint32_t receiver = line->number[0];
    uint32_t giver = line->number[1];
    memcpy(copy, live_store, sizeof copy);
    if (offer_of_two(receiver, giver))
        return;
    if (answer != ROOM_THIRD_CONSOLE)
        printf("no merge or fast-forward of the two is accepted now\n");
    else if (!offer_from_thirds(receiver, giver))
        show_mergeable(line);
}
