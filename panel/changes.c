/* The commands of the unit, which change the room, and `gather`, which gives several of them. */
#include <stdio.h>

#include "answers.h"
#include "panel.h"

/* After a merge also the new version and how many levels and headings clashed; that none did is worth a word too, as nobody then has to
   look. */
static void say_merged(const struct line *line, uint32_t clashes)
{
    printf("done, version %u; ", (unsigned)common_version(line->number[0], line->number[0]));
    if (clashes == 0)
        printf("no level or heading clashed\n");
    else
        printf("%u %s clashed: the receiver keeps its own\n", (unsigned)clashes, clashes == 1 ? "level or heading" : "levels or headings");
}

/* Gives the room a command and says what came of it; the answer. */
static uint32_t give(const struct line *line)
{
    struct room_reply reply = command_on(live_store, sizeof live_store, line);
    if (reply.answer == ROOM_ACCEPTED && line->command->code == ROOM_MERGE)
        say_merged(line, reply.count);
    else
        say_done(line, reply);
    return reply.answer;
}

/* These refusals alone do not say what can be done next. */
void change_room(const struct line *line)
{
    uint32_t answer = give(line);
    if (answer >= ROOM_GIVER_BEHIND && answer <= ROOM_THIRD_CONSOLE)
        show_accepted_instead(line, answer);
    else if (answer == ROOM_NOT_THROUGH_HUB)
        show_way_through_hub(line);
}

/* The receiver takes over from the giver, both present, by the command that fits, which is said as it would be typed. Whether nothing was
   refused. */
static int take_over(uint32_t receiver, uint32_t giver)
{
    uint32_t common = common_version(receiver, giver);
    if (common == common_version(giver, giver)) {
        printf("console %u has nothing new for console %u\n", (unsigned)giver, (unsigned)receiver);
        return 1;
    }
    int is_behind = common == common_version(receiver, receiver);
    struct line line = {.command = find_command(is_behind ? "forward" : "merge"), .number = {receiver, giver}};
    printf("%s %u %u: ", line.command->name, (unsigned)receiver, (unsigned)giver);
    return give(&line) == ROOM_ACCEPTED;
}

/* Console 0 is the receiver; whether nothing was refused. */
static int take_over_from_each(void)
{
    for (uint32_t console = 1; console < ROOM_CONSOLES; console++)
        if (is_present(console) && !take_over(0, console))
            return 0;
    return 1;
}

/* Console 0 is the giver. */
static void pass_on_to_each(void)
{
    for (uint32_t console = 1; console < ROOM_CONSOLES; console++)
        if (is_present(console) && !take_over(console, 0))
            return;
}

/* Console 0 takes over from each, then each from console 0, up to the first refusal: of a merge without a version left, and outside a hub
   room also of one that a third console keeps apart. Last comes what `who` says: all on one version, or what could be done. */
void gather(const struct line *line)
{
    if (take_over_from_each())
        pass_on_to_each();
    show_mergeable(line);
}
