/* What the panel says to a line. */
#include "answers.h"

#include <stdarg.h>
#include <stdio.h>

#include "outcome.h"

/* How many consoles a command names. */
static int consoles_of(const struct command *command)
{
    int consoles = 0;
    while (consoles < MOST_OPERANDS && command->operand[consoles].kind == CONSOLE)
        consoles++;
    return consoles;
}

enum { BOTH = -1 };

/* Which of two consoles a refusal is about: 0 the first, 1 the second, or BOTH. */
static int console_at_fault(const struct line *line, uint32_t answer)
{
    switch (answer) {
    case ROOM_CONSOLE_TOO_HIGH: return line->number[0] < ROOM_CONSOLES;
    case ROOM_CONSOLE_ABSENT: return line->command->code == ROOM_FORK || is_present(line->number[0]);
    case ROOM_SAME_CONSOLE:
    case ROOM_CONSOLE_PRESENT: return 0;
    default: return BOTH;
    }
}

static void print_who(const struct line *line, uint32_t answer)
{
    int consoles = consoles_of(line->command);
    int at_fault = consoles == 2 ? console_at_fault(line, answer) : 0;
    if (consoles == 0)
        return;
    if (at_fault == BOTH)
        printf(", console %u from console %u", (unsigned)line->number[0], (unsigned)line->number[1]);
    else
        printf(", console %u", (unsigned)line->number[at_fault]);
}

void say_refused(const struct line *line, uint32_t answer, const char *why)
{
    printf("refused (%u)", (unsigned)answer);
    print_who(line, answer);
    printf(": %s\n", why);
    note(WAS_REFUSED);
}

int is_accepted(const struct line *line, struct room_reply reply)
{
    if (reply.answer == ROOM_ACCEPTED)
        return 1;
    say_refused(line, reply.answer, room_refusal_text(reply.answer));
    return 0;
}

void say_done(const struct line *line, struct room_reply reply)
{
    if (is_accepted(line, reply))
        printf("done\n");
}

void say_number(const struct line *line, struct room_reply reply)
{
    if (is_accepted(line, reply))
        printf("%u\n", (unsigned)reply.count);
}

int misunderstood(const char *format, ...)
{
    va_list values;
    va_start(values, format);
    printf("not understood: ");
    vprintf(format, values);
    putchar('\n');
    va_end(values);
    note(WAS_REFUSED);
    return 0;
}
