/* The table of every command that can be typed, and the help made from it. */
#include <stdio.h>
#include <string.h>

#include "answers.h"
#include "panel.h"
#include "words.h"

enum { PLAIN = 0, MAY_LOSE_ROOM = 1, NO_CODE = 0 };

#define ONE_CONSOLE {"CONSOLE", CONSOLE}
#define STRIP_OF_CONSOLE {"CONSOLE", CONSOLE}, {"STRIP", NUMBER}
#define TAKING_OVER {"RECEIVER", CONSOLE}, {"GIVER", CONSOLE}
#define TWO_CONSOLES {"FIRST", CONSOLE}, {"SECOND", CONSOLE}
#define NOTHING {NULL, NO_OPERAND}

static const char RANGES[] = "Consoles are numbered 0 to 15, strips 0 to 31.";

static const struct command COMMANDS[] = {
    {"open", {{"CAPACITY", NUMBER}}, NO_CODE, MAY_LOSE_ROOM, open_room, "a new room, with console 0",
     "The capacity is 1 to 1,024 versions."},
    {"fork", {{"NEW", CONSOLE}, {"OLD", CONSOLE}}, ROOM_FORK, PLAIN, change_room, "a new console on the old one's version", RANGES},
    {"level", {STRIP_OF_CONSOLE, {"LEVEL", WIDE_NUMBER}}, ROOM_LEVEL, PLAIN, change_room, "in hundreds of feet, 0 to 600; 0 means none given",
     RANGES},
    {"heading", {STRIP_OF_CONSOLE, {"DEGREES", WIDE_NUMBER}}, ROOM_HEADING, PLAIN, change_room, "0 to 360; 0 means none given", RANGES},
    {"mark", {STRIP_OF_CONSOLE, {"MARK", NUMBER}}, ROOM_MARK_PUT, PLAIN, change_room, "puts a mark, 0 to 15, on the strip",
     "A student sees marks 0 to 7 alone."},
    {"unmark", {STRIP_OF_CONSOLE, {"MARK", NUMBER}}, ROOM_MARK_TAKEN, PLAIN, change_room, "takes a mark from the strip", RANGES},
    {"call", {STRIP_OF_CONSOLE}, ROOM_CALL, PLAIN, change_room, "counts a call", RANGES},
    {"alert", {STRIP_OF_CONSOLE}, ROOM_ALERT_ON, PLAIN, change_room, "counts an alert and raises the strip's flag", RANGES},
    {"quiet", {STRIP_OF_CONSOLE}, ROOM_ALERT_OFF, PLAIN, change_room, "clears the strip's flag", RANGES},
    {"merge", {TAKING_OVER}, ROOM_MERGE, PLAIN, change_room, "the receiver takes over what the giver has, beside what it has of its own",
     "This makes a new version. The panel says how many levels and headings clashed: there the receiver keeps its own."},
    {"forward", {TAKING_OVER}, ROOM_FAST_FORWARD, PLAIN, change_room, "the receiver, with nothing of its own, moves to the giver's version",
     NULL},
    {"leave", {ONE_CONSOLE}, ROOM_LEAVE, PLAIN, change_room, "it goes home; its number can be forked again",
     "Another console must have all that it has. Console 0 never leaves."},
    {"hub", {NOTHING}, ROOM_HUB, PLAIN, change_room, "for good: fork, merge and forward go through console 0",
     "A hub room never gets stuck."},
    {"gather", {NOTHING}, NO_CODE, PLAIN, gather, "all to one version: console 0 takes over from each, then each from it",
     "It ends at the first refusal, and says what can be done then."},
    {"board", {ONE_CONSOLE}, NO_CODE, PLAIN, show_board_of, "the console's strips", "Strips on which nothing is set are left out."},
    {"student", {ONE_CONSOLE}, NO_CODE, PLAIN, show_student_pane, "what a student sees of it", "No calls, no alerts and no marks 8 to 15."},
    {"instructor", {ONE_CONSOLE}, NO_CODE, PLAIN, show_instructor_pane, "what the instructor sees of it, which is all", NULL},
    {"heads", {NOTHING}, NO_CODE, PLAIN, show_heads, "where every console stands, and how full the room is", NULL},
    {"heard", {ONE_CONSOLE}, NO_CODE, PLAIN, show_heard, "how many entries it has heard", NULL},
    {"log", {ONE_CONSOLE}, NO_CODE, PLAIN, show_log_of, "the entries that it has heard, the newest first", NULL},
    {"missing", {TWO_CONSOLES}, NO_CODE, PLAIN, show_missing_of, "the entries that the first has heard and the second has not", NULL},
    {"diff", {TWO_CONSOLES}, NO_CODE, PLAIN, show_diff, "the cells in which their boards differ", NULL},
    {"common", {TWO_CONSOLES}, NO_CODE, PLAIN, show_common, "the last version that both have", NULL},
    {"origin", {STRIP_OF_CONSOLE, {"CELL", CELL}}, NO_CODE, PLAIN, show_origin, "the entry behind that cell, `level` or `heading`", NULL},
    {"who", {NOTHING}, NO_CODE, PLAIN, show_mergeable, "which two can merge or fast-forward, and what to type", NULL},
    {"freeze", {NOTHING}, NO_CODE, PLAIN, freeze, "keeps the room as it is now, for the wall", NULL},
    {"wall", {ONE_CONSOLE, {"ROOM", ROOM}}, NO_CODE, PLAIN, show_wall, "its strips in that room, `live` or `frozen`",
     "A * stands behind each cell that differs from the other room's."},
    {"pause", {{"FILE", TEXT}}, NO_CODE, PLAIN, pause_room, "writes the room to a tape",
     "The tape is read back before it takes the place of an older one. A name with blanks stands in double quotes."},
    {"resume", {{"FILE", TEXT}}, NO_CODE, MAY_LOSE_ROOM, resume_room, "goes on with the room of a tape", NULL},
    {"graph", {{"FILE", OPTIONAL_TEXT}}, NO_CODE, PLAIN, show_or_write_graph, "the versions, the newest first; to a file, for Graphviz", NULL},
    {"help", {{"COMMAND", OPTIONAL_TEXT}}, NO_CODE, PLAIN, help, "this list, or more on a command", NULL},
    {"quit", {NOTHING}, NO_CODE, MAY_LOSE_ROOM, quit, "ends the panel", NULL},
};

#define COMMANDS_END (COMMANDS + sizeof COMMANDS / sizeof COMMANDS[0])

static const struct command *find_by_bytes(const char *name, size_t length)
{
    for (const struct command *command = COMMANDS; command < COMMANDS_END; command++)
        if (strlen(command->name) == length && memcmp(command->name, name, length) == 0)
            return command;
    return NULL;
}

const struct command *find_command(const char *name)
{
    return find_by_bytes(name, strlen(name));
}

const struct command *find_typed_command(const char *word, int *is_sure)
{
    size_t length = strlen(word);
    *is_sure = length > 0 && word[length - 1] == '!';
    const struct command *command = find_by_bytes(word, *is_sure ? length - 1 : length);
    return command != NULL && *is_sure && !command->may_lose_room ? NULL : command;
}

int say_no_command(const char *word)
{
    return misunderstood("there is no command `%s`; `help` lists them", shown(word).text);
}

/* A command as it is typed. */
struct usage {
    char text[64];
};

static struct usage usage_of(const struct command *command)
{
    struct usage usage;
    int length = snprintf(usage.text, sizeof usage.text, "%s", command->name);
    for (int i = 0; i < MOST_OPERANDS && command->operand[i].kind != NO_OPERAND; i++) {
        const char *form = command->operand[i].kind == OPTIONAL_TEXT ? " [%s]" : " %s";
        length += snprintf(usage.text + length, sizeof usage.text - (size_t)length, form, command->operand[i].name);
    }
    return usage;
}

void show_usage(const struct command *command)
{
    printf("usage: %s\n", usage_of(command).text);
}

/* The longest usage is that of `heading`. */
void show_commands(void)
{
    int width = (int)strlen(usage_of(find_command("heading")).text);
    for (const struct command *command = COMMANDS; command < COMMANDS_END; command++)
        printf("%-*s  %s\n", width, usage_of(command).text, command->help);
}

static void show_command(const struct command *command)
{
    show_usage(command);
    printf("%s\n", command->help);
    if (command->more_help != NULL)
        printf("%s\n", command->more_help);
    if (command->may_lose_room)
        printf("A room that was changed since its last pause is not left behind unasked, but by `%s!` it is.\n", command->name);
}

void help(const struct line *line)
{
    int is_sure;
    const struct command *command = line->text != NULL ? find_typed_command(line->text, &is_sure) : NULL;
    if (line->text == NULL)
        show_commands();
    else if (command == NULL)
        say_no_command(line->text);
    else
        show_command(command);
}
