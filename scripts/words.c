/*
 * What each line of a session means: the lines that the session program printed, each beside its command and its answer in words.
 * usage: words COMMANDS <LINES, the file that the program read and the lines that it printed
 */
#include <stdint.h>
#include <stdio.h>

#include "room.h"

enum { LINE_BYTES = 64, WIDE_AT = 3 };

/* A command as the panel takes it, and its bytes with the code; the longest end in a number of 16 bits. */
struct form {
    const char *name;
    size_t length;
};

/* By code; 0 is no command's. */
static const struct form FORMS[] = {
    [0] = {NULL, 1},
    [ROOM_FORK] = {"fork", 3},
    [ROOM_LEVEL] = {"level", ROOM_MAX_COMMAND_BYTES},
    [ROOM_HEADING] = {"heading", ROOM_MAX_COMMAND_BYTES},
    [ROOM_MARK_PUT] = {"mark", 4},
    [ROOM_MARK_TAKEN] = {"unmark", 4},
    [ROOM_CALL] = {"call", 3},
    [ROOM_ALERT_ON] = {"alert", 3},
    [ROOM_ALERT_OFF] = {"quiet", 3},
    [ROOM_MERGE] = {"merge", 3},
    [ROOM_FAST_FORWARD] = {"forward", 3},
    [ROOM_LEAVE] = {"leave", 2},
    [ROOM_HUB] = {"hub", 1},
};

static const struct form *form_of(uint8_t code)
{
    return &FORMS[code < sizeof FORMS / sizeof *FORMS ? code : 0];
}

/* Reads a command as the session program does, an unknown code alone; how many bytes there were, 0 at the end. */
static size_t read_command(FILE *commands, uint8_t bytes[ROOM_MAX_COMMAND_BYTES])
{
    if (fread(bytes, 1, 1, commands) == 0)
        return 0;
    return 1 + fread(bytes + 1, 1, form_of(bytes[0])->length - 1, commands);
}

static void say_bytes(const uint8_t *bytes, size_t length)
{
    printf("%s", length == 1 ? "the byte" : "the bytes");
    for (size_t i = 0; i < length; i++)
        printf(" %02X", (unsigned)bytes[i]);
}

static void say_whole_command(const char *name, const uint8_t *bytes, size_t length)
{
    int is_wide = length == ROOM_MAX_COMMAND_BYTES;
    printf("%s", name);
    for (size_t i = 1; i < (is_wide ? WIDE_AT : length); i++)
        printf(" %u", (unsigned)bytes[i]);
    if (is_wide)
        printf(" %u", 256u * bytes[WIDE_AT] + bytes[WIDE_AT + 1]);
}

static void say_command(const uint8_t *bytes, size_t length)
{
    const struct form *form = form_of(bytes[0]);
    if (form->name == NULL || length < form->length)
        say_bytes(bytes, length);
    else
        say_whole_command(form->name, bytes, length);
}

static void say_answer(unsigned answer)
{
    if (answer == ROOM_ACCEPTED)
        printf(": %s", room_refusal_text(answer));
    else
        printf(": refused (%u), %s", answer, room_refusal_text(answer));
}

/* Of a console above 15 there is nothing to say. */
static void say_head(unsigned console, const char *head)
{
    if (console >= ROOM_CONSOLES)
        return;
    if (head[0] == '-')
        printf("; console %u is absent", console);
    else
        printf("; console %u is on version %s", console, head);
}

static unsigned bytes_left(FILE *commands)
{
    unsigned left = 0;
    while (fgetc(commands) != EOF)
        left++;
    return left;
}

/* The last line. The program stops after refusals 1 and 2, whatever follows. */
static void say_end(const char *line, unsigned versions, unsigned left)
{
    printf("%-10s  %u %s", line, versions, versions == 1 ? "version" : "versions");
    if (left > 0)
        printf("; what follows was not read, %u %s", left, left == 1 ? "byte" : "bytes");
    printf("\n");
}

/* Says a line beside its words; whether it is the one of this command. */
static int say_line(const char *line, unsigned ordinal, FILE *commands)
{
    uint8_t bytes[ROOM_MAX_COMMAND_BYTES];
    unsigned printed, answer;
    char head[LINE_BYTES];
    size_t length = read_command(commands, bytes);
    if (length == 0 || sscanf(line, "%u %u %63s", &printed, &answer, head) != 3 || printed != ordinal)
        return 0;
    printf("%-10s  ", line);
    say_command(bytes, length);
    say_answer(answer);
    if (length > 1)
        say_head(bytes[1], head);
    printf("\n");
    return 1;
}

/* Says all lines; whether they are those of a session with these commands, up to its end. */
static int say_session(FILE *commands)
{
    char line[LINE_BYTES];
    unsigned versions;
    for (unsigned ordinal = 1; scanf("%63[^\n]%*c", line) == 1; ordinal++) {
        if (sscanf(line, "end %u", &versions) == 1) {
            say_end(line, versions, bytes_left(commands));
            return 1;
        }
        if (!say_line(line, ordinal, commands))
            return 0;
    }
    return 0;
}

int main(int argc, char **argv)
{
    FILE *commands = argc == 2 ? fopen(argv[1], "rb") : NULL;
    if (commands == NULL) {
        fprintf(stderr, "usage: words COMMANDS <LINES\n");
        return 2;
    }
    int is_said = say_session(commands);
    fclose(commands);
    if (!is_said)
        fprintf(stderr, "these lines are not those of that session\n");
    return is_said ? 0 : 1;
}
