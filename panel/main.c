/* A sample operator panel: reads typed commands, line by line, and has the room unit carry them out. `help` lists them. */
#define _XOPEN_SOURCE 700
#include <signal.h>
#include <stdio.h>
#include <string.h>

#include "input.h"
#include "keeping.h"
#include "lines.h"
#include "outcome.h"
#include "tapes.h"

enum { FIRST_CAPACITY = 64, WRONG_START = 2, OUTPUT_LOST = 2 };

static const char NAME[] = "room panel " ROOM_VERSION;
static const char USAGE[] = "usage: panel [--help | --version | TAPE]\n";
static const char START_HELP[] =
    "TAPE is a file that `pause` wrote: the panel goes on with its room, else with a new one of capacity %d.\n"
    "Commands are read from standard input, a line each:\n";

/* Where nobody reads the output, or a file grows too long, the panel is to be told and not ended. */
static void prepare(void)
{
    signal(SIGPIPE, SIG_IGN);
    signal(SIGXFSZ, SIG_IGN);
    if (is_interactive())
        outlive_interrupts();
    setvbuf(stdout, NULL, _IOLBF, BUFSIZ);
}

static int is_output_lost(void)
{
    return fflush(stdout) != 0 || ferror(stdout);
}

/* The exit status: that one, unless what was said did not arrive. */
static int end_with(int status)
{
    if (!is_output_lost())
        return status;
    fputs("standard output could not be written: the panel ends here\n", stderr);
    return OUTPUT_LOST;
}

static int show_help(void)
{
    fputs(USAGE, stdout);
    printf(START_HELP, FIRST_CAPACITY);
    show_commands();
    return end_with(ALL_WELL);
}

static int show_version(void)
{
    printf("%s\n", NAME);
    return end_with(ALL_WELL);
}

static int begin(const char *tape_name)
{
    struct line opening = {.command = find_command("open"), .number = {FIRST_CAPACITY}};
    struct line resuming = {.command = find_command("resume"), .text = tape_name};
    return tape_name == NULL ? begin_room(&opening) : take_up_room(&resuming);
}

static void greet(void)
{
    const struct history *history = history_now();
    if (history != NULL)
        printf("%s: a room of capacity %u, %u %s used; `help` lists the commands\n", NAME, history->capacity, history->versions,
               history->versions == 1 ? "version" : "versions");
}

static void follow_lines(void)
{
    struct text text;
    while (!is_over() && !is_output_lost()) {
        if (read_line(&text))
            follow(&text);
        else
            meet_end_of_input();
    }
    free_input();
}

/* Who types has seen each refusal and each file that failed; a script is told by the status. */
static int run(const char *tape_name)
{
    if (!begin(tape_name))
        return end_with(worst_outcome());
    if (is_interactive())
        greet();
    follow_lines();
    return end_with(is_interactive() ? ALL_WELL : worst_outcome());
}

int main(int arguments, char **argument)
{
    const char *word = arguments > 1 ? argument[1] : NULL;
    prepare();
    if (arguments > 2 || (word != NULL && word[0] == '-' && strcmp(word, "--help") != 0 && strcmp(word, "--version") != 0)) {
        fputs(USAGE, stderr);
        return WRONG_START;
    }
    if (word != NULL && strcmp(word, "--help") == 0)
        return show_help();
    if (word != NULL && strcmp(word, "--version") == 0)
        return show_version();
    return run(word);
}
