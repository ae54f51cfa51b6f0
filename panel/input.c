/* Reads lines: with line editing and a history by readline or libedit, where the panel was built with one of them and both ends are a
   terminal, else plainly. */
#define _XOPEN_SOURCE 700
#include "input.h"

#include <errno.h>
#include <signal.h>
#include <stdio.h>
#include <stdlib.h>
#include <string.h>
#include <strings.h>
#include <unistd.h>

#include "outcome.h"
#include "words.h"

#if defined HAVE_READLINE
#include <readline/history.h>
#include <readline/readline.h>
#elif defined HAVE_EDITLINE
#include <editline/readline.h>
#endif

/* What was read, and how many bytes `getline` may write there. */
struct buffer {
    char *bytes;
    size_t size;
};

/* An answer has its own, as the line that is carried out meanwhile still points into the other. */
static struct buffer last_line;
static struct buffer last_answer;

int is_interactive(void)
{
    return isatty(STDIN_FILENO);
}

static volatile sig_atomic_t is_interrupted;

/* The line that was being typed is dropped by whoever reads it, the terminal or readline. */
static void outlive(int interrupt)
{
    (void)interrupt;
    is_interrupted = 1;
}

void outlive_interrupts(void)
{
    struct sigaction action = {.sa_handler = outlive, .sa_flags = SA_RESTART};
    sigaction(SIGINT, &action, NULL);
}

/* `getline` keeps the end of a line, which the last may lack. */
static void cut_line_end(struct text *text)
{
    if (text->length > 0 && text->bytes[text->length - 1] == '\n')
        text->bytes[--text->length] = '\0';
}

static int read_plain(const char *prompt, struct buffer *buffer, struct text *text)
{
    if (is_interactive()) {
        fputs(prompt, stdout);
        fflush(stdout);
    }
    errno = 0;
    ssize_t length = getline(&buffer->bytes, &buffer->size, stdin);
    if (length < 0 && !feof(stdin)) {
        printf("standard input could not be read: %s\n", strerror(errno));
        note(FILE_FAILED);
    }
    clearerr(stdin); /* someone who types may go on behind an end of input */
    if (length < 0)
        return 0;
    *text = (struct text){buffer->bytes, (size_t)length};
    cut_line_end(text);
    return 1;
}

#if defined HAVE_READLINE || defined HAVE_EDITLINE

static int is_edited(void)
{
    return is_interactive() && isatty(STDOUT_FILENO);
}

#if defined HAVE_READLINE

/* An interrupt that is typed drops the line, and an empty one is typed next. Any other signal, as of a window that changes its size, leaves it. */
static int drop_line(void)
{
    if (!is_interrupted)
        return 0;
    is_interrupted = 0;
    rl_crlf();
    rl_replace_line("", 0);
    rl_on_new_line();
    rl_redisplay();
    return 0;
}

/* Several lines that are pasted are several lines: only readline knows another way, which makes one of them. */
static void set_up_editing(void)
{
    rl_initialize();
    rl_variable_bind("enable-bracketed-paste", "off");
    rl_signal_event_hook = drop_line;
    is_interrupted = 0;
}

#else

static void set_up_editing(void)
{
    is_interrupted = 0;
}

#endif

/* libedit ends the input at an interrupt, where readline has dropped the line by then: an empty one takes its place. */
static char *edited_line(const char *prompt)
{
    char *line = readline(prompt);
    if (line != NULL || !is_interrupted)
        return line;
    putchar('\n');
    return strdup("");
}

static int read_edited(const char *prompt, struct buffer *buffer, struct text *text)
{
    free(buffer->bytes);
    set_up_editing();
    *buffer = (struct buffer){edited_line(prompt), 0};
    if (buffer->bytes == NULL)
        return 0;
    *text = (struct text){buffer->bytes, strlen(buffer->bytes)};
    buffer->size = text->length + 1;
    return 1;
}

static void remember(const struct text *text)
{
    if (is_edited() && text->length > 0)
        add_history(text->bytes);
}

#else

static int is_edited(void)
{
    return 0;
}

static int read_edited(const char *prompt, struct buffer *buffer, struct text *text)
{
    return read_plain(prompt, buffer, text);
}

static void remember(const struct text *text)
{
    (void)text;
}

#endif

static int read_after(const char *prompt, struct buffer *buffer, struct text *text)
{
    int is_read = is_edited() ? read_edited(prompt, buffer, text) : read_plain(prompt, buffer, text);
    if (!is_read && is_interactive())
        putchar('\n'); /* where the prompt stands no line was ended */
    return is_read;
}

int read_line(struct text *text)
{
    if (!read_after("room> ", &last_line, text))
        return 0;
    remember(text);
    return 1;
}

static int is_yes(char *text)
{
    char *word;
    if (take_word(&text, &word) != A_WORD || (strcasecmp(word, "y") != 0 && strcasecmp(word, "yes") != 0))
        return 0;
    return take_word(&text, &word) == NO_WORD;
}

enum consent ask(const char *question)
{
    struct text text;
    if (!read_after(question, &last_answer, &text))
        return NO_ANSWER;
    return is_yes(text.bytes) ? YES : NO;
}

void free_input(void)
{
    free(last_line.bytes);
    free(last_answer.bytes);
}
