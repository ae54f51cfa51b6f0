/* Rooms that begin, go to a file and come back from one, and the file that shows a room's versions. */
#define _XOPEN_SOURCE 700
#include "tapes.h"

#include <stdio.h>
#include <stdlib.h>

#include "answers.h"
#include "files.h"
#include "keeping.h"
#include "outcome.h"

/* Whether the panel has a room that nothing was done in yet. */
static int is_begun(const struct line *line, struct room_reply reply)
{
    if (!is_accepted(line, reply))
        return 0;
    keep_as_unchanged();
    return 1;
}

int begin_room(const struct line *line)
{
    return is_begun(line, room_open(line->number[0], live_store, sizeof live_store));
}

void open_room(const struct line *line)
{
    if (may_lose_room(line) && begin_room(line))
        printf("done\n");
}

/* One byte more than the longest tape is asked for, so that a longer file shows. */
int take_up_room(const struct line *line)
{
    static uint8_t bytes[ROOM_TAPE_BYTES(ROOM_MAX_CAPACITY) + 1];
    long length = read_file(line->text, bytes, sizeof bytes);
    if (length == (long)sizeof bytes) {
        printf("%s is no tape of a room: it is longer than any\n", line->text);
        note(WAS_REFUSED);
        return 0;
    }
    return length != NOT_READ && is_begun(line, room_resume(bytes, (size_t)length, live_store, sizeof live_store));
}

void resume_room(const struct line *line)
{
    if (may_lose_room(line) && take_up_room(line))
        printf("done\n");
}

void pause_room(const struct line *line)
{
    struct tape tape = tape_now();
    if (tape.length == 0 || !write_file(line->text, tape.bytes, tape.length))
        return;
    printf("%zu bytes written\n", tape.length);
    keep_as_unchanged();
}

/* The file's text in memory, to be freed; NULL where there is no memory for it. */
static char *dot_text(const struct history *history, size_t *length)
{
    char *text = NULL;
    FILE *file = open_memstream(&text, length);
    if (file == NULL)
        return NULL;
    write_dot(file, history);
    int is_whole = !ferror(file);
    if (fclose(file) == 0 && is_whole)
        return text;
    free(text);
    return NULL;
}

static void write_graph(const char *name, const struct history *history)
{
    size_t length = 0;
    char *text = dot_text(history, &length);
    if (text == NULL) {
        printf("%s could not be written: there is no memory for it\n", name);
        note(FILE_FAILED);
    } else if (write_file(name, text, length)) {
        printf("graph written\n");
    }
    free(text);
}

void show_or_write_graph(const struct line *line)
{
    const struct history *history = history_now();
    if (history == NULL)
        return;
    if (line->text == NULL)
        show_graph(history);
    else
        write_graph(line->text, history);
}
