/* Boards and panes as tables: of one console, alone or compared with another board, and the cells in which two consoles differ. */
#include "boards.h"

#include <stdio.h>
#include <string.h>

#include "answers.h"
#include "panel.h"

/* The longest text of a cell has all 16 marks. */
enum { CELL_TEXT_BYTES = sizeof "0 1 2 3 4 5 6 7 8 9 10 11 12 13 14 15" };

/* A setting is a level or a heading, where 0 stands for none given. */
enum cell_kind { SETTING, COUNT, FLAG, MARKS };

struct cell {
    const char *name;
    size_t at;
    enum cell_kind kind;
    int width; /* in a row, of the settings and counts */
};

enum { CELLS = 6, RIGHT_ALIGNED = 4, FLAG_CELL = 4, MARKS_CELL = 5 };

static const struct cell CELL_ROW[CELLS] = {
    {"level", ROOM_LEVEL_AT, SETTING, 7},
    {"heading", ROOM_HEADING_AT, SETTING, 7},
    {"calls", ROOM_CALLS_AT, COUNT, 5},
    {"alerts", ROOM_ALERTS_AT, COUNT, 6},
    {"flag", ROOM_FLAG_AT, FLAG, 0},
    {"marks", ROOM_MARKS_AT, MARKS, 0},
};

/* 16 bits, but for the flag, which is a byte. */
static unsigned cell_value(const struct cell *cell, const uint8_t *strip)
{
    unsigned first = strip[cell->at];
    return cell->kind == FLAG ? first : first * 256u + strip[cell->at + 1];
}

static int is_same_cell(const struct cell *cell, const uint8_t *strip, const uint8_t *other)
{
    return cell_value(cell, strip) == cell_value(cell, other);
}

static void write_marks(unsigned marks, char text[CELL_TEXT_BYTES])
{
    int length = 0;
    for (unsigned mark = 0; mark <= ROOM_MAX_MARK; mark++)
        if ((marks >> mark) & 1u)
            length += sprintf(text + length, "%s%u", length > 0 ? " " : "", mark);
}

/* Writes what is shown of a cell. */
static void write_cell(const struct cell *cell, const uint8_t *strip, char text[CELL_TEXT_BYTES])
{
    unsigned value = cell_value(cell, strip);
    if (value == 0 && cell->kind != COUNT)
        strcpy(text, "-");
    else if (cell->kind == MARKS)
        write_marks(value, text);
    else if (cell->kind == FLAG)
        strcpy(text, "ALERT");
    else
        sprintf(text, "%u", value);
}

static int is_empty(const uint8_t *strip)
{
    static const uint8_t none[ROOM_STRIP_BYTES];
    return memcmp(strip, none, sizeof none) == 0;
}

/* ---- a board, alone or compared ---- */

/* A `*` takes the first of the two places between columns, so that a table with and one without it have the same columns. */
static void print_numbers(const uint8_t *strip, const uint8_t *other)
{
    char text[CELL_TEXT_BYTES];
    for (const struct cell *cell = CELL_ROW; cell < CELL_ROW + RIGHT_ALIGNED; cell++) {
        write_cell(cell, strip, text);
        printf(" %*s%c", cell->width, text, is_same_cell(cell, strip, other) ? ' ' : '*');
    }
}

/* The text of a cell with its `*` right behind it. */
static void write_starred(const struct cell *cell, const uint8_t *strip, const uint8_t *other, char text[CELL_TEXT_BYTES + 1])
{
    write_cell(cell, strip, text);
    if (!is_same_cell(cell, strip, other))
        strcat(text, "*");
}

static void print_strip(size_t number, const uint8_t *strip, const uint8_t *other)
{
    char flag[CELL_TEXT_BYTES + 1];
    char marks[CELL_TEXT_BYTES + 1];
    write_starred(&CELL_ROW[FLAG_CELL], strip, other, flag);
    write_starred(&CELL_ROW[MARKS_CELL], strip, other, marks);
    printf("%5zu ", number);
    print_numbers(strip, other);
    printf(" %-6s %s\n", flag, marks);
}

/* With nothing to compare with, a board is compared with itself: then nothing differs. */
void show_board(const uint8_t *board, const uint8_t *other)
{
    const uint8_t *beside = other != NULL ? other : board;
    printf("strip    level  heading  calls  alerts  flag   marks\n");
    for (size_t number = 0; number < ROOM_STRIPS; number++) {
        size_t at = ROOM_STRIP_BYTES * number;
        if (!is_empty(board + at) || !is_empty(beside + at))
            print_strip(number, board + at, beside + at);
    }
}

/* A call that copies a console's strips out: the board, or one of its two panes. */
typedef struct room_reply copying_call(const uint8_t *from, size_t from_length, uint32_t console, uint8_t *to, size_t to_length);

/* Goes by what that call copies out and by nothing else, so that a strip of which a student sees nothing is not even listed. */
static void show_copied(const struct line *line, copying_call *copy_out)
{
    uint8_t strips[ROOM_BOARD_BYTES];
    if (is_accepted(line, copy_out(live_store, sizeof live_store, line->number[0], strips, sizeof strips)))
        show_board(strips, NULL);
}

void show_board_of(const struct line *line)
{
    show_copied(line, room_board);
}

void show_student_pane(const struct line *line)
{
    show_copied(line, room_student_pane);
}

void show_instructor_pane(const struct line *line)
{
    show_copied(line, room_instructor_pane);
}

/* ---- where two consoles differ ---- */

static void print_different(size_t number, const uint8_t *strip, const uint8_t *other)
{
    char text[CELL_TEXT_BYTES];
    char other_text[CELL_TEXT_BYTES];
    for (const struct cell *cell = CELL_ROW; cell < CELL_ROW + CELLS; cell++) {
        write_cell(cell, strip, text);
        write_cell(cell, other, other_text);
        if (!is_same_cell(cell, strip, other))
            printf("%5zu  %-7s  %16s  %16s\n", number, cell->name, text, other_text);
    }
}

static void print_diff_head(unsigned first, unsigned second)
{
    char name[sizeof "console 4294967295"];
    char other_name[sizeof name];
    sprintf(name, "console %u", first);
    sprintf(other_name, "console %u", second);
    printf("strip  %-7s  %16s  %16s\n", "cell", name, other_name);
}

/* Whether the unit copied that console's board out; else its refusal is said. */
static int has_board(const struct line *line, int operand, uint8_t board[ROOM_BOARD_BYTES])
{
    return is_accepted(line, room_board(live_store, sizeof live_store, line->number[operand], board, ROOM_BOARD_BYTES));
}

/* The two are asked for together first, so that a refusal is about the first at fault, as in any command of two. */
void show_diff(const struct line *line)
{
    uint8_t board[ROOM_BOARD_BYTES];
    uint8_t other[ROOM_BOARD_BYTES];
    struct room_reply reply = room_common(live_store, sizeof live_store, line->number[0], line->number[1]);
    if (!is_accepted(line, reply) || !has_board(line, 0, board) || !has_board(line, 1, other))
        return;
    if (memcmp(board, other, sizeof board) == 0) {
        printf("no cell differs\n");
        return;
    }
    print_diff_head(line->number[0], line->number[1]);
    for (size_t number = 0; number < ROOM_STRIPS; number++)
        print_different(number, board + ROOM_STRIP_BYTES * number, other + ROOM_STRIP_BYTES * number);
}
