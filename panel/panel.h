/* What the panel's parts share: a command and a line that was understood, the room on the panel, and what carries the commands out. */
#ifndef PANEL_H
#define PANEL_H

#include <stddef.h>
#include <stdint.h>

#include "history.h"
#include "room.h"

enum { MOST_OPERANDS = 3 };

/* A number is as large as its command can carry, a wide one of a command of the unit two bytes. The words are `level` or `heading`, and
   `live` or `frozen`. A text names a file or a command; where it is optional it may be left out. */
enum operand_kind { NO_OPERAND, CONSOLE, NUMBER, WIDE_NUMBER, CELL, ROOM, TEXT, OPTIONAL_TEXT };

struct operand {
    const char *name;
    enum operand_kind kind;
};

struct line;
typedef void carry_out(const struct line *line);

struct command {
    const char *name;
    struct operand operand[MOST_OPERANDS]; /* the consoles first */
    uint8_t code;                          /* of a command of the unit, else 0 */
    int may_lose_room;                     /* then it can be typed with a `!` behind it */
    carry_out *carry_out;
    const char *help;
    const char *more_help; /* what only `help COMMAND` says */
};

/* A line that was understood. A word is the number that the unit has for it. */
struct line {
    const struct command *command;
    int is_sure; /* typed with the `!` */
    uint32_t number[MOST_OPERANDS];
    const char *text; /* NULL where there is none */
};

/* The command of that name; NULL where there is none. */
const struct command *find_command(const char *name);

/* The same of a word as it may be typed, with a `!` behind those commands that may lose the room, which then is sure. */
const struct command *find_typed_command(const char *word, int *is_sure);

/* Says that there is no command of a typed word; always 0. */
int say_no_command(const char *word);

/* Prints how a command is typed, with the names of its operands. */
void show_usage(const struct command *command);

/* Prints every command with what it does. */
void show_commands(void);

/* ---- the room ---- */

extern uint8_t live_store[ROOM_STORE_BYTES(ROOM_MAX_CAPACITY)];

int is_present(uint32_t console);

/* The last version that two present consoles have in common; of a console with itself, its head. */
uint32_t common_version(uint32_t first, uint32_t second);

/* The room's tape, good until the next call; its length is 0 where the unit refuses one, which is said. */
struct tape {
    const uint8_t *bytes;
    size_t length;
};
struct tape tape_now(void);

/* The room's history, good until the next call; NULL where there is no tape. */
const struct history *history_now(void);

/* Has a store carry out a line that is a command of the unit. */
struct room_reply command_on(uint8_t *store, size_t store_length, const struct line *line);

/* ---- what can be done next ---- */

/* Prints what to type instead of a merge or fast-forward that was refused by 14 to 17. */
void show_accepted_instead(const struct line *line, uint32_t answer);

/* Prints what to type instead of a fork, merge or fast-forward that was refused because it did not go through console 0, the hub. */
void show_way_through_hub(const struct line *line);

/* ---- what carries the commands out, by the file that has it ---- */

/* changes.c */
carry_out change_room, gather;
/* next.c */
carry_out show_mergeable;
/* questions.c */
carry_out show_heads, show_heard, show_log_of, show_missing_of, show_common, show_origin;
/* boards.c */
carry_out show_board_of, show_student_pane, show_instructor_pane, show_diff;
/* wall.c */
carry_out freeze, show_wall;
/* tapes.c */
carry_out open_room, pause_room, resume_room, show_or_write_graph;
/* keeping.c */
carry_out quit;
/* commands.c */
carry_out help;

#endif
