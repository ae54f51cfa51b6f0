/*
 * The room unit: one training room's strip boards, kept as a version graph in a store that the caller lends.
 *
 * What the caller owes:
 * - A pointer and the length behind it describe bytes that the caller may read, and write where the pointer is not const.
 *   With a length of 0 the pointer may be NULL.
 * - A buffer that a call writes overlaps no other buffer of that call. The two stores of a view are only read, so they may overlap or be one.
 * - Before the call has returned no other thread writes a lent buffer, nor reads one that the call writes. The unit keeps no pointer and no
 *   state of its own.
 * - room_resume needs ROOM_RESUME_STACK bytes of stack, room_origin ROOM_ORIGIN_STACK bytes, any other call ROOM_STACK bytes. musl gives a
 *   thread 131,072 bytes unless told otherwise, too few for room_resume: there pthread_attr_setstacksize has to ask for more.
 * - A store stays where it is, and nobody writes it, as long as a pointer that room_view made into it is in use.
 * Nothing else: any bytes may stand in a lent buffer, and any number may be passed.
 *
 * A call answers 0, or the number of the refusal that applies. A refused call counts 0 and changes no lent byte.
 */
#ifndef ROOM_H
#define ROOM_H

#include <stddef.h>
#include <stdint.h>

#ifdef __cplusplus
extern "C" {
#endif

/* The version of this header and of the archive it came with: 1 for the paper, 8 for the requests that have landed since. */
#define ROOM_VERSION "1.8.0"
#define ROOM_VERSION_MAJOR 1
#define ROOM_VERSION_MINOR 8
#define ROOM_VERSION_PATCH 0

/* Every macro but ROOM_VERSION is a number that #if can use too. */

/* Sizes. A store of a capacity takes ROOM_STORE_BYTES(capacity) bytes at the front of its buffer; bytes behind it are never touched. */
#define ROOM_CONSOLES 16
#define ROOM_STRIPS 32
#define ROOM_STRIP_BYTES 12
#define ROOM_BOARD_BYTES 384
#define ROOM_MAX_CAPACITY 1024
#define ROOM_STORE_BYTES(capacity) (4096UL + 544UL * (capacity))
/* The longest tape of a room of this capacity: its start, its versions, 16 heads, the byte 25 of a hub room and its end. */
#define ROOM_TAPE_BYTES(capacity) (7UL * (capacity) + 62UL)

/* The highest that is accepted. The lowest is 0, which stands for none given in a level and a heading. */
#define ROOM_MAX_LEVEL 600
#define ROOM_MAX_HEADING 360
#define ROOM_MAX_MARK 15
/* The longest command: 02 and 03. */
#define ROOM_MAX_COMMAND_BYTES 5
/* The most clashes of a merge: the level and the heading of every strip. */
#define ROOM_MAX_CLASHES 64

/* Stack in bytes that a caller must have: resume judges a tape with 1,024 rows of 128 bytes of its own before it writes, and origin goes down
   the versions by recursion, in a full room up to 513 calls deep. */
#define ROOM_STACK 16384
#define ROOM_RESUME_STACK 151552
#define ROOM_ORIGIN_STACK 36864

/* Cells of a strip, by their first byte; 16 bits with the high byte first, but for the flag, which is a byte. */
#define ROOM_LEVEL_AT 0
#define ROOM_HEADING_AT 2
#define ROOM_MARKS_AT 4
#define ROOM_CALLS_AT 6
#define ROOM_ALERTS_AT 8
#define ROOM_FLAG_AT 10

/* Cells that room_origin is asked about. */
#define ROOM_LEVEL_CELL 0
#define ROOM_HEADING_CELL 1

/* The stores that a view chooses from. */
#define ROOM_LIVE 0
#define ROOM_FROZEN 1

/* What room_mergeable counts: 256 times the kind, and for a pair 16 times the receiver, and the giver, more. */
enum room_pair_kind {
    ROOM_ALL_AGREE = 0,       /* no pair: every head is one version (one console alone too) */
    ROOM_STUCK = 1,           /* no pair, but heads that differ: never in a hub room */
    ROOM_CAN_MERGE = 2,       /* the receiver can merge the giver */
    ROOM_CAN_FAST_FORWARD = 3 /* the receiver can fast-forward to the giver */
};
#define ROOM_KIND_OF(count) ((count) / 256u)
#define ROOM_RECEIVER_OF(count) ((count) / 16u % 16u)
#define ROOM_GIVER_OF(count) ((count) % 16u)

/* Codes of commands, with the bytes that follow. ROOM_HUB makes the room a hub room for good: console 0 is its hub, one of the two in every
   merge and fast-forward, and the only one that is forked from. Given again it changes nothing. In a hub room of n consoles with n - 1
   versions free, at most 2 (n - 1) accepted commands bring all to one head: console 0 takes over from each, then each from console 0. */
#define ROOM_FORK 0x01         /* new console, old console */
#define ROOM_LEVEL 0x02        /* console, strip, level in 16 bits */
#define ROOM_HEADING 0x03      /* console, strip, heading in 16 bits */
#define ROOM_MARK_PUT 0x04     /* console, strip, mark */
#define ROOM_MARK_TAKEN 0x05   /* console, strip, mark */
#define ROOM_CALL 0x06         /* console, strip */
#define ROOM_ALERT_ON 0x07     /* console, strip */
#define ROOM_ALERT_OFF 0x08    /* console, strip */
#define ROOM_MERGE 0x09        /* receiver, giver */
#define ROOM_FAST_FORWARD 0x0A /* receiver, giver */
#define ROOM_LEAVE 0x0B        /* console */
#define ROOM_HUB 0x0C          /* nothing */

/* Codes of the records of a tape, with the bytes that follow, 16 bits with the high byte first: the start, a record for each version from 1
   upward, one for each head, consoles rising, in a hub room the byte 25, the end. */
#define ROOM_TAPE_START 0x20 /* capacity in 16 bits */
#define ROOM_TAPE_ENTRY 0x21 /* parent in 16 bits, code 02 to 08, strip, operand in 16 bits: level, heading or mark, else 0 */
#define ROOM_TAPE_MERGE 0x22 /* receiver's version, giver's version, in 16 bits each */
#define ROOM_TAPE_HEAD 0x23  /* console, version in 16 bits */
#define ROOM_TAPE_END 0x24   /* nothing */
#define ROOM_TAPE_HUB 0x25   /* nothing */

/* Refusals. Each call below names its own in the order of its tests, and the first that applies is given: that is the lowest, but a command
   tests 20 right after 6, and 22 right after 13. An ancestor of a version may be the version itself. */
enum room_refusal {
    ROOM_ACCEPTED = 0,
    ROOM_NO_COMMAND = 1,          /* empty command, or code outside 01 to 0C */
    ROOM_WRONG_LENGTH = 2,        /* length not the code's */
    ROOM_CONSOLE_TOO_HIGH = 3,    /* console above 15 */
    ROOM_STRIP_TOO_HIGH = 4,      /* strip above 31 */
    ROOM_OPERAND_TOO_HIGH = 5,    /* level above 600, heading above 360, mark above 15, cell above 1, choice above 1 */
    ROOM_SAME_CONSOLE = 6,        /* the same console twice in 01, 09, 0A */
    ROOM_BROKEN_TAPE = 7,         /* no sequence of whole records with at least one head */
    ROOM_BAD_CAPACITY = 8,        /* capacity outside 1 to 1,024 */
    ROOM_TAPE_OUT_OF_RANGE = 9,   /* a number on the tape is out of range */
    ROOM_TAPE_NOT_SOUND = 10,     /* the tape's versions and heads give no sound store; with 25 on it, also where hub gives 23 */
    ROOM_NO_STORE = 11,           /* the lent bytes hold no sound store; of a view, those of the store chosen */
    ROOM_CONSOLE_ABSENT = 12,     /* a named console is absent (fork: the old one; a view: from the store chosen) */
    ROOM_CONSOLE_PRESENT = 13,    /* fork's new console is present */
    ROOM_GIVER_BEHIND = 14,       /* the giver's head is an ancestor of the receiver's */
    ROOM_RECEIVER_BEHIND = 15,    /* merge: the receiver's head is an ancestor of the giver's */
    ROOM_NOT_BEHIND = 16,         /* fast-forward: the receiver's head is no ancestor of the giver's */
    ROOM_THIRD_CONSOLE = 17,      /* merge: a third console's common versions with the two are apart; never in a hub room */
    ROOM_FULL = 18,               /* no version left */
    ROOM_BUFFER_TOO_SHORT = 19,   /* lent output or store buffer too short */
    ROOM_CONSOLE_0_LEAVES = 20,   /* leave: the console is 0, which stays for good */
    ROOM_BEHIND_NO_OTHER = 21,    /* leave: the console's head is an ancestor of no other console's head */
    ROOM_NOT_THROUGH_HUB = 22,    /* in a hub room: fork off another console than 0, merge or fast-forward of two others */
    ROOM_HUB_LACKS_COMMON = 23    /* hub: the common version of two consoles is no ancestor of console 0's head */
};
#define ROOM_MAX_REFUSAL 23

/* What an answer means, in words, and its name above; of an answer above ROOM_MAX_REFUSAL that there is none. The strings stay as long as
   the program runs. These two are C, in room_text.c, and not of the proved unit. */
const char *room_refusal_text(uint32_t answer);
const char *room_refusal_name(uint32_t answer);

/* 0 or a refusal; and a question's number, the clashes of a merge, for room_pause, room_board and the two panes the bytes written, or for
   room_view_at where the board begins, else 0. */
struct room_reply {
    uint32_t answer;
    uint32_t count;
};

/* Makes version 0 with console 0 on it, whatever stood in the store. Refusals 8, 19. */
struct room_reply room_open(uint32_t capacity, uint8_t *store, size_t store_length);

/* Carries out one command. An accepted merge counts its clashes, 0 to ROOM_MAX_CLASHES: the levels and headings of which the receiver, the
   giver and their common version showed three different values before it. There the receiver's stays. Every other command counts 0.
   Refusals 1 to 6, 20, 11 to 13, 22, 14 to 18, 21, 23. */
struct room_reply room_command(uint8_t *store, size_t store_length, const uint8_t *command, size_t command_length);

/* Writes the tape of the room; counts its bytes. Refusals 11, 19. */
struct room_reply room_pause(const uint8_t *store, size_t store_length, uint8_t *tape, size_t tape_length);

/* Makes the store of the tape's room, whatever stood in the store. Refusals 7 to 10, 19. */
struct room_reply room_resume(const uint8_t *tape, size_t tape_length, uint8_t *store, size_t store_length);

/* Copies a console's board out; counts its 384 bytes. Refusals 3, 11, 12, 19. */
struct room_reply room_board(const uint8_t *store, size_t store_length, uint32_t console, uint8_t *board, size_t board_length);

/* A pane: what of a console a student or the instructor sees, copied out as its board is and as long. Calls, alerts and marks 8 to 15 belong
   to the instructor. The unit does not know who looks: every console has both panes, and the panel chooses.
   Replace entries 06 to 08, or 04 and 05 of marks 8 to 15, by others of these at the same versions: every student's pane is the same to the
   byte. Nothing else that the unit gives is part of a pane, and it may tell a student more: a refusal, a head or a heard count that an entry
   was made; a board, a view, the tape or the store which one. */

/* Copies a console's student's pane out: the board with zeros in byte 4 of each strip (marks 8 to 15) and in its bytes 6 to 10 (calls, alert
   count, flag). Counts the 384 bytes. Refusals 3, 11, 12, 19. */
struct room_reply room_student_pane(const uint8_t *store, size_t store_length, uint32_t console, uint8_t *pane, size_t pane_length);

/* Copies a console's instructor's pane out: the board. Counts the 384 bytes. Refusals 3, 11, 12, 19. */
struct room_reply room_instructor_pane(const uint8_t *store, size_t store_length, uint32_t console, uint8_t *pane, size_t pane_length);

/* Counts the entries that a console has heard. Refusals 3, 11, 12. */
struct room_reply room_heard(const uint8_t *store, size_t store_length, uint32_t console);

/* Its count is the common version of two consoles; of a console with itself, its head. Refusals 3, 11, 12. */
struct room_reply room_common(const uint8_t *store, size_t store_length, uint32_t first, uint32_t second);

/* Its count is the version of the entry behind a cell of a console's board; 0 where none was met, and then the cell shows 0.
   Refusals 3 to 5, 11, 12. */
struct room_reply room_origin(const uint8_t *store, size_t store_length, uint32_t console, uint32_t strip, uint32_t cell);

/* Its count is the first pair of consoles of which a merge or a fast-forward would be accepted if versions were free, and which of the two,
   or the kind of a room without one: see enum room_pair_kind. Receivers rise, and for each receiver the givers. Refusal 11. */
struct room_reply room_mergeable(const uint8_t *store, size_t store_length);

/* A view: a console's board as a part of one of two stores, the live one or a frozen one (resumed from the tape of a pause), with no copy.
   Only the store chosen, ROOM_LIVE or ROOM_FROZEN, is judged and read: anything may stand in the other. Three functions take the same
   operands: room_view, below, gives the board itself, room_view_at where it begins, and room_view_refusal why there is none. */

/* Answers why room_view gives no board, or 0 where it gives one; always counts 0. Refusals 3, 5, 11, 12. */
struct room_reply room_view_refusal(const uint8_t *live, size_t live_length, const uint8_t *frozen, size_t frozen_length, uint32_t console,
                                    uint32_t choice);

/* Its count is the offset of the console's board in the store chosen. Refusals 3, 5, 11, 12. */
struct room_reply room_view_at(const uint8_t *live, size_t live_length, const uint8_t *frozen, size_t frozen_length, uint32_t console,
                               uint32_t choice);

/* Points at the ROOM_BOARD_BYTES of the console's board inside the store chosen; NULL where that is refused. The pointer is good until that
   store is written, by room_command, room_open or room_resume: then ask again, as the console's board may stand elsewhere. As long as it is
   in use the store must stay lent: where it is, and with no other thread that writes it. */
static inline const uint8_t *room_view(const uint8_t *live, size_t live_length, const uint8_t *frozen, size_t frozen_length, uint32_t console,
                                       uint32_t choice)
{
    struct room_reply at = room_view_at(live, live_length, frozen, frozen_length, console, choice);
    if (at.answer != ROOM_ACCEPTED)
        return NULL;
    return (choice == ROOM_LIVE ? live : frozen) + at.count;
}

#ifdef __cplusplus
}
#endif

#endif
