/* What each answer of the room unit is called and means: the one table of names and words, for panels in C and for the Rust crate. */
#include "room.h"

/* The name is the enumerator itself, so that the two cannot differ. */
#define ANSWER(name, words) [name] = {#name, words}

static const struct {
    const char *name;
    const char *words;
} ANSWERS[] = {
    ANSWER(ROOM_ACCEPTED, "accepted"),
    ANSWER(ROOM_NO_COMMAND, "there is no such command"),
    ANSWER(ROOM_WRONG_LENGTH, "the command has the wrong length"),
    ANSWER(ROOM_CONSOLE_TOO_HIGH, "consoles are numbered 0 to 15"),
    ANSWER(ROOM_STRIP_TOO_HIGH, "strips are numbered 0 to 31"),
    ANSWER(ROOM_OPERAND_TOO_HIGH, "a level is at most 600, a heading at most 360, a mark at most 15"),
    ANSWER(ROOM_SAME_CONSOLE, "a console cannot be named twice"),
    ANSWER(ROOM_BROKEN_TAPE, "the tape is broken"),
    ANSWER(ROOM_BAD_CAPACITY, "a capacity is 1 to 1,024"),
    ANSWER(ROOM_TAPE_OUT_OF_RANGE, "a number on the tape is out of range"),
    ANSWER(ROOM_TAPE_NOT_SOUND, "the tape's versions and heads give no sound room"),
    ANSWER(ROOM_NO_STORE, "the store is damaged"),
    ANSWER(ROOM_CONSOLE_ABSENT, "that console is absent"),
    ANSWER(ROOM_CONSOLE_PRESENT, "that console is there already"),
    ANSWER(ROOM_GIVER_BEHIND, "the giver has nothing new for the receiver"),
    ANSWER(ROOM_RECEIVER_BEHIND, "the receiver has nothing of its own to merge: a fast-forward would do"),
    ANSWER(ROOM_NOT_BEHIND, "the receiver has something of its own: that takes a merge"),
    ANSWER(ROOM_THIRD_CONSOLE, "a third console's common versions with the two are apart"),
    ANSWER(ROOM_FULL, "no version is left: the room is full"),
    ANSWER(ROOM_BUFFER_TOO_SHORT, "the buffer is too short"),
    ANSWER(ROOM_CONSOLE_0_LEAVES, "console 0 never leaves"),
    ANSWER(ROOM_BEHIND_NO_OTHER, "no other console has all that this one has: let one take it over first"),
    ANSWER(ROOM_NOT_THROUGH_HUB, "fork, merge and fast-forward go through console 0, the hub of this room"),
    ANSWER(ROOM_HUB_LACKS_COMMON, "two consoles have in common what console 0 lacks: let it take over from one of them first"),
};

_Static_assert(sizeof ANSWERS / sizeof ANSWERS[0] == ROOM_MAX_REFUSAL + 1, "a row for each answer");

const char *room_refusal_text(uint32_t answer)
{
    return answer <= ROOM_MAX_REFUSAL ? ANSWERS[answer].words : "no answer of the room unit";
}

const char *room_refusal_name(uint32_t answer)
{
    return answer <= ROOM_MAX_REFUSAL ? ANSWERS[answer].name : "ROOM_UNKNOWN";
}
