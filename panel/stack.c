/* How much stack each of the unit's calls uses, against what room.h says: each runs in a thread on a painted stack, and what it left is
   counted. Each is the first call of a process of its own, so that what the loader does to find the unit's C functions counts too.
   Each is made in two rooms: one almost all of entries, one with as many merges as it can have, so that the walk to an origin is a long one
   over either. The measured fork makes the last of 16 consoles, and the measured entry and merge the last versions. Which pair is mergeable
   is asked twice, as a merge and a fast-forward go by different tests. The measured hub tests every two of 16 consoles; the calls behind it
   are made in the hub room, and resume has its tape. A view has the one room as its live and as its frozen store, and chooses either. */
#define _DEFAULT_SOURCE /* for pthread_attr_setstack and MAP_ANONYMOUS */
#include <pthread.h>
#include <stdint.h>
#include <stdio.h>
#include <stdlib.h>
#include <sys/mman.h>
#include <sys/wait.h>
#include <unistd.h>

#include "room.h"

enum { STACK_BYTES = 1 << 20, PAINT = 0xA5 };

enum { LAST_CONSOLE = ROOM_CONSOLES - 1 };

/* Versions to prepare: all but version 0, an entry before the first merge, and the measured entry and merge. A merge takes two, as
   console 1 needs an entry to give. */
enum { TO_PREPARE = ROOM_MAX_CAPACITY - 4, PER_MERGE = 2, MOST_MERGES = TO_PREPARE / PER_MERGE };

/* What the processes share: the room as the call before left it, and its tape. */
struct shared {
    uint8_t store[ROOM_STORE_BYTES(ROOM_MAX_CAPACITY)];
    uint8_t tape[ROOM_TAPE_BYTES(ROOM_MAX_CAPACITY)];
    size_t tape_length;
};

static struct shared *shared;

/* Where the board and the panes are copied to, so that no caller's buffer is on the painted stack. */
static uint8_t strips[ROOM_BOARD_BYTES];

static _Noreturn void fail(const char *what)
{
    printf("%s\n", what);
    exit(1);
}

static void must_be_accepted(struct room_reply reply)
{
    if (reply.answer != ROOM_ACCEPTED)
        fail("a call was refused");
}

/* ---- the calls, each of them accepted where main makes it ---- */

static struct room_reply carry_out(const uint8_t *bytes, size_t length)
{
    return room_command(shared->store, sizeof shared->store, bytes, length);
}

static struct room_reply command(uint8_t code, uint8_t first, uint8_t second)
{
    uint8_t bytes[] = {code, first, second};
    return carry_out(bytes, sizeof bytes);
}

static struct room_reply open_room(void)
{
    return room_open(ROOM_MAX_CAPACITY, shared->store, sizeof shared->store);
}

static struct room_reply fork_last_off_1(void)
{
    return command(ROOM_FORK, LAST_CONSOLE, 1);
}

static struct room_reply enter_on_0(void)
{
    return command(ROOM_CALL, 0, 5);
}

static struct room_reply enter_on_1(void)
{
    return command(ROOM_CALL, 1, 5);
}

static struct room_reply merge_1_into_0(void)
{
    return command(ROOM_MERGE, 0, 1);
}

static struct room_reply forward_1_to_0(void)
{
    return command(ROOM_FAST_FORWARD, 1, 0);
}

/* Accepted, as console 0 has the common version of any two. */
static struct room_reply make_0_the_hub(void)
{
    uint8_t bytes[] = {ROOM_HUB};
    return carry_out(bytes, sizeof bytes);
}

/* Its head is where console 1 was at the fork, and 0 has merged that. */
static struct room_reply leave_by_last(void)
{
    uint8_t bytes[] = {ROOM_LEAVE, LAST_CONSOLE};
    return carry_out(bytes, sizeof bytes);
}

static struct room_reply pause_room(void)
{
    struct room_reply reply = room_pause(shared->store, sizeof shared->store, shared->tape, sizeof shared->tape);
    shared->tape_length = reply.count;
    return reply;
}

static struct room_reply show_board_of_0(void)
{
    return room_board(shared->store, sizeof shared->store, 0, strips, sizeof strips);
}

static struct room_reply show_student_pane_of_0(void)
{
    return room_student_pane(shared->store, sizeof shared->store, 0, strips, sizeof strips);
}

static struct room_reply show_instructor_pane_of_0(void)
{
    return room_instructor_pane(shared->store, sizeof shared->store, 0, strips, sizeof strips);
}

static struct room_reply ask_heard_by_0(void)
{
    return room_heard(shared->store, sizeof shared->store, 0);
}

static struct room_reply ask_common_of_0_and_1(void)
{
    return room_common(shared->store, sizeof shared->store, 0, 1);
}

/* No entry writes this cell, so that the walk goes on to version 0. */
static struct room_reply ask_origin_for_0(void)
{
    return room_origin(shared->store, sizeof shared->store, 0, 5, ROOM_LEVEL_CELL);
}

/* Before the measured merge the answer is that merge; after the fast-forward it is another one, to console 0 by a console on version 0. */
static struct room_reply ask_mergeable(void)
{
    return room_mergeable(shared->store, sizeof shared->store);
}

static struct room_reply view_refusal(uint32_t choice)
{
    return room_view_refusal(shared->store, sizeof shared->store, shared->store, sizeof shared->store, 0, choice);
}

static struct room_reply view_at(uint32_t choice)
{
    return room_view_at(shared->store, sizeof shared->store, shared->store, sizeof shared->store, 0, choice);
}

static struct room_reply ask_live_view_refusal(void)
{
    return view_refusal(ROOM_LIVE);
}

static struct room_reply ask_frozen_view_refusal(void)
{
    return view_refusal(ROOM_FROZEN);
}

static struct room_reply ask_live_view_at(void)
{
    return view_at(ROOM_LIVE);
}

static struct room_reply ask_frozen_view_at(void)
{
    return view_at(ROOM_FROZEN);
}

static struct room_reply resume_room(void)
{
    return room_resume(shared->tape, shared->tape_length, shared->store, sizeof shared->store);
}

/* ---- one call measured ---- */

struct measured {
    const char *name;
    struct room_reply (*call)(void);
    size_t most;
};

static void *make(void *measured)
{
    must_be_accepted(((const struct measured *)measured)->call());
    return NULL;
}

/* Byte by byte, since memset must not be found before a call looks for it. */
static uint8_t *painted_stack(void)
{
    volatile uint8_t *stack = aligned_alloc(4096, STACK_BYTES);
    if (stack == NULL)
        fail("no stack");
    for (size_t at = 0; at < STACK_BYTES; at++)
        stack[at] = PAINT;
    return (uint8_t *)stack;
}

/* Makes the call in a thread of its own; how many bytes of its stack were written, the thread's own few included. */
static size_t used_by(struct measured *measured)
{
    uint8_t *stack = painted_stack();
    pthread_attr_t attributes;
    pthread_t thread;
    if (pthread_attr_init(&attributes) != 0)
        fail("no attributes");
    if (pthread_attr_setstack(&attributes, stack, STACK_BYTES) != 0 || pthread_create(&thread, &attributes, make, measured) != 0)
        fail("no thread");
    pthread_join(thread, NULL);
    pthread_attr_destroy(&attributes);
    size_t untouched = 0;
    while (untouched < STACK_BYTES && stack[untouched] == PAINT)
        untouched++;
    free(stack);
    return STACK_BYTES - untouched;
}

static void check(void *call)
{
    struct measured *measured = call;
    size_t used = used_by(measured);
    printf("%s used %zu bytes of stack, room.h says at most %zu\n", measured->name, used, measured->most);
    if (used > measured->most)
        fail("too much");
}

/* ---- the rooms ---- */

struct room {
    const char *name;
    int merges;
};

/* Every console but the last, the room's merges, one upon the other, and entries of console 0 on top of them. */
static void prepare(void *wanted)
{
    const struct room *room = wanted;
    must_be_accepted(open_room());
    for (int console = 1; console < LAST_CONSOLE; console++)
        must_be_accepted(command(ROOM_FORK, (uint8_t)console, 0));
    must_be_accepted(enter_on_0());
    for (int i = 0; i < room->merges; i++) {
        must_be_accepted(enter_on_1());
        must_be_accepted(merge_1_into_0());
    }
    for (int i = PER_MERGE * room->merges; i < TO_PREPARE; i++)
        must_be_accepted(enter_on_0());
    printf("in a room of %s:\n", room->name);
}

/* Runs a part in a process of its own; where that fails, so does this one. */
static void run_apart(void (*part)(void *), void *what)
{
    int status = 0;
    pid_t child = fork();
    if (child == 0) {
        part(what);
        exit(0);
    }
    if (child < 0 || waitpid(child, &status, 0) != child || status != 0)
        fail("a part did not end well");
}

int main(void)
{
    struct measured measured[] = {
        {"a fork", fork_last_off_1, ROOM_STACK},
        {"an entry", enter_on_1, ROOM_STACK},
        {"mergeable, a merge", ask_mergeable, ROOM_STACK},
        {"a merge", merge_1_into_0, ROOM_STACK},
        {"a fast-forward", forward_1_to_0, ROOM_STACK},
        {"a hub", make_0_the_hub, ROOM_STACK},
        {"pause", pause_room, ROOM_STACK},
        {"board", show_board_of_0, ROOM_STACK},
        {"the student's pane", show_student_pane_of_0, ROOM_STACK},
        {"the instructor's pane", show_instructor_pane_of_0, ROOM_STACK},
        {"heard", ask_heard_by_0, ROOM_STACK},
        {"common", ask_common_of_0_and_1, ROOM_STACK},
        {"origin", ask_origin_for_0, ROOM_ORIGIN_STACK},
        {"mergeable, a fast-forward", ask_mergeable, ROOM_STACK},
        {"the refusal of a live view", ask_live_view_refusal, ROOM_STACK},
        {"the refusal of a frozen view", ask_frozen_view_refusal, ROOM_STACK},
        {"the place of a live view", ask_live_view_at, ROOM_STACK},
        {"the place of a frozen view", ask_frozen_view_at, ROOM_STACK},
        {"a leave", leave_by_last, ROOM_STACK},
        {"resume", resume_room, ROOM_RESUME_STACK},
        {"open", open_room, ROOM_STACK},
    };
    struct room rooms[] = {{"entries", 1}, {"merges", MOST_MERGES}};
    shared = mmap(NULL, sizeof *shared, PROT_READ | PROT_WRITE, MAP_SHARED | MAP_ANONYMOUS, -1, 0);
    if (shared == MAP_FAILED)
        fail("no memory to share");
    for (size_t r = 0; r < sizeof rooms / sizeof rooms[0]; r++) {
        run_apart(prepare, &rooms[r]);
        for (size_t i = 0; i < sizeof measured / sizeof measured[0]; i++)
            run_apart(check, &measured[i]);
    }
    return 0;
}
