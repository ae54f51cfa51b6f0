// A lent buffer of length 0 may be NULL, says include/room.h: each buffer of each of the unit's calls as NULL, alone and with the
// call's other buffer. The answers are worked out by hand from the paper and the requests; of several refusals that apply, the one
// tested first is given.

use room::ffi::{
    room_board, room_command, room_common, room_heard, room_instructor_pane, room_mergeable,
    room_open, room_origin, room_pause, room_resume, room_student_pane, room_view_at,
    room_view_refusal, CopyOut, Reply,
};
use room_host::unit;
use std::ptr::{null, null_mut};

const FILLER: u8 = 0xA5;
const STORE_BYTES: usize = 4096 + 544;
const CALL_COUNTED: [u8; 3] = [0x06, 0, 0];
/// Capacity 1, and console 0 on version 0.
const TAPE: [u8; 8] = [0x20, 0, 1, 0x23, 0, 0, 0, 0x24];

fn refused(answer: u32) -> Reply {
    Reply { answer, count: 0 }
}

/// A sound store of capacity 1 with console 0 alone.
fn opened() -> [u8; STORE_BYTES] {
    let mut store = [FILLER; STORE_BYTES];
    assert_eq!(unit::open(1, &mut store).answer, 0);
    store
}

#[test]
fn open_into_null() {
    for (capacity, due) in [(0, 8), (1, 19), (1024, 19), (1025, 8)] {
        let reply = unsafe { room_open(capacity, null_mut(), 0) };
        assert_eq!(reply, refused(due));
    }
}

#[test]
fn command_on_a_null_store() {
    let commands: [(&[u8], u32); 10] = [
        (&CALL_COUNTED, 11),
        (&[0x0D, 0, 0], 1),
        (&[0x0C, 0], 2),
        (&[0x0C], 11),
        (&[0x06, 0], 2),
        (&[0x06, 16, 0], 3),
        (&[0x0B, 0, 0], 2),
        (&[0x0B, 16], 3),
        (&[0x0B, 0], 20),
        (&[0x0B, 1], 11),
    ];
    for (command, due) in commands {
        let reply = unsafe { room_command(null_mut(), 0, command.as_ptr(), command.len()) };
        assert_eq!(reply, refused(due));
    }
}

#[test]
fn null_command() {
    let mut store = opened();
    let reply = unsafe { room_command(store.as_mut_ptr(), store.len(), null(), 0) };
    assert_eq!(reply, refused(1));
    assert_eq!(store, opened());
    let reply = unsafe { room_command(null_mut(), 0, null(), 0) };
    assert_eq!(reply, refused(1));
}

#[test]
fn pause_of_a_null_store() {
    let mut tape = [FILLER; TAPE.len()];
    let reply = unsafe { room_pause(null(), 0, tape.as_mut_ptr(), tape.len()) };
    assert_eq!(reply, refused(11));
    assert_eq!(tape, [FILLER; TAPE.len()]);
    let reply = unsafe { room_pause(null(), 0, null_mut(), 0) };
    assert_eq!(reply, refused(11));
}

#[test]
fn pause_into_null() {
    let store = opened();
    let reply = unsafe { room_pause(store.as_ptr(), store.len(), null_mut(), 0) };
    assert_eq!(reply, refused(19));
    assert_eq!(store, opened());
}

#[test]
fn resume_of_a_null_tape() {
    let mut store = [FILLER; STORE_BYTES];
    let reply = unsafe { room_resume(null(), 0, store.as_mut_ptr(), store.len()) };
    assert_eq!(reply, refused(7));
    assert_eq!(store, [FILLER; STORE_BYTES]);
    let reply = unsafe { room_resume(null(), 0, null_mut(), 0) };
    assert_eq!(reply, refused(7));
}

#[test]
fn resume_into_null() {
    let without_end = &TAPE[..7];
    let capacity_0 = [0x20, 0, 0, 0x23, 0, 0, 0, 0x24];
    let console_1_first = [0x20, 0, 1, 0x23, 1, 0, 0, 0x24];
    // Version 1 leads to no head.
    let lost = [0x20, 0, 2, 0x21, 0, 0, 0x06, 0, 0, 0, 0x23, 0, 0, 0, 0x24];
    let tapes: [(&[u8], u32); 5] = [
        (&TAPE, 19),
        (without_end, 7),
        (&capacity_0, 8),
        (&console_1_first, 9),
        (&lost, 10),
    ];
    for (tape, due) in tapes {
        let reply = unsafe { room_resume(tape.as_ptr(), tape.len(), null_mut(), 0) };
        assert_eq!(reply, refused(due));
    }
}

/// Copies a board or a pane out of a NULL store, into an output and into NULL.
fn copy_from_null(copy_out: CopyOut) {
    for (console, due) in [(0, 11), (15, 11), (16, 3)] {
        let mut output = [FILLER; 384];
        let reply = unsafe { copy_out(null(), 0, console, output.as_mut_ptr(), output.len()) };
        assert_eq!(reply, refused(due));
        assert_eq!(output, [FILLER; 384]);
        let reply = unsafe { copy_out(null(), 0, console, null_mut(), 0) };
        assert_eq!(reply, refused(due));
    }
}

/// Copies a board or a pane of a sound store into NULL.
fn copy_into_null(copy_out: CopyOut) {
    let store = opened();
    for (console, due) in [(0, 19), (15, 12), (16, 3)] {
        let reply = unsafe { copy_out(store.as_ptr(), store.len(), console, null_mut(), 0) };
        assert_eq!(reply, refused(due));
    }
    assert_eq!(store, opened());
}

#[test]
fn board_of_a_null_store() {
    copy_from_null(room_board);
}

#[test]
fn board_into_null() {
    copy_into_null(room_board);
}

#[test]
fn panes_of_a_null_store() {
    copy_from_null(room_student_pane);
    copy_from_null(room_instructor_pane);
}

#[test]
fn panes_into_null() {
    copy_into_null(room_student_pane);
    copy_into_null(room_instructor_pane);
}

#[test]
fn questions_to_a_null_store() {
    for (console, due) in [(0, 11), (15, 11), (16, 3)] {
        assert_eq!(unsafe { room_heard(null(), 0, console) }, refused(due));
        assert_eq!(unsafe { room_common(null(), 0, console, 0) }, refused(due));
        assert_eq!(unsafe { room_common(null(), 0, 0, console) }, refused(due));
    }
}

#[test]
fn origins_in_a_null_store() {
    let questions = [
        ([0, 0, 0], 11),
        ([15, 31, 1], 11),
        ([15, 31, 2], 5),
        ([15, 32, 2], 4),
        ([16, 32, 2], 3),
    ];
    for ([console, strip, cell], due) in questions {
        let reply = unsafe { room_origin(null(), 0, console, strip, cell) };
        assert_eq!(reply, refused(due));
    }
}

#[test]
fn mergeable_in_a_null_store() {
    assert_eq!(unsafe { room_mergeable(null(), 0) }, refused(11));
}

/// The refusal and the place of a view of two buffers, each a pointer and a length.
fn view(live: (*const u8, usize), frozen: (*const u8, usize), operands: [u32; 2]) -> [Reply; 2] {
    let [console, choice] = operands;
    [room_view_refusal, room_view_at]
        .map(|call| unsafe { call(live.0, live.1, frozen.0, frozen.1, console, choice) })
}

const NOTHING: (*const u8, usize) = (null(), 0);

#[test]
fn views_of_null_stores() {
    let views = [
        ([0, 0], 11),
        ([0, 1], 11),
        ([15, 1], 11),
        ([15, 2], 5),
        ([16, 0], 3),
        ([16, 2], 3),
    ];
    for (operands, due) in views {
        assert_eq!(view(NOTHING, NOTHING, operands), [refused(due); 2]);
    }
}

/// The board of version 0 stands at 4,096 + 160.
#[test]
fn views_beside_a_null_store() {
    let bytes = opened();
    let store = (bytes.as_ptr(), bytes.len());
    let shown = [0, 4256].map(|count| Reply { answer: 0, count });
    assert_eq!(view(store, NOTHING, [0, 0]), shown);
    assert_eq!(view(NOTHING, store, [0, 1]), shown);
    let views = [([1, 0], 12), ([0, 1], 11), ([0, 2], 5), ([16, 2], 3)];
    for ([console, choice], due) in views {
        let in_store = view(store, NOTHING, [console, choice]);
        assert_eq!(in_store, [refused(due); 2]);
        // The same with the stores exchanged; 2 is neither.
        let exchanged = [1, 0, 2][choice as usize];
        let in_store = view(NOTHING, store, [console, exchanged]);
        assert_eq!(in_store, [refused(due); 2]);
    }
    assert_eq!(bytes, opened());
}
