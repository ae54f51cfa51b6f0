// Request Eight: the student's pane and the instructor's. Replies and bytes are worked out by hand from the request and the paper: a strip
// has level, heading, marks, calls and alert count in 16 bits each, high byte first, then the flag and a zero. Of these a student's pane
// shows the level, the heading and the low byte of the marks.

use super::cases::{store_of_three_consoles, stuck_store};
use super::store::{accepted, refused, resumed, Store, FILLER};
use super::{tested, TESTED};
use room_host::gen;
use room_host::implementations::CopyOut;
use room_host::layout::{encode, store_bytes};
use room_host::model::{Entry, Room, Version};
use room_host::panes;
use room_host::rng::Rng;

const PANES: [CopyOut; 2] = [tested::student_pane, tested::instructor_pane];

const EMPTY: [u8; 12] = [0; 12];

/// A board on which these strips are so, and all others empty.
fn board_with(strips: &[(usize, [u8; 12])]) -> Vec<u8> {
    let mut board = vec![0; 384];
    for (number, strip) in strips {
        board[12 * number..12 * (number + 1)].copy_from_slice(strip);
    }
    board
}

/// A console must show this to a student and that to an instructor of one strip, and of all others nothing.
fn expect_strip(
    store: &Store,
    console: u32,
    number: usize,
    to_student: [u8; 12],
    to_instructor: [u8; 12],
) {
    let due = board_with(&[(number, to_student)]);
    assert_eq!(store.student_pane(console), due, "console {console}");
    let due = board_with(&[(number, to_instructor)]);
    assert_eq!(store.instructor_pane(console), due, "console {console}");
    assert_eq!(store.board(console), due, "console {console}");
}

// ---------------------------------------------------------------- what is hidden

/// Level 258, heading 360, marks 0, 7, 8 and 15, a call, and three alerts, of which the last is on.
#[test]
fn a_strip_with_every_field() {
    let mut store = Store::open(16);
    store.say_all(&[
        &[0x02, 0, 5, 0x01, 0x02],
        &[0x03, 0, 5, 0x01, 0x68],
        &[0x04, 0, 5, 0],
        &[0x04, 0, 5, 7],
        &[0x04, 0, 5, 8],
        &[0x04, 0, 5, 15],
        &[0x06, 0, 5],
        &[0x07, 0, 5],
        &[0x07, 0, 5],
        &[0x07, 0, 5],
    ]);
    expect_strip(
        &store,
        0,
        5,
        [0x01, 0x02, 0x01, 0x68, 0x00, 0x81, 0, 0, 0, 0, 0, 0],
        [0x01, 0x02, 0x01, 0x68, 0x81, 0x81, 0, 1, 0, 3, 1, 0],
    );
}

#[test]
fn the_pane_of_a_new_room_is_empty() {
    let store = Store::open(1);
    expect_strip(&store, 0, 0, EMPTY, EMPTY);
}

#[test]
fn mark_7_stays_and_mark_8_goes() {
    let mut store = Store::open(8);
    store.say_all(&[&[0x04, 0, 31, 7], &[0x01, 1, 0], &[0x01, 2, 0]]);
    store.say_all(&[&[0x04, 1, 31, 8], &[0x05, 2, 31, 7], &[0x04, 2, 31, 8]]);
    let mark_7 = [0, 0, 0, 0, 0x00, 0x80, 0, 0, 0, 0, 0, 0];
    let mark_8 = [0, 0, 0, 0, 0x01, 0x00, 0, 0, 0, 0, 0, 0];
    let both = [0, 0, 0, 0, 0x01, 0x80, 0, 0, 0, 0, 0, 0];
    expect_strip(&store, 0, 31, mark_7, mark_7);
    expect_strip(&store, 1, 31, mark_7, both);
    expect_strip(&store, 2, 31, EMPTY, mark_8);
}

/// Each mark alone, as the two bytes of the marks.
const MARKS: [[u8; 2]; 16] = [
    [0x00, 0x01],
    [0x00, 0x02],
    [0x00, 0x04],
    [0x00, 0x08],
    [0x00, 0x10],
    [0x00, 0x20],
    [0x00, 0x40],
    [0x00, 0x80],
    [0x01, 0x00],
    [0x02, 0x00],
    [0x04, 0x00],
    [0x08, 0x00],
    [0x10, 0x00],
    [0x20, 0x00],
    [0x40, 0x00],
    [0x80, 0x00],
];

#[test]
fn every_mark_alone() {
    for (mark, [high, low]) in MARKS.into_iter().enumerate() {
        let mut store = Store::open(2);
        store.say_all(&[&[0x04, 0, 9, mark as u8]]);
        let marked = [0, 0, 0, 0, high, low, 0, 0, 0, 0, 0, 0];
        let to_student = if mark < 8 { marked } else { EMPTY };
        expect_strip(&store, 0, 9, to_student, marked);
    }
}

/// Each entry that no student sees, alone on an empty board, and what an instructor sees of it.
#[test]
fn every_secret_alone() {
    let secrets: [(&[u8], [u8; 12]); 5] = [
        (&[0x04, 0, 2, 8], [0, 0, 0, 0, 1, 0, 0, 0, 0, 0, 0, 0]),
        (&[0x06, 0, 2], [0, 0, 0, 0, 0, 0, 0, 1, 0, 0, 0, 0]),
        (&[0x07, 0, 2], [0, 0, 0, 0, 0, 0, 0, 0, 0, 1, 1, 0]),
        (&[0x08, 0, 2], EMPTY),
        (&[0x05, 0, 2, 12], EMPTY),
    ];
    for (command, to_instructor) in secrets {
        let mut store = Store::open(2);
        store.say_all(&[command]);
        expect_strip(&store, 0, 2, EMPTY, to_instructor);
        assert_eq!(store.heard(0), accepted(1), "it is heard all the same");
    }
}

/// 258 calls and 257 alerts on strip 31 of a full store, so that both bytes of each count are there; then a heading.
#[test]
fn both_bytes_of_the_counts() {
    let entry = |parent: usize, code: u8, operand: u16| {
        Version::Entry(Entry {
            parent,
            code,
            strip: 31,
            operand,
        })
    };
    let mut room = Room::opened(517);
    for parent in 0..515 {
        let code = if parent < 258 { 0x06 } else { 0x07 };
        room.versions.push(entry(parent, code, 0));
    }
    room.versions.push(entry(515, 0x03, 0x0101));
    room.heads[0] = Some(516);
    expect_strip(
        &Store::of_room(&room),
        0,
        31,
        [0, 0, 1, 1, 0, 0, 0, 0, 0, 0, 0, 0],
        [0, 0, 1, 1, 0, 0, 1, 2, 1, 1, 1, 0],
    );
}

/// Every strip has a level, marks 1 and 9, a call and an alert: nothing of the last three is left on any of them.
#[test]
fn all_strips() {
    let mut store = Store::open(200);
    let (mut to_student, mut to_instructor) = (vec![], vec![]);
    for strip in 0..32 {
        store.say_all(&[&[0x02, 0, strip, 2, strip], &[0x04, 0, strip, 1]]);
        store.say_all(&[&[0x04, 0, strip, 9], &[0x06, 0, strip], &[0x07, 0, strip]]);
        to_student.extend([2, strip, 0, 0, 0, 2, 0, 0, 0, 0, 0, 0]);
        to_instructor.extend([2, strip, 0, 0, 2, 2, 0, 1, 0, 1, 1, 0]);
    }
    assert_eq!(store.student_pane(0), to_student);
    assert_eq!(store.instructor_pane(0), to_instructor);
    assert_eq!(store.board(0), to_instructor);
}

/// Console 1 has marked strip 3 and console 15 has called on strip 4, and each pane shows its own console.
#[test]
fn each_console_has_its_own_panes() {
    let mut store = Store::open(8);
    store.say_all(&[&[0x01, 1, 0], &[0x01, 15, 0]]);
    store.say_all(&[&[0x04, 1, 3, 0], &[0x04, 1, 3, 14], &[0x06, 15, 4]]);
    expect_strip(&store, 0, 0, EMPTY, EMPTY);
    let to_student = [0, 0, 0, 0, 0x00, 0x01, 0, 0, 0, 0, 0, 0];
    let to_instructor = [0, 0, 0, 0, 0x40, 0x01, 0, 0, 0, 0, 0, 0];
    expect_strip(&store, 1, 3, to_student, to_instructor);
    let called = [0, 0, 0, 0, 0, 0, 0, 1, 0, 0, 0, 0];
    expect_strip(&store, 15, 4, EMPTY, called);
}

// ---------------------------------------------------------------- merges

/// The paper's alerts: l (1, on), a (1, off) and b (2, on) give (2, on).
#[test]
fn a_merge_of_two_alerts() {
    let mut store = Store::open(8);
    store.say_all(&[&[0x07, 0, 3], &[0x01, 1, 0], &[0x08, 0, 3], &[0x07, 1, 3]]);
    let alert = |count: u8, flag: u8| [0, 0, 0, 0, 0, 0, 0, 0, 0, count, flag, 0];
    expect_strip(&store, 0, 3, EMPTY, alert(1, 0));
    expect_strip(&store, 1, 3, EMPTY, alert(2, 1));
    store.say_all(&[&[0x09, 0, 1]]);
    expect_strip(&store, 0, 3, EMPTY, alert(2, 1));
}

/// Base: level 100, marks 2 and 10, two calls. Receiver: mark 10 taken, a call. Giver: level 200, mark 2 taken, mark 11 put, two calls.
#[test]
fn a_merge_of_what_is_seen_and_what_is_not() {
    let mut store = Store::open(16);
    store.say_all(&[&[0x02, 0, 6, 0, 100], &[0x04, 0, 6, 2], &[0x04, 0, 6, 10]]);
    store.say_all(&[&[0x06, 0, 6], &[0x06, 0, 6], &[0x01, 1, 0]]);
    store.say_all(&[&[0x05, 0, 6, 10], &[0x06, 0, 6]]);
    store.say_all(&[&[0x02, 1, 6, 0, 200], &[0x05, 1, 6, 2], &[0x04, 1, 6, 11]]);
    store.say_all(&[&[0x06, 1, 6], &[0x06, 1, 6]]);
    expect_strip(
        &store,
        0,
        6,
        [0, 100, 0, 0, 0x00, 0x04, 0, 0, 0, 0, 0, 0],
        [0, 100, 0, 0, 0x00, 0x04, 0, 3, 0, 0, 0, 0],
    );
    expect_strip(
        &store,
        1,
        6,
        [0, 200, 0, 0, 0x00, 0x00, 0, 0, 0, 0, 0, 0],
        [0, 200, 0, 0, 0x0C, 0x00, 0, 4, 0, 0, 0, 0],
    );
    store.say_all(&[&[0x09, 0, 1]]);
    expect_strip(
        &store,
        0,
        6,
        [0, 200, 0, 0, 0x00, 0x00, 0, 0, 0, 0, 0, 0],
        [0, 200, 0, 0, 0x08, 0x00, 0, 5, 0, 0, 0, 0],
    );
}

/// Two rooms that differ in secrets alone: each on another strip, of another kind, or of the same kind. A student sees level 300 and
/// heading 45, whichever room it is.
#[test]
fn other_secrets_leave_the_pane() {
    let room_of = |secrets: [&[u8]; 4]| {
        let mut store = Store::open(16);
        store.say_all(&[&[0x01, 1, 0], secrets[0], &[0x02, 0, 1, 0x01, 0x2C]]);
        store.say_all(&[secrets[1], &[0x03, 1, 1, 0, 45], secrets[2]]);
        store.say_all(&[&[0x09, 0, 1], secrets[3], &[0x0A, 1, 0]]);
        store
    };
    let one = room_of([
        &[0x06, 0, 1],
        &[0x07, 1, 1],
        &[0x04, 1, 1, 8],
        &[0x08, 0, 1],
    ]);
    let other = room_of([
        &[0x04, 0, 1, 15],
        &[0x06, 1, 1],
        &[0x08, 1, 30],
        &[0x05, 0, 1, 9],
    ]);
    let to_student = [0x01, 0x2C, 0, 45, 0, 0, 0, 0, 0, 0, 0, 0];
    let to_instructor = [0x01, 0x2C, 0, 45, 0x01, 0, 0, 1, 0, 1, 0, 0];
    expect_strip(&one, 0, 1, to_student, to_instructor);
    expect_strip(&one, 1, 1, to_student, to_instructor);
    let to_instructor = [0x01, 0x2C, 0, 45, 0x80, 0, 0, 1, 0, 0, 0, 0];
    expect_strip(&other, 0, 1, to_student, to_instructor);
    expect_strip(&other, 1, 1, to_student, to_instructor);
}

// ---------------------------------------------------------------- tapes

/// Version 1 is level 7 on strip 4, version 2 on it mark 3, version 3 on that mark 13, version 4 on version 1 an alert; version 5 is of 3
/// and 4. Console 0 is on 5, console 1 on 3, console 9 on 4.
const TAPE: [u8; 49] = [
    0x20, 0x00, 0x06, //
    0x21, 0x00, 0x00, 0x02, 0x04, 0x00, 0x07, //
    0x21, 0x00, 0x01, 0x04, 0x04, 0x00, 0x03, //
    0x21, 0x00, 0x02, 0x04, 0x04, 0x00, 0x0D, //
    0x21, 0x00, 0x01, 0x07, 0x04, 0x00, 0x00, //
    0x22, 0x00, 0x03, 0x00, 0x04, //
    0x23, 0x00, 0x00, 0x05, //
    0x23, 0x01, 0x00, 0x03, //
    0x23, 0x09, 0x00, 0x04, //
    0x24,
];

#[test]
fn the_panes_of_a_resumed_store() {
    let store = resumed(&TAPE).expect("the tape gives a sound store");
    let level_7 = [0, 7, 0, 0, 0, 0, 0, 0, 0, 0, 0, 0];
    let mark_3_too = [0, 7, 0, 0, 0, 8, 0, 0, 0, 0, 0, 0];
    let to_instructor = [0, 7, 0, 0, 0x20, 8, 0, 0, 0, 1, 1, 0];
    expect_strip(&store, 0, 4, mark_3_too, to_instructor);
    let to_instructor = [0, 7, 0, 0, 0x20, 8, 0, 0, 0, 0, 0, 0];
    expect_strip(&store, 1, 4, mark_3_too, to_instructor);
    let to_instructor = [0, 7, 0, 0, 0, 0, 0, 0, 0, 1, 1, 0];
    expect_strip(&store, 9, 4, level_7, to_instructor);
    for console in [2, 8, 10, 15] {
        expect_refusal(&store.bytes, console, 384, 12);
    }
}

/// A tape keeps what a pane hides: resumed, the instructor still sees it and no student does.
#[test]
fn what_is_hidden_outlasts_a_pause() {
    let mut store = Store::open(8);
    store.say_all(&[&[0x03, 0, 8, 0, 90], &[0x07, 0, 8], &[0x04, 0, 8, 8]]);
    let mut resumed = resumed(&store.tape()).expect("a store's tape is resumed");
    let to_student = [0, 0, 0, 90, 0, 0, 0, 0, 0, 0, 0, 0];
    let to_instructor = [0, 0, 0, 90, 1, 0, 0, 0, 0, 1, 1, 0];
    expect_strip(&store, 0, 8, to_student, to_instructor);
    expect_strip(&resumed, 0, 8, to_student, to_instructor);
    resumed.say_all(&[&[0x08, 0, 8], &[0x06, 0, 8]]);
    let to_instructor = [0, 0, 0, 90, 1, 0, 0, 1, 0, 1, 0, 0];
    expect_strip(&resumed, 0, 8, to_student, to_instructor);
}

// ---------------------------------------------------------------- the lent output

/// Both panes must be refused with this number in an output of so many bytes, and leave them.
fn expect_refusal(store: &[u8], console: u32, length: usize, refusal: u32) {
    for pane in PANES {
        let mut output = vec![FILLER; length];
        let reply = pane(store, console, &mut output);
        assert_eq!(reply, refused(refusal), "console {console}, {length} bytes");
        assert!(output.iter().all(|&byte| byte == FILLER));
    }
}

/// Strip 0 has heading 1 and a call, and strip 31 level 2 and mark 8: the first and the last bytes of a pane.
fn store_of_two_strips() -> (Store, Vec<u8>) {
    let mut store = Store::open(5);
    store.say_all(&[&[0x03, 0, 0, 0, 1], &[0x06, 0, 0]]);
    store.say_all(&[&[0x02, 0, 31, 0, 2], &[0x04, 0, 31, 8]]);
    let to_student = board_with(&[
        (0, [0, 0, 0, 1, 0, 0, 0, 0, 0, 0, 0, 0]),
        (31, [0, 2, 0, 0, 0, 0, 0, 0, 0, 0, 0, 0]),
    ]);
    (store, to_student)
}

#[test]
fn exact_and_longer_outputs() {
    let (store, to_student) = store_of_two_strips();
    let to_instructor = board_with(&[
        (0, [0, 0, 0, 1, 0, 0, 0, 1, 0, 0, 0, 0]),
        (31, [0, 2, 0, 0, 1, 0, 0, 0, 0, 0, 0, 0]),
    ]);
    for length in [384, 385, 388, 395, 396, 768, 1000] {
        for (pane, due) in PANES.into_iter().zip([&to_student, &to_instructor]) {
            let mut output = vec![FILLER; length];
            assert_eq!(pane(&store.bytes, 0, &mut output), accepted(384));
            let (front, behind) = output.split_at(384);
            assert_eq!(front, due);
            assert!(behind.iter().all(|&byte| byte == FILLER), "{length} bytes");
        }
    }
}

/// What stood in the output before does not shine through, whatever it was.
#[test]
fn every_byte_of_a_pane_is_written() {
    let (store, to_student) = store_of_two_strips();
    for filler in [0x00, 0x01, 0x80, 0xFF] {
        let mut output = [filler; 384];
        let reply = tested::student_pane(&store.bytes, 0, &mut output);
        assert_eq!((reply, &output[..]), (accepted(384), &to_student[..]));
    }
}

#[test]
fn refusal_19_short_outputs() {
    let (store, _) = store_of_two_strips();
    for length in [0, 1, 4, 12, 383] {
        expect_refusal(&store.bytes, 0, length, 19);
    }
}

// ---------------------------------------------------------------- refusals and their order

const TOO_HIGH_CONSOLES: [u32; 8] = [16, 17, 255, 256, 271, 65_536, 65_551, u32::MAX];

/// Bytes that hold no sound store: none, other ones, and one cut or changed in one bit.
fn no_stores() -> Vec<Vec<u8>> {
    let (store, _) = store_of_two_strips();
    let length = store_bytes(5);
    let changed = |place: usize| {
        let mut bytes = store.bytes.clone();
        bytes[place] ^= 1;
        bytes
    };
    vec![
        vec![],
        vec![FILLER; 50],
        vec![0; length],
        store.bytes[..length - 1].to_vec(),
        changed(5),                    // the number of versions
        changed(257),                  // the head of console 0
        changed(4096 + 544 * 4 + 167), // a call on the board that is shown
        changed(4096 + 544 + 160),     // the board of a version behind it
        changed(length - 1),
    ]
}

#[test]
fn refusal_3_comes_first() {
    let (store, _) = store_of_two_strips();
    for console in TOO_HIGH_CONSOLES {
        for length in [0, 383, 384, 400] {
            expect_refusal(&store.bytes, console, length, 3);
            expect_refusal(&[], console, length, 3);
            expect_refusal(&[FILLER; 50], console, length, 3);
        }
    }
    expect_refusal(&store.bytes, 15, 384, 12);
}

#[test]
fn refusal_11_comes_before_12_and_19() {
    for bytes in no_stores() {
        for (console, length) in [(0, 384), (0, 383), (1, 384), (15, 0), (0, 400)] {
            expect_refusal(&bytes, console, length, 11);
        }
    }
}

#[test]
fn refusal_12_comes_before_19() {
    let (mut store, to_student) = store_of_two_strips();
    for console in 1..16 {
        expect_refusal(&store.bytes, console, 384, 12);
        expect_refusal(&store.bytes, console, 383, 12);
        expect_refusal(&store.bytes, console, 0, 12);
    }
    store.say_all(&[&[0x01, 7, 0]]);
    assert_eq!(store.student_pane(7), to_student);
    expect_refusal(&store.bytes, 7, 383, 19);
    store.say_all(&[&[0x0B, 7]]);
    expect_refusal(&store.bytes, 7, 384, 12);
}

// ---------------------------------------------------------------- the panes and the board

/// Heads 6, 6, 3, 5 and heads 1, 2, 5: calls alone, so that a student sees nothing.
#[test]
fn the_instructor_sees_the_board() {
    let (stuck, three) = (stuck_store(), store_of_three_consoles(6));
    for (store, consoles) in [(stuck, 0..4), (three, 0..3)] {
        for console in consoles {
            assert_eq!(store.instructor_pane(console), store.board(console));
            assert_ne!(store.instructor_pane(console), [0; 384]);
            assert_eq!(store.student_pane(console), [0; 384]);
        }
    }
}

#[test]
fn a_hub_changes_no_pane() {
    let (mut store, to_student) = store_of_two_strips();
    let to_instructor = store.instructor_pane(0);
    store.say_all(&[&[0x0C]]);
    assert_eq!(store.student_pane(0), to_student);
    assert_eq!(store.instructor_pane(0), to_instructor);
}

/// In rooms of every kind, sound or damaged, panes and board say the same of each other.
#[test]
fn the_panes_fit_the_board() {
    let rng = &mut Rng::new(38);
    let (mut hiding, mut refused) = ([0; 4], 0);
    for room in gen::random_rooms(39, 60) {
        let store = gen::store_beside(rng, &encode(&room));
        for (console, length) in (0..17).flat_map(|console| [(console, 384), (console, 390)]) {
            match panes::check(&TESTED, &store, console, length) {
                Ok(Ok(hidden)) => {
                    let counts = hiding.iter_mut().zip(hidden);
                    counts.for_each(|(count, is_hidden)| *count += usize::from(is_hidden));
                }
                Ok(Err(_)) => refused += 1,
                Err(difference) => panic!("{difference}: console {console}"),
            }
        }
    }
    let often = hiding.iter().all(|&met| met > 50);
    assert!(often && refused > 300, "{hiding:?} {refused}");
}
