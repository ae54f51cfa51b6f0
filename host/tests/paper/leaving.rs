// Request Two: a console goes home. Answers, heads, bytes and tapes are worked out by hand from the request and docs/LAYOUT.md.

use super::cases::{store_of_three_consoles, stuck_store};
use super::store::{accepted, refused, resumed, Store, StripBytes, FILLER};
use super::tested;
use room_host::layout::store_bytes;

/// Consoles 0, 1, 2 on version 0; a level with 1 (version 1), a call with 0 (2), 0 merges 1 (3): heads 3, 1, 0.
fn merged_store(capacity: usize) -> Store {
    let mut store = Store::open(capacity);
    store.say_all(&[
        &[0x01, 1, 0],
        &[0x01, 2, 0],
        &[0x02, 1, 5, 0, 100],
        &[0x06, 0, 3],
        &[0x09, 0, 1],
    ]);
    assert_eq!(store.heads(), [3, 1, 0]);
    store
}

// ---------------------------------------------------------------- going and coming back

#[test]
fn a_console_leaves_and_its_number_is_forked_again() {
    let mut store = merged_store(16);
    assert_eq!(store.say(&[0x01, 1, 0]), 13);
    assert_eq!(store.say(&[0x0B, 1]), 0);
    assert_eq!(store.heads(), [3, 0], "of consoles 0 and 2");
    assert_eq!(store.version_count(), 4, "a leave makes no version");
    assert_eq!(store.say(&[0x01, 1, 0]), 0);
    assert_eq!(store.heads(), [3, 3, 0]);
    assert_eq!(store.say(&[0x01, 1, 0]), 13);
}

#[test]
fn the_forked_one_has_what_the_old_one_has() {
    let mut store = merged_store(16);
    store.say_all(&[&[0x0B, 1], &[0x01, 1, 2]]);
    assert_eq!(store.heads(), [3, 0, 0], "1 is on the head of 2");
    assert_eq!(store.heard(1), accepted(0), "2 has heard nothing");
    assert_eq!(store.common(1, 0), accepted(0));
    assert_eq!(store.common(1, 2), accepted(0));
    assert_eq!(store.board(1), [0; 384]);

    store.say_all(&[&[0x0B, 1], &[0x01, 1, 0]]);
    assert_eq!(store.heads(), [3, 3, 0], "1 is on the head of 0");
    assert_eq!(store.heard(1), accepted(2));
    assert_eq!(store.common(1, 0), accepted(3));
    assert_eq!(store.common(0, 1), accepted(3));
    assert_eq!(store.common(1, 2), accepted(0));
    assert_eq!(store.board(1), store.board(0));
    assert_eq!(store.strip(1, 5).level, 100);
    assert_eq!(store.strip(1, 3).calls, 1);

    store.say_all(&[&[0x06, 1, 3], &[0x0A, 0, 1]]);
    assert_eq!(store.heads(), [4, 4, 0], "it goes on as any console does");
    assert_eq!(store.strip(0, 3).calls, 2);
}

#[test]
fn the_highest_console_comes_and_goes() {
    let mut store = Store::open(4);
    for head in 0..3 {
        store.say_all(&[&[0x01, 15, 0]]);
        assert_eq!(store.heads(), [head, head]);
        store.say_all(&[&[0x06, 0, 0], &[0x0B, 15]]);
        assert_eq!(store.heads(), [head + 1]);
    }
}

/// One store has one encoding, so a room that all have left again is to the byte as if they had never come.
#[test]
fn everybody_leaves() {
    let mut store = Store::open(3);
    for console in 1..16 {
        store.say_all(&[&[0x01, console, console - 1]]);
    }
    for console in 1..16 {
        assert_eq!(store.say(&[0x0B, 0]), 20);
        store.say_all(&[&[0x0B, console]]);
    }
    assert!(store.bytes == Store::open(3).bytes);
}

// ---------------------------------------------------------------- who may leave

#[test]
fn a_head_that_nobody_descends_from_stays() {
    let mut store = Store::open(8);
    store.say_all(&[&[0x01, 1, 0], &[0x06, 1, 0]]);
    assert_eq!(store.heads(), [0, 1]);
    assert_eq!(store.say(&[0x0B, 1]), 21, "its own head is no other");
    store.say_all(&[&[0x0A, 0, 1]]);
    assert_eq!(store.say(&[0x0B, 1]), 0);
}

#[test]
fn a_lower_number_is_no_ancestor() {
    let mut store = Store::open(8);
    store.say_all(&[&[0x01, 1, 0], &[0x01, 2, 0]]);
    store.say_all(&[&[0x06, 1, 0], &[0x06, 0, 0], &[0x06, 2, 0]]);
    assert_eq!(store.heads(), [2, 1, 3]);
    assert_eq!(store.say(&[0x0B, 1]), 21, "1 is the lowest of the heads");
    assert_eq!(store.say(&[0x0B, 2]), 21);
    store.say_all(&[&[0x09, 0, 2]]);
    assert_eq!(store.heads(), [4, 1, 3]);
    assert_eq!(store.say(&[0x0B, 1]), 21, "4 is a merge of 2 and 3");
    assert_eq!(store.say(&[0x0B, 2]), 0);
    assert_eq!(store.say(&[0x0B, 1]), 21);
    store.say_all(&[&[0x09, 0, 1]]);
    assert_eq!(store.say(&[0x0B, 1]), 0);
    assert_eq!(store.heads(), [5]);
}

/// An ancestor includes the version itself.
#[test]
fn of_two_on_one_head_one_may_leave() {
    for (first, second) in [(1, 2), (2, 1)] {
        let mut store = Store::open(4);
        store.say_all(&[&[0x01, 1, 0], &[0x06, 1, 0], &[0x01, 2, 1]]);
        assert_eq!(store.heads(), [0, 1, 1]);
        assert_eq!(store.say(&[0x0B, first]), 0);
        assert_eq!(store.say(&[0x0B, second]), 21);
        assert_eq!(store.heads(), [0, 1]);
        assert_eq!(store.heard(second.into()), accepted(1));
    }
    let mut with_0 = Store::open(4);
    with_0.say_all(&[&[0x01, 1, 0]]);
    assert_eq!(with_0.say(&[0x0B, 1]), 0);
    assert_eq!(with_0.say(&[0x0B, 0]), 20);
}

/// The head behind which a console leaves need not be console 0's, and each parent of a merge is behind it.
#[test]
fn behind_any_other_head_by_receiver_and_by_giver() {
    let mut store = Store::open(8);
    store.say_all(&[
        &[0x01, 1, 0],
        &[0x01, 2, 0],
        &[0x06, 1, 0], // 1
        &[0x06, 2, 0], // 2
        &[0x01, 3, 1],
        &[0x09, 1, 2], // 3, of 1 and 2
        &[0x06, 1, 0], // 4
    ]);
    assert_eq!(store.heads(), [0, 4, 2, 1]);
    assert_eq!(store.say(&[0x0B, 1]), 21);
    assert_eq!(store.say(&[0x0B, 3]), 0, "1 is the receiver's version");
    assert_eq!(store.say(&[0x0B, 2]), 0, "2 is the giver's");
    assert_eq!(store.say(&[0x0B, 1]), 21);
    assert_eq!(store.heads(), [0, 4]);
}

#[test]
fn a_leave_needs_no_version() {
    let mut smallest = Store::open(1);
    smallest.say_all(&[&[0x01, 1, 0], &[0x0B, 1], &[0x01, 1, 0]]);
    let mut full = merged_store(4);
    assert_eq!(full.say(&[0x06, 0, 0]), 18);
    full.say_all(&[&[0x0B, 1], &[0x0B, 2], &[0x01, 2, 0]]);
    assert_eq!(full.heads(), [3, 3]);
}

// ---------------------------------------------------------------- who is absent, and who remains

#[test]
fn the_one_that_left_is_absent() {
    let mut store = merged_store(16);
    store.say_all(&[&[0x0B, 1]]);
    assert_eq!(store.heard(1), refused(12));
    for other in 0..16 {
        assert_eq!(store.common(1, other), refused(12));
        assert_eq!(store.common(other, 1), refused(12));
    }
    let mut board = [FILLER; 384];
    assert_eq!(tested::board(&store.bytes, 1, &mut board), refused(12));
    assert_eq!(board, [FILLER; 384]);
    assert_eq!(store.origin(1, 5, 0), refused(12));
    let commands: [&[u8]; 9] = [
        &[0x01, 3, 1],
        &[0x02, 1, 5, 0, 100],
        &[0x04, 1, 5, 0],
        &[0x06, 1, 5],
        &[0x09, 1, 0],
        &[0x09, 0, 1],
        &[0x0A, 1, 0],
        &[0x0A, 0, 1],
        &[0x0B, 1],
    ];
    for command in commands {
        assert_eq!(store.say(command), 12, "{command:02X?}");
    }
}

#[test]
fn whoever_remains_keeps_all() {
    let mut store = merged_store(16);
    store.say_all(&[&[0x0B, 1]]);
    assert_eq!(store.common(0, 2), accepted(0));
    assert_eq!(store.common(2, 0), accepted(0));
    assert_eq!(store.heard(0), accepted(2), "the one that left is heard");
    assert_eq!(store.heard(2), accepted(0));
    let level_of_1 = StripBytes {
        level: 100,
        ..StripBytes::default()
    };
    assert_eq!(store.strip(0, 5), level_of_1);
    assert_eq!(store.origin(0, 5, 0), accepted(1));
    store.say_all(&[&[0x06, 2, 3], &[0x09, 2, 0]]);
    assert_eq!(store.heads(), [3, 5], "2 enters 4 and merges 3");
    assert_eq!(store.strip(2, 5), level_of_1);
    assert_eq!(store.strip(2, 3).calls, 2);
}

/// Refusal 17 outlives the third console that caused it: that one may leave only behind the head of another third console, whose common
/// versions with the two are apart as well. (Were one of them behind the other, the two would both descend from it, and so from what
/// the first one has in common with one of them, and 17 would not have been given.)
#[test]
fn a_leave_never_ends_17() {
    let mut store = store_of_three_consoles(64);
    assert_eq!(store.heads(), [1, 2, 5]);
    assert_eq!(store.say(&[0x0B, 2]), 21, "alone on 5");
    store.say_all(&[&[0x01, 3, 2], &[0x06, 3, 0]]);
    assert_eq!(store.heads(), [1, 2, 5, 6]);
    assert_eq!(store.say(&[0x09, 0, 1]), 17);
    assert_eq!(store.say(&[0x0B, 2]), 0, "6 descends from 5");
    assert_eq!(store.say(&[0x09, 0, 1]), 17);
    store.say_all(&[&[0x0B, 1], &[0x0A, 0, 3]]);
    assert_eq!(store.heads(), [6, 6]);
}

/// The paper's stuck room, with heads 6, 6, 3, 5: only one of the two on 6 may leave, and the others stay stuck.
#[test]
fn the_stuck_room_stays_stuck() {
    let mut store = stuck_store();
    assert_eq!(store.say(&[0x0B, 2]), 21);
    assert_eq!(store.say(&[0x0B, 3]), 21);
    assert_eq!(store.say(&[0x0B, 1]), 0);
    assert_eq!(store.heads(), [6, 3, 5]);
    for (receiver, giver) in [(0, 2), (0, 3), (2, 0), (2, 3), (3, 0), (3, 2)] {
        assert_eq!(store.say(&[0x09, receiver, giver]), 17);
        assert_eq!(store.say(&[0x0A, receiver, giver]), 16);
    }
    assert_eq!(store.say(&[0x0B, 2]), 21);
    assert_eq!(store.say(&[0x0B, 3]), 21);
}

// ---------------------------------------------------------------- bytes and tapes

/// The fields of the table of commons of consoles 0 to 3, each below 256: row c stands at 256 + 32 c.
fn table_of_four(store: &Store) -> [[u8; 4]; 4] {
    [0, 1, 2, 3].map(|console| {
        let row = &store.bytes[256 + 32 * console..][..32];
        assert!(row[8..].iter().all(|&byte| byte == 0));
        [0, 1, 2, 3].map(|other| {
            assert_eq!(row[2 * other], 0);
            row[2 * other + 1]
        })
    })
}

/// The merged store with console 3 forked from 1, so that its table of commons has four rows.
fn store_of_four() -> Store {
    let mut store = merged_store(8);
    store.say_all(&[&[0x01, 3, 1]]);
    let table = [[4, 2, 1, 2], [2, 2, 1, 2], [1, 1, 1, 1], [2, 2, 1, 2]];
    assert_eq!(table_of_four(&store), table, "one above the commons");
    store
}

/// The places of console 1's head, and of the rest of its row and of its column.
fn head_of_1() -> Vec<usize> {
    vec![256 + 2 * 17, 256 + 2 * 17 + 1]
}

fn row_of_1() -> Vec<usize> {
    let row = 256 + 32..256 + 64;
    row.filter(|place| !head_of_1().contains(place)).collect()
}

fn column_of_1() -> Vec<usize> {
    let fields = (0..16).filter(|&other| other != 1);
    fields
        .map(|other| 256 + 32 * other + 2)
        .flat_map(|place| [place, place + 1])
        .collect()
}

/// The bytes with zeros at these places.
fn cleared(bytes: &[u8], places: &[Vec<usize>]) -> Vec<u8> {
    let mut cleared = bytes.to_vec();
    for &place in places.iter().flatten() {
        cleared[place] = 0;
    }
    cleared
}

#[test]
fn head_row_and_column_are_cleared_and_nothing_else() {
    let mut store = store_of_four();
    let before = store.bytes.clone();
    assert_eq!(store.say(&[0x0B, 1]), 0);
    let table = [[4, 0, 1, 2], [0, 0, 0, 0], [1, 0, 1, 1], [2, 0, 1, 2]];
    assert_eq!(table_of_four(&store), table);
    let all = [head_of_1(), row_of_1(), column_of_1()];
    assert!(store.bytes == cleared(&before, &all));
}

#[test]
fn half_a_leave_is_no_store() {
    let bytes = store_of_four().bytes;
    let (head, row, column) = (head_of_1, row_of_1, column_of_1);
    let halves: [&[Vec<usize>]; 6] = [
        &[head()],
        &[row()],
        &[column()],
        &[head(), row()],
        &[head(), column()],
        &[row(), column()],
    ];
    for places in halves {
        let half = cleared(&bytes, places);
        assert_eq!(tested::heard(&half, 0), refused(11));
        assert_eq!(tested::command(&mut half.clone(), &[0x0B, 1]), refused(11));
        assert_eq!(tested::command(&mut half.clone(), &[0x0B, 0]), refused(20));
    }
    let whole = cleared(&bytes, &[head(), row(), column()]);
    assert_eq!(tested::heard(&whole, 0), accepted(2));
    assert_eq!(tested::heard(&whole, 1), refused(12));
}

#[test]
fn a_tape_has_no_record_of_the_one_that_left() {
    let tape = [
        0x20, 0, 16, //
        0x21, 0, 0, 0x02, 5, 0, 100, //
        0x21, 0, 0, 0x06, 3, 0, 0, //
        0x22, 0, 2, 0, 1, //
        0x23, 0, 0, 3, //
        0x23, 2, 0, 0, //
        0x24,
    ];
    let mut store = merged_store(16);
    store.say_all(&[&[0x0B, 1]]);
    assert_eq!(store.tape(), tape);
    let mut again = resumed(&tape).expect("the tape is sound");
    let length = store_bytes(16);
    assert!(again.bytes[..length] == store.bytes[..length]);
    assert_eq!(again.heard(1), refused(12));
    again.say_all(&[&[0x01, 1, 0], &[0x06, 1, 0]]);
    assert_eq!(again.heads(), [3, 4, 0]);
}
