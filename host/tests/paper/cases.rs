// The cases that the paper gives, its merge rules cell by cell, and what it calls plausible and wrong.

use super::store::{
    accepted, refused, resume, tape_with, Store, StripBytes, CALL_ON_0, FILLER, PRINTED_INPUT,
    PRINTED_TAPE,
};
use super::tested;

// ---------------------------------------------------------------- the printed session's room

#[test]
fn the_printed_tape() {
    let mut store = Store::open(64);
    for (command, answer) in PRINTED_INPUT.iter().zip([0, 0, 0, 0, 0, 14]) {
        assert_eq!(store.say(command), answer);
    }
    assert_eq!(store.tape(), PRINTED_TAPE);
    let mut exact = [0; 31];
    assert_eq!(tested::pause(&store.bytes, &mut exact), accepted(31));
    assert_eq!(exact, PRINTED_TAPE);
    let mut again = vec![FILLER; store.bytes.len()];
    assert_eq!(tested::resume(&exact, &mut again), accepted(0));
    assert_eq!(again, store.bytes);
}

#[test]
fn the_printed_board_and_questions() {
    let mut store = Store::open(64);
    store.say_all(&PRINTED_INPUT[..5]);
    let merged = StripBytes {
        level: 100,
        calls: 1,
        ..StripBytes::default()
    };
    assert_eq!(store.strip(0, 5), merged);
    assert_eq!(store.strip(1, 5), merged);
    assert_eq!(store.heard(0), accepted(2));
    assert_eq!(store.common(0, 1), accepted(3));
}

// ---------------------------------------------------------------- the cases marked *

#[test]
fn level_600_is_accepted_and_601_gives_5() {
    let mut store = Store::open(4);
    assert_eq!(store.say(&[0x02, 0, 0, 0x02, 0x58]), 0);
    assert_eq!(store.strip(0, 0).level, 600);
    assert_eq!(store.say(&[0x02, 0, 0, 0x02, 0x59]), 5);
}

#[test]
fn levels_0_100_200_give_100() {
    let mut store = Store::open(8);
    store.say_all(&[
        &[0x01, 1, 0],
        &[0x02, 0, 7, 0, 100],
        &[0x02, 1, 7, 0, 200],
        &[0x09, 0, 1],
    ]);
    assert_eq!(store.strip(0, 7).level, 100);
    assert_eq!(store.strip(1, 7).level, 200);
}

#[test]
fn levels_100_100_200_give_200() {
    let mut store = Store::open(8);
    store.say_all(&[
        &[0x02, 0, 7, 0, 100],
        &[0x01, 1, 0],
        &[0x06, 0, 1],
        &[0x02, 1, 7, 0, 200],
        &[0x09, 0, 1],
    ]);
    assert_eq!(store.strip(0, 7).level, 200);
}

#[test]
fn calls_2_5_3_give_6() {
    let mut store = Store::open(16);
    let call = |console: u8| [0x06, console, 3];
    store.say_all(&[&call(0), &call(0), &[0x01, 1, 0]]);
    store.say_all(&[&call(0), &call(0), &call(0), &call(1)]);
    assert_eq!((store.strip(0, 3).calls, store.strip(1, 3).calls), (5, 3));
    store.say_all(&[&[0x09, 0, 1]]);
    assert_eq!(store.strip(0, 3).calls, 6);
    assert_eq!(store.heard(0), accepted(6));
}

#[test]
fn marks_1_1_0_give_0() {
    let mut store = Store::open(8);
    store.say_all(&[
        &[0x04, 0, 3, 0],
        &[0x01, 1, 0],
        &[0x06, 0, 1],
        &[0x05, 1, 3, 0],
        &[0x09, 0, 1],
    ]);
    assert_eq!(store.strip(0, 3).marks, 0);
}

#[test]
fn alerts_merge_to_2_on() {
    let mut store = Store::open(8);
    store.say_all(&[&[0x07, 0, 3], &[0x01, 1, 0], &[0x08, 0, 3], &[0x07, 1, 3]]);
    assert_eq!(store.strip(0, 3).alert, (1, 0));
    assert_eq!(store.strip(1, 3).alert, (2, 1));
    store.say_all(&[&[0x09, 0, 1]]);
    assert_eq!(store.strip(0, 3).alert, (2, 1));
}

#[test]
fn capacity_1_gives_18_for_the_first_entry() {
    let mut store = Store::open(1);
    assert_eq!(store.say(&[0x06, 0, 0]), 18);
    assert_eq!(store.say(&[0x01, 1, 0]), 0);
}

/// Consoles 0, 1, 2 on version 0, an entry on each, then 2 merges 0 and 1: versions 0 to 5.
pub fn store_of_three_consoles(capacity: usize) -> Store {
    let mut store = Store::open(capacity);
    store.say_all(&[&[0x01, 1, 0], &[0x01, 2, 0]]);
    store.say_all(&[&[0x06, 0, 0], &[0x06, 1, 0], &[0x06, 2, 0]]);
    store.say_all(&[&[0x09, 2, 0], &[0x09, 2, 1]]);
    store
}

#[test]
fn three_consoles_give_17() {
    let mut store = store_of_three_consoles(64);
    assert_eq!(store.heads(), [1, 2, 5]);
    assert_eq!(store.common(0, 2), accepted(1));
    assert_eq!(store.common(2, 1), accepted(2));
    assert_eq!(resume(&store.tape()), 0);
    assert_eq!(store.say(&[0x09, 0, 1]), 17);
    assert_eq!(store.say(&[0x0A, 0, 2]), 0);
    assert_eq!(store.heads(), [5, 2, 5]);
    assert_eq!(store.version_count(), 6);
}

pub fn stuck_store() -> Store {
    let mut store = Store::open(64);
    store.say_all(&[&[0x01, 1, 0], &[0x01, 2, 0], &[0x01, 3, 0]]);
    store.say_all(&[
        &[0x06, 2, 0],
        &[0x0A, 3, 2],
        &[0x06, 0, 0],
        &[0x09, 2, 0],
        &[0x06, 1, 0],
        &[0x09, 3, 1],
        &[0x09, 0, 1],
        &[0x0A, 1, 0],
    ]);
    store
}

#[test]
fn the_stuck_room() {
    let mut store = stuck_store();
    assert_eq!(store.heads(), [6, 6, 3, 5]);
    assert_eq!(resume(&store.tape()), 0);
    let joinings = (0..16).flat_map(|receiver| {
        (0..16).flat_map(move |giver| [[0x09, receiver, giver], [0x0A, receiver, giver]])
    });
    for joining in joinings {
        assert_ne!(store.say(&joining), 0);
    }
    assert_eq!(store.say(&[0x09, 0, 1]), 14);
    assert_eq!(store.say(&[0x09, 0, 2]), 17);
    assert_eq!(store.say(&[0x09, 2, 3]), 17);
    assert_eq!(store.say(&[0x0A, 2, 3]), 16);
    assert_eq!(store.say(&[0x06, 3, 0]), 0);
}

#[test]
fn merges_are_not_heard() {
    let store = store_of_three_consoles(64);
    assert_eq!(store.heard(2), accepted(3));
    assert_eq!(store.heard(0), accepted(1));
    assert_eq!(store.heard(5), refused(12));
    assert_eq!(store.strip(2, 0).calls, 3);
}

// ---------------------------------------------------------------- the merge rules, cell by cell

/// Level and heading of a merge, where both are l before the fork, then a with the receiver and b with the giver.
fn merged_settings(l: u16, a: u16, b: u16) -> (u16, u16) {
    let set = |code: u8, console: u8, value: u16| {
        let [high, low] = value.to_be_bytes();
        [code, console, 7, high, low]
    };
    let mut store = Store::open(16);
    store.say_all(&[&set(0x02, 0, l), &set(0x03, 0, l), &[0x01, 1, 0]]);
    store.say_all(&[&set(0x02, 0, a), &set(0x03, 0, a)]);
    store.say_all(&[&set(0x02, 1, b), &set(0x03, 1, b), &[0x09, 0, 1]]);
    let merged = store.strip(0, 7);
    (merged.level, merged.heading)
}

#[test]
fn settings_follow_the_rule() {
    assert_eq!(merged_settings(0, 100, 200), (100, 100));
    assert_eq!(merged_settings(100, 100, 200), (200, 200));
    assert_eq!(merged_settings(100, 200, 100), (200, 200));
    assert_eq!(merged_settings(100, 0, 200), (0, 0));
    assert_eq!(merged_settings(100, 200, 200), (200, 200));
}

/// Brings the alert of a console's strip 3 from one state to another; the call makes an entry where nothing is to be brought.
fn bring_alert(store: &mut Store, console: u8, from: (u16, u8), to: (u16, u8)) {
    for _ in from.0..to.0 {
        store.say_all(&[&[0x07, console, 3]]);
    }
    if to.1 == 0 {
        store.say_all(&[&[0x08, console, 3]]);
    }
    store.say_all(&[&[0x06, console, 1]]);
    assert_eq!(store.strip(console.into(), 3).alert, to);
}

/// Alert count and flag of a merge, where they are l before the fork, then a with the receiver and b with the giver.
fn merged_alert(l: (u16, u8), a: (u16, u8), b: (u16, u8)) -> (u16, u8) {
    let mut store = Store::open(32);
    bring_alert(&mut store, 0, (0, 0), l);
    store.say_all(&[&[0x01, 1, 0]]);
    bring_alert(&mut store, 0, l, a);
    bring_alert(&mut store, 1, l, b);
    store.say_all(&[&[0x09, 0, 1]]);
    store.strip(0, 3).alert
}

#[test]
fn alerts_follow_the_rule() {
    assert_eq!(merged_alert((1, 1), (1, 0), (2, 1)), (2, 1), "the paper's");
    assert_eq!(merged_alert((1, 1), (1, 0), (1, 1)), (1, 0), "taken back");
    assert_eq!(merged_alert((0, 0), (1, 0), (1, 1)), (2, 1));
    assert_eq!(merged_alert((1, 1), (2, 1), (1, 0)), (2, 1));
    assert_eq!(merged_alert((1, 1), (1, 1), (3, 0)), (3, 0));
    assert_eq!(merged_alert((1, 1), (2, 0), (2, 0)), (3, 0));
    let own_count_not_merged = (2, 0);
    assert_eq!(merged_alert((1, 1), (2, 0), (1, 1)), own_count_not_merged);
    assert_eq!(merged_alert((1, 1), (1, 1), (2, 0)), own_count_not_merged);
}

/// The marks of a merge, where mark 9 is put (1) or taken (0) before the fork, then with the receiver and with the giver.
fn merged_marks(l: u8, a: u8, b: u8) -> u16 {
    let change = |console: u8, put: u8| [if put == 1 { 0x04 } else { 0x05 }, console, 3, 9];
    let mut store = Store::open(8);
    store.say_all(&[&change(0, l), &[0x01, 1, 0]]);
    store.say_all(&[&change(0, a), &change(1, b), &[0x09, 0, 1]]);
    store.strip(0, 3).marks
}

#[test]
fn marks_follow_the_rule_for_all_eight_cases() {
    assert_eq!(merged_marks(0, 0, 0), 0);
    assert_eq!(merged_marks(0, 0, 1), 0x0200);
    assert_eq!(merged_marks(0, 1, 0), 0x0200);
    assert_eq!(merged_marks(0, 1, 1), 0x0200);
    assert_eq!(merged_marks(1, 0, 0), 0);
    assert_eq!(merged_marks(1, 0, 1), 0);
    assert_eq!(merged_marks(1, 1, 0), 0);
    assert_eq!(merged_marks(1, 1, 1), 0x0200);
}

#[test]
fn entries_change_the_cells_they_name() {
    let mut store = Store::open(16);
    store.say_all(&[
        &[0x02, 0, 31, 0x01, 0x02],
        &[0x03, 0, 31, 0x01, 0x68],
        &[0x04, 0, 31, 15],
        &[0x04, 0, 31, 0],
        &[0x06, 0, 31],
        &[0x07, 0, 31],
        &[0x07, 0, 31],
        &[0x08, 0, 31],
    ]);
    let board = store.board(0);
    let strip = [1, 2, 0x01, 0x68, 0x80, 0x01, 0, 1, 0, 2, 0, 0];
    assert_eq!(board[372..], strip);
    assert!(board[..372].iter().all(|&byte| byte == 0));
    store.say_all(&[&[0x05, 0, 31, 15], &[0x02, 0, 31, 0, 0]]);
    let strip = [0, 0, 0x01, 0x68, 0x00, 0x01, 0, 1, 0, 2, 0, 0];
    assert_eq!(store.board(0)[372..], strip);
    assert_eq!(store.heard(0), accepted(10));
    let mark_not_there = [0x05, 0, 31, 9];
    store.say_all(&[&mark_not_there, &[0x03, 0, 31, 0, 0]]);
    let strip = [0, 0, 0, 0, 0x00, 0x01, 0, 1, 0, 2, 0, 0];
    assert_eq!(store.board(0)[372..], strip);
    assert_eq!(store.heard(0), accepted(12));
}

// ---------------------------------------------------------------- plausible and wrong

/// Entries 1 and 2 on version 0, then each merged with the other (3 and 4).
fn crossed_records() -> Vec<u8> {
    let crossed = [[0x22, 0, 1, 0, 2], [0x22, 0, 2, 0, 1]].concat();
    [&CALL_ON_0[..], &CALL_ON_0, &crossed].concat()
}

#[test]
fn wrong_highest_numbered_common_version_as_base() {
    let crossed = crossed_records();
    let merged = [0x22, 0, 3, 0, 4];
    let tape = tape_with(&[&crossed, &merged, &[0x23, 0, 0, 5]]);
    assert_eq!(resume(&tape), 10);
    let heads = [[0x23, 0, 0, 3], [0x23, 1, 0, 4]].concat();
    assert_eq!(resume(&tape_with(&[&crossed, &heads])), 10);
    let not_of_console_0 = [[0x23, 0, 0, 0], [0x23, 1, 0, 3], [0x23, 2, 0, 4]].concat();
    assert_eq!(resume(&tape_with(&[&crossed, &not_of_console_0])), 10);
    let straight = [&CALL_ON_0[..], &CALL_ON_0, &[0x22, 0, 1, 0, 2]].concat();
    assert_eq!(resume(&tape_with(&[&straight, &[0x23, 0, 0, 3]])), 0);
    let call_on_2 = [0x21, 0, 2, 0x06, 0, 0, 0];
    let tape = tape_with(&[&straight, &call_on_2, &merged, &[0x23, 0, 0, 5]]);
    assert_eq!(resume(&tape), 0);
    assert_eq!(resume(&tape_with(&[&straight, &call_on_2, &heads])), 0);
}

#[test]
fn wrong_17_for_the_two_consoles_only() {
    let mut store = store_of_three_consoles(64);
    assert_eq!(store.common(0, 1), accepted(0));
    assert_eq!(store.say(&[0x09, 0, 1]), 17);
    let merges = [[0x22, 0, 3, 0, 1], [0x22, 0, 4, 0, 2]].concat();
    let records = [&CALL_ON_0.repeat(3)[..], &merges].concat();
    let heads = |head_0: u8| [0x23, 0, 0, head_0, 0x23, 1, 0, 2, 0x23, 2, 0, 5];
    assert_eq!(resume(&tape_with(&[&records, &heads(1)])), 0);
    let forced = [0x22, 0, 1, 0, 2];
    let tape = tape_with(&[&records, &forced, &heads(6)]);
    assert_eq!(resume(&tape), 10, "without 17 the room isn't sound");
}

#[test]
fn wrong_lower_by_number() {
    let mut store = Store::open(8);
    store.say_all(&[&[0x01, 1, 0], &[0x06, 0, 0], &[0x06, 1, 0]]);
    assert_eq!(store.heads(), [1, 2]);
    assert_eq!(store.say(&[0x0A, 0, 1]), 16, "1 is lower but no ancestor");
    assert_eq!(store.say(&[0x09, 1, 0]), 0, "1 is lower but not behind");
    let mut three = store_of_three_consoles(64);
    assert_eq!(three.say(&[0x09, 1, 0]), 17, "commons 2 and 1");
}

#[test]
fn wrong_counters_merged_by_the_larger() {
    let mut store = Store::open(8);
    store.say_all(&[&[0x01, 1, 0], &[0x06, 0, 0], &[0x06, 1, 0], &[0x09, 0, 1]]);
    assert_eq!(store.strip(0, 0).calls, 2);
    store.say_all(&[&[0x0A, 1, 0], &[0x07, 0, 0], &[0x07, 1, 0], &[0x09, 1, 0]]);
    assert_eq!(store.strip(1, 0).alert, (2, 1));
}

#[test]
fn wrong_fast_forward_that_makes_a_version() {
    let mut store = Store::open(2);
    store.say_all(&[&[0x01, 1, 0], &[0x06, 0, 0], &[0x0A, 1, 0]]);
    assert_eq!(store.version_count(), 2);
    assert_eq!(store.heads(), [1, 1]);
}

#[test]
fn wrong_merge_of_a_giver_behind() {
    let mut store = Store::open(8);
    store.say_all(&[&[0x01, 1, 0], &[0x06, 0, 0], &[0x06, 0, 0]]);
    assert_eq!(store.say(&[0x09, 0, 1]), 14);
    let records = [&CALL_ON_0[..], &[0x22, 0, 1, 0, 0]].concat();
    assert_eq!(resume(&tape_with(&[&records, &[0x23, 0, 0, 2]])), 10);
}
