// Request Six: meeting through console 0, the hub. Answers, heads, bytes and tapes are worked out by hand from the request and
// docs/LAYOUT.md. Heads are told as versions, consoles rising.

use super::cases::{store_of_three_consoles, stuck_store};
use super::store::{accepted, refused, resume, resumed, tape_with, Store, CALL_ON_0, FILLER};
use super::tested;
use room_host::layout::store_bytes;

const MAKE_HUB: &[u8] = &[0x0C];

/// The low byte of the hub's field; its high byte stands before it.
const HUB_LOW_BYTE: usize = 3;

/// Consoles 0, 1 and 2 on version 0, with a hub.
fn store_with_hub(capacity: usize) -> Store {
    let mut store = Store::open(capacity);
    store.say_all(&[&[0x01, 1, 0], &[0x01, 2, 0], MAKE_HUB]);
    store
}

/// Consoles 1 and 2 on version 1, and console 0, which is behind it, on version 0.
fn store_without_way_in(capacity: usize) -> Store {
    let mut store = Store::open(capacity);
    store.say_all(&[&[0x01, 1, 0], &[0x06, 1, 0], &[0x01, 2, 1]]);
    assert_eq!(store.heads(), [0, 1, 1]);
    store
}

// ---------------------------------------------------------------- entering

#[test]
fn a_common_version_that_0_has_not_heard_keeps_the_room_out() {
    let mut store = store_without_way_in(8);
    assert_eq!(store.common(1, 2), accepted(1));
    assert_eq!(store.say(MAKE_HUB), 23);
    assert_eq!(store.clone().say(&[0x01, 3, 1]), 0, "and there is no hub");
    store.say_all(&[&[0x0A, 0, 1]]);
    assert_eq!(store.heads(), [1, 1, 1]);
    assert_eq!(store.say(MAKE_HUB), 0);
    assert_eq!(store.say(&[0x01, 3, 1]), 22);
}

/// Version 1, which 1 and 2 have in common, is lower than head 2 but no ancestor of it, until 0 merges it.
#[test]
fn a_lower_number_is_no_ancestor() {
    let mut store = store_without_way_in(8);
    store.say_all(&[&[0x06, 0, 0]]);
    assert_eq!(store.heads(), [2, 1, 1]);
    assert_eq!(store.say(MAKE_HUB), 23);
    store.say_all(&[&[0x09, 0, 2]]);
    assert_eq!(store.heads(), [3, 1, 1]);
    assert_eq!(store.say(MAKE_HUB), 0);
}

/// Heads 0, 1, 2: console 0 is behind the others, and so is what they have in common.
#[test]
fn the_hub_may_be_behind_the_others() {
    let mut store = Store::open(4);
    store.say_all(&[&[0x01, 1, 0], &[0x01, 2, 0], &[0x06, 1, 0], &[0x06, 2, 0]]);
    assert_eq!(store.heads(), [0, 1, 2]);
    assert_eq!(store.common(1, 2), accepted(0));
    assert_eq!(store.say(MAKE_HUB), 0);
}

/// Heads 2, 3, 4, 1: every two have version 1 in common, which is behind head 2.
#[test]
fn commons_may_be_anywhere_behind_the_hub() {
    let mut store = Store::open(8);
    store.say_all(&[&[0x06, 0, 0], &[0x01, 1, 0], &[0x01, 2, 0], &[0x01, 3, 0]]);
    store.say_all(&[&[0x06, 0, 0], &[0x06, 1, 0], &[0x06, 2, 0]]);
    assert_eq!(store.heads(), [2, 3, 4, 1]);
    assert_eq!(store.common(1, 2), accepted(1));
    assert_eq!(store.say(MAKE_HUB), 0);
}

/// Of two consoles one is 0, and what they have in common is behind its head, whoever is ahead.
#[test]
fn one_or_two_consoles_can_always_enter() {
    let rooms: [&[&[u8]]; 5] = [
        &[],
        &[&[0x01, 1, 0]],
        &[&[0x01, 1, 0], &[0x06, 1, 0]],
        &[&[0x01, 1, 0], &[0x06, 0, 0]],
        &[&[0x01, 1, 0], &[0x06, 0, 0], &[0x06, 1, 0]],
    ];
    for commands in rooms {
        let mut store = Store::open(3);
        store.say_all(commands);
        assert_eq!(store.say(MAKE_HUB), 0);
    }
}

/// All are on version 0 but 14 and 15, who have version 1 in common.
#[test]
fn every_two_consoles_are_looked_at() {
    let mut store = Store::open(2);
    for console in 1..16 {
        store.say_all(&[&[0x01, console, 0]]);
    }
    assert_eq!(store.clone().say(MAKE_HUB), 0);
    store.say_all(&[&[0x06, 14, 0]]);
    assert_eq!(store.clone().say(MAKE_HUB), 0, "14 alone is on 1");
    store.say_all(&[&[0x0A, 15, 14]]);
    assert_eq!(store.say(MAKE_HUB), 23);
    store.say_all(&[&[0x0A, 0, 15]]);
    assert_eq!(store.say(MAKE_HUB), 0);
}

/// Heads 6, 6, 3, 5: 2 and 3 have version 1 in common, which 0 has not heard.
#[test]
fn the_stuck_room_cannot_enter() {
    let mut store = stuck_store();
    assert_eq!(store.heads(), [6, 6, 3, 5]);
    assert_eq!(store.common(2, 3), accepted(1));
    assert_eq!(store.say(MAKE_HUB), 23);
}

/// Heads 1, 2, 5, where 17 keeps 0 and 1 apart: 1 and 2 have version 2 in common, which 0 has not heard. Once it has, 1 is behind it.
#[test]
fn a_room_with_17_in_it_cannot_enter() {
    let mut store = store_of_three_consoles(64);
    assert_eq!(store.say(&[0x09, 0, 1]), 17);
    assert_eq!(store.say(MAKE_HUB), 23);
    store.say_all(&[&[0x0A, 0, 2], MAKE_HUB]);
    assert_eq!(store.heads(), [5, 2, 5]);
    assert_eq!(store.say(&[0x09, 0, 1]), 14);
    assert_eq!(store.say(&[0x0A, 1, 0]), 0);
}

/// 1 and 2 are on version 1, which keeps the room out until one of the two has left.
#[test]
fn a_leave_may_open_the_way_in() {
    let mut store = store_without_way_in(4);
    assert_eq!(store.say(MAKE_HUB), 23);
    store.say_all(&[&[0x0B, 2]]);
    assert_eq!(store.say(MAKE_HUB), 0);
}

#[test]
fn entering_changes_one_byte_and_entering_again_none() {
    let mut store = Store::open(4);
    store.say_all(&[&[0x01, 1, 0], &[0x02, 1, 5, 0, 100], &[0x06, 0, 5]]);
    let mut expected = store.bytes.clone();
    assert_eq!(expected[..6], [0, 4, 0, 0, 0, 3]);
    expected[HUB_LOW_BYTE] = 1;
    for _ in 0..3 {
        assert_eq!(store.reply(MAKE_HUB), accepted(0));
        assert!(store.bytes == expected);
    }
    assert_eq!(store.heads(), [2, 1]);
}

#[test]
fn entering_needs_no_version() {
    let mut store = Store::open(1);
    assert_eq!(store.say(&[0x06, 0, 0]), 18);
    store.say_all(&[MAKE_HUB, &[0x01, 1, 0], MAKE_HUB]);
}

/// What follows it is the next command's.
#[test]
fn it_has_no_operand() {
    let mut store = Store::open(4);
    for longer in [&[0x0C, 0][..], &[0x0C, 1], &[0x0C, 0x0C], &[0x0C, 0, 0]] {
        assert_eq!(store.say(longer), 2);
    }
    for code in [0x0D, 0x0E, 0x25] {
        assert_eq!(store.say(&[code]), 1);
    }
    assert_eq!(store.say(MAKE_HUB), 0);
    assert_eq!(store.say(&[0x0C, 0]), 2, "with a hub too");
}

#[test]
fn bytes_without_a_store_give_11() {
    for mut bytes in [vec![], vec![0; store_bytes(2)], vec![FILLER; 50]] {
        assert_eq!(tested::command(&mut bytes, MAKE_HUB), refused(11));
        assert_eq!(tested::command(&mut bytes, &[0x0C, 0]), refused(2));
    }
}

// ---------------------------------------------------------------- through the hub alone

#[test]
fn only_the_hub_is_forked_from() {
    let mut store = store_with_hub(4);
    assert_eq!(store.say(&[0x01, 3, 1]), 22);
    assert_eq!(store.say(&[0x01, 2, 1]), 13, "2 is present");
    assert_eq!(store.say(&[0x01, 0, 1]), 13, "0 is present");
    assert_eq!(store.say(&[0x01, 3, 9]), 12, "9 is absent");
    assert_eq!(store.say(&[0x01, 2, 9]), 12, "9 is absent, 2 present");
    assert_eq!(store.say(&[0x01, 3, 3]), 6);
    assert_eq!(store.say(&[0x01, 3, 16]), 3);
    assert_eq!(store.say(&[0x01, 1, 0]), 13);
    assert_eq!(store.say(&[0x01, 3, 0]), 0);
    assert_eq!(store.heads(), [0; 4]);
}

/// Heads 3, 1, 2, each apart from the others: nothing but 22 stands against a merge of 1 and 2.
#[test]
fn only_the_hub_meets_others() {
    let mut store = store_with_hub(8);
    store.say_all(&[&[0x06, 1, 0], &[0x06, 2, 0], &[0x06, 0, 0]]);
    assert_eq!(store.heads(), [3, 1, 2]);
    for (receiver, giver) in [(1, 2), (2, 1)] {
        assert_eq!(store.say(&[0x09, receiver, giver]), 22);
        assert_eq!(store.say(&[0x0A, receiver, giver]), 22, "before 16");
    }
    store.say_all(&[&[0x09, 0, 1]]);
    assert_eq!(store.heads(), [4, 1, 2]);
    store.say_all(&[&[0x09, 2, 0]]);
    assert_eq!(store.heads(), [4, 1, 5]);
    store.say_all(&[&[0x0A, 0, 2], &[0x0A, 1, 0]]);
    assert_eq!(store.heads(), [5, 5, 5]);
}

#[test]
fn absent_consoles_come_before_the_hub_and_who_is_behind_after_it() {
    let mut store = store_with_hub(3);
    for code in [0x09, 0x0A] {
        assert_eq!(store.say(&[code, 1, 9]), 12);
        assert_eq!(store.say(&[code, 9, 1]), 12);
        assert_eq!(store.say(&[code, 9, 0]), 12);
        assert_eq!(store.say(&[code, 1, 1]), 6);
        assert_eq!(store.say(&[code, 1, 2]), 22, "before 14");
        assert_eq!(store.say(&[code, 1, 0]), 14);
        assert_eq!(store.say(&[code, 0, 1]), 14);
    }
    store.say_all(&[&[0x06, 1, 0]]);
    assert_eq!(store.say(&[0x09, 2, 1]), 22, "before 15");
    assert_eq!(store.say(&[0x0A, 2, 1]), 22, "where 2 is behind 1");
    assert_eq!(store.say(&[0x09, 0, 1]), 15);
    store.say_all(&[&[0x06, 2, 0]]);
    assert_eq!(store.say(&[0x06, 0, 0]), 18);
    assert_eq!(store.say(&[0x09, 1, 2]), 22, "before 18");
    store.say_all(&[&[0x0A, 0, 1]]);
    assert_eq!(store.say(&[0x0A, 0, 2]), 16);
    assert_eq!(store.say(&[0x09, 0, 2]), 18);
}

/// Entries, boards and questions know no hub.
#[test]
fn everything_else_is_as_before() {
    let mut store = Store::open(8);
    store.say_all(&[&[0x01, 1, 0], &[0x02, 1, 5, 0, 100], &[0x06, 0, 5]]);
    let before = store.clone();
    store.say_all(&[MAKE_HUB]);
    for console in [0, 1] {
        assert_eq!(store.board(console), before.board(console));
        assert_eq!(store.heard(console), accepted(1));
        assert_eq!(store.common(0, console), before.common(0, console));
    }
    assert_eq!(store.origin(1, 5, 0), accepted(1));
    assert_eq!(store.mergeable(), before.mergeable());
    store.say_all(&[&[0x04, 1, 5, 3], &[0x07, 0, 5]]);
    assert_eq!(store.heads(), [4, 3]);
}

/// Levels 0, 100, 200 and headings 0, 90, 90: one clash, whoever takes.
#[test]
fn a_merge_counts_its_clashes() {
    for merge in [[0x09, 0, 1], [0x09, 1, 0]] {
        let mut store = store_with_hub(8);
        store.say_all(&[&[0x02, 0, 5, 0, 100], &[0x03, 0, 5, 0, 90]]);
        store.say_all(&[&[0x02, 1, 5, 0, 200], &[0x03, 1, 5, 0, 90]]);
        assert_eq!(store.reply(&merge), accepted(1));
    }
}

// ---------------------------------------------------------------- nothing is stuck

/// The steps to the stuck room: those that don't go through console 0 are refused, and the others leave a room in which all can meet.
#[test]
fn the_steps_to_the_stuck_room_with_a_hub() {
    let mut store = Store::open(64);
    store.say_all(&[&[0x01, 1, 0], &[0x01, 2, 0], &[0x01, 3, 0], MAKE_HUB]);
    let steps: [(&[u8], u32); 8] = [
        (&[0x06, 2, 0], 0), // 1
        (&[0x0A, 3, 2], 22),
        (&[0x06, 0, 0], 0), // 2
        (&[0x09, 2, 0], 0), // 3, of 1 and 2
        (&[0x06, 1, 0], 0), // 4
        (&[0x09, 3, 1], 22),
        (&[0x09, 0, 1], 0), // 5, of 2 and 4
        (&[0x0A, 1, 0], 0),
    ];
    for (command, answer) in steps {
        assert_eq!(store.say(command), answer, "{command:02X?}");
    }
    assert_eq!(store.heads(), [5, 5, 3, 0]);
    assert_eq!(store.mergeable(), accepted(512 + 2), "0 merges 2");
    store.say_all(&[&[0x09, 0, 2]]);
    assert_eq!(store.heads(), [6, 5, 3, 0]);
    assert_eq!(store.mergeable(), accepted(768 + 16), "1 follows 0");
    store.say_all(&[&[0x0A, 1, 0], &[0x0A, 2, 0], &[0x0A, 3, 0]]);
    assert_eq!(store.mergeable(), accepted(0));
}

/// 17 for 0 and 1 came from 2, which had taken from both; with a hub it can take from 0 alone.
#[test]
fn the_steps_to_17_with_a_hub() {
    let mut store = store_with_hub(8);
    store.say_all(&[&[0x06, 0, 0], &[0x06, 1, 0], &[0x06, 2, 0], &[0x09, 2, 0]]);
    assert_eq!(store.say(&[0x09, 2, 1]), 22);
    assert_eq!(store.heads(), [1, 2, 4]);
    assert_eq!(store.say(&[0x09, 0, 1]), 0);
    assert_eq!(store.heads(), [5, 2, 4]);
}

// ---------------------------------------------------------------- gathering

/// Five consoles with heads 0, 1, 2, 0, 3 and four versions free. 0 follows 1, merges 2 and 4, and has nothing to take from 3, who is behind.
#[test]
fn gathering_with_a_fast_forward_and_one_behind() {
    let mut store = store_with_hub(8);
    store.say_all(&[&[0x01, 3, 0], &[0x01, 4, 0]]);
    store.say_all(&[&[0x06, 1, 0], &[0x06, 2, 0], &[0x06, 4, 0]]);
    assert_eq!(store.heads(), [0, 1, 2, 0, 3]);
    store.say_all(&[&[0x0A, 0, 1], &[0x09, 0, 2], &[0x09, 0, 4]]);
    assert_eq!(store.heads(), [5, 1, 2, 0, 3]);
    store.say_all(&[&[0x0A, 1, 0], &[0x0A, 2, 0], &[0x0A, 3, 0], &[0x0A, 4, 0]]);
    assert_eq!(store.heads(), [5; 5]);
    assert_eq!(store.mergeable(), accepted(0));
    assert_eq!(store.heard(3), accepted(3));
    assert_eq!(store.version_count(), 6);
}

/// Consoles up to the last, each with an entry of its own, the hub's being the first, in a room with so many versions free.
fn store_of_all_apart(last: u8, free: u8) -> Store {
    let mut store = Store::open(usize::from(1 + last + 1 + free));
    for console in 1..=last {
        store.say_all(&[&[0x01, console, 0]]);
    }
    store.say_all(&[MAKE_HUB]);
    for console in 0..=last {
        store.say_all(&[&[0x06, console, 0]]);
    }
    store
}

/// The worst case: a merge of each, so that the n - 1 versions and the 2(n - 1) commands are all used.
#[test]
fn gathering_where_all_are_apart() {
    for last in [1, 2, 3, 15] {
        let mut store = store_of_all_apart(last, last);
        for console in 1..=last {
            store.say_all(&[&[0x09, 0, console]]);
        }
        for console in 1..=last {
            store.say_all(&[&[0x0A, console, 0]]);
        }
        let consoles = usize::from(last) + 1;
        let head = u32::from(1 + 2 * last);
        assert_eq!(store.heads(), vec![head; consoles]);
        assert_eq!(store.mergeable(), accepted(0));
        assert_eq!(store.strip(last.into(), 0).calls, u16::from(last) + 1);
        assert_eq!(store.say(&[0x06, 0, 0]), 18, "no version is left");
    }
}

/// With one version less the last merge finds none; the others get there all the same.
#[test]
fn gathering_with_a_version_too_few() {
    let mut store = store_of_all_apart(3, 2);
    store.say_all(&[&[0x09, 0, 1], &[0x09, 0, 2]]);
    assert_eq!(store.say(&[0x09, 0, 3]), 18);
    assert_eq!(store.mergeable(), accepted(512 + 3), "if one were free");
    store.say_all(&[&[0x0A, 1, 0], &[0x0A, 2, 0]]);
    assert_eq!(store.say(&[0x0A, 3, 0]), 16);
    assert_eq!(store.heads(), [6, 6, 6, 4]);
}

// ---------------------------------------------------------------- leaving and coming back

#[test]
fn a_leave_is_as_in_any_room() {
    let mut store = store_with_hub(8);
    store.say_all(&[&[0x06, 1, 0], &[0x06, 2, 0]]);
    assert_eq!(store.say(&[0x0B, 0]), 20);
    assert_eq!(store.say(&[0x0B, 1]), 21);
    assert_eq!(store.say(&[0x0B, 3]), 12);
    store.say_all(&[&[0x0A, 0, 1], &[0x0B, 1]]);
    assert_eq!(store.heads(), [1, 2], "of 0 and 2");
    assert_eq!(store.say(&[0x01, 1, 2]), 22, "there is still a hub");
    store.say_all(&[&[0x01, 1, 0]]);
    assert_eq!(store.heads(), [1, 1, 2]);
    assert_eq!(store.say(&[0x09, 1, 2]), 22);
}

/// One store has one encoding: as if console 1 had never come.
#[test]
fn the_hub_stays_when_all_others_have_left() {
    let mut store = Store::open(2);
    store.say_all(&[MAKE_HUB]);
    let alone = store.bytes.clone();
    store.say_all(&[&[0x01, 1, 0], &[0x0B, 1]]);
    assert!(store.bytes == alone);
    assert_eq!(store.mergeable(), accepted(0));
}

// ---------------------------------------------------------------- tapes

const CAPACITY_16: [u8; 3] = [0x20, 0, 16];
const LEVEL_ON_0: [u8; 7] = [0x21, 0, 0, 0x02, 5, 0, 100];
const HEADS: [[u8; 4]; 3] = [[0x23, 0, 0, 0], [0x23, 1, 0, 1], [0x23, 2, 0, 0]];

/// A tape of these records, and the end.
fn tape_of(records: &[&[u8]]) -> Vec<u8> {
    [&CAPACITY_16, records.concat().as_slice(), &[0x24]].concat()
}

#[test]
fn the_tape_carries_the_hub_just_before_its_end() {
    let tape = tape_of(&[&LEVEL_ON_0, HEADS.as_flattened(), &[0x25]]);
    assert_eq!(tape.len(), 24);
    let mut store = store_with_hub(16);
    store.say_all(&[&[0x02, 1, 5, 0, 100]]);
    assert_eq!(store.tape(), tape);
    let mut short = [FILLER; 23];
    assert_eq!(tested::pause(&store.bytes, &mut short), refused(19));
    assert_eq!(short, [FILLER; 23]);

    let mut again = resumed(&tape).expect("the heads can enter");
    let length = store_bytes(16);
    assert!(again.bytes[..length] == store.bytes[..length]);
    assert_eq!(again.tape(), tape);
    assert_eq!(again.say(&[0x01, 3, 1]), 22);
    assert_eq!(again.say(MAKE_HUB), 0);
}

#[test]
fn a_tape_without_a_hub_is_resumed_as_before() {
    let tape = tape_of(&[&LEVEL_ON_0, HEADS.as_flattened()]);
    let mut store = resumed(&tape).expect("the tape is sound");
    assert_eq!(store.bytes[..6], [0, 16, 0, 0, 0, 2]);
    assert_eq!(store.tape(), tape);
    assert_eq!(store.say(&[0x01, 3, 1]), 0);
}

/// A tape replaces the room, with its hub or its lack of one.
#[test]
fn a_tape_decides_whether_there_is_a_hub() {
    let without = tape_of(&[&LEVEL_ON_0, HEADS.as_flattened()]);
    let with = tape_of(&[&LEVEL_ON_0, HEADS.as_flattened(), &[0x25]]);
    let mut store = store_with_hub(16);
    assert_eq!(store.resume(&without), 0);
    assert_eq!(store.bytes[HUB_LOW_BYTE], 0);
    assert_eq!(store.resume(&with), 0);
    assert_eq!(store.bytes[HUB_LOW_BYTE], 1);
    assert_eq!(tested::open(16, &mut store.bytes), accepted(0));
    assert_eq!(store.bytes[HUB_LOW_BYTE], 0);
}

#[test]
fn a_hub_anywhere_else_or_twice_is_no_tape() {
    let heads = HEADS.as_flattened();
    let hub: &[u8] = &[0x25];
    let (start, entry, end) = (&CAPACITY_16[..], &LEVEL_ON_0[..], &[0x24][..]);
    let wrong: [&[&[u8]]; 12] = [
        &[start, entry, heads, hub, hub, end],
        &[start, entry, heads, end, hub],
        &[start, entry, heads, end, hub, end],
        &[start, entry, heads, hub, end, end],
        &[start, entry, heads, hub],
        &[start, entry, &HEADS[0], hub, &HEADS[1], &HEADS[2], end],
        &[start, entry, &HEADS[0], hub, &HEADS[1], &HEADS[2], hub, end],
        &[start, entry, hub, heads, end],
        &[start, hub, entry, heads, end],
        &[hub, start, entry, heads, end],
        &[start, hub, end],
        &[start, entry, heads, hub, &[0], end],
    ];
    for records in wrong {
        assert_eq!(resume(&records.concat()), 7, "{records:02X?}");
    }
    assert_eq!(resume(&[start, entry, heads, hub, end].concat()), 0);
}

/// Consoles 1 and 2 on version 1, and console 0 on version 0 or 1.
#[test]
fn a_tape_whose_heads_could_not_enter_gives_10() {
    let heads = |head_0: u8| [0x23, 0, 0, head_0, 0x23, 1, 0, 1, 0x23, 2, 0, 1];
    assert_eq!(resume(&tape_with(&[&CALL_ON_0, &heads(0), &[0x25]])), 10);
    assert_eq!(resume(&tape_with(&[&CALL_ON_0, &heads(0)])), 0);
    assert_eq!(resume(&tape_with(&[&CALL_ON_0, &heads(1), &[0x25]])), 0);
}

/// The stuck room's tape with a hub.
#[test]
fn the_stuck_rooms_tape_with_a_hub_gives_10() {
    let mut tape = stuck_store().tape();
    assert_eq!(resume(&tape), 0);
    tape.insert(tape.len() - 1, 0x25);
    assert_eq!(resume(&tape), 10);
}

/// 7, 8 and 9 come before 10, and 19 after it.
#[test]
fn the_order_of_a_tapes_refusals() {
    let heads = [0x23, 0, 0, 0, 0x23, 1, 0, 1, 0x23, 2, 0, 1];
    let tape = |capacity: u8, heads: &[u8], hubs: &[u8]| {
        [&[0x20, 0, capacity], &CALL_ON_0[..], heads, hubs, &[0x24]].concat()
    };
    assert_eq!(resume(&tape(0, &heads, &[0x25, 0x25])), 7);
    assert_eq!(resume(&tape(0, &heads, &[0x25])), 8);
    assert_eq!(resume(&tape(1, &heads, &[0x25])), 9, "two versions");
    let second_on_2 = [0x23, 0, 0, 0, 0x23, 1, 0, 1, 0x23, 2, 0, 2];
    assert_eq!(resume(&tape(2, &second_on_2, &[0x25])), 9);
    assert_eq!(resume(&tape(2, &heads, &[0x25])), 10);
    let cannot_enter = tape(2, &heads, &[0x25]);
    assert_eq!(tested::resume(&cannot_enter, &mut []), refused(10));
    let can_enter = tape(2, &heads[..8], &[0x25]);
    assert_eq!(tested::resume(&can_enter, &mut []), refused(19));
    assert_eq!(resume(&can_enter), 0);
}

/// Version 37 is 25 in hexadecimal: the last byte of its head is no record.
#[test]
fn a_head_that_ends_with_25_is_no_hub() {
    let calls: Vec<[u8; 7]> = (0..37).map(|on| [0x21, 0, on, 0x06, 0, 0, 0]).collect();
    let head_0 = [0x23, 0, 0, 0x25];
    let tape = tape_with(&[calls.as_flattened(), &head_0]);
    let store = resumed(&tape).expect("a chain of calls is sound");
    assert_eq!(store.bytes[HUB_LOW_BYTE], 0);
    let tape = tape_with(&[calls.as_flattened(), &head_0, &[0x25]]);
    let store = resumed(&tape).expect("and with a hub");
    assert_eq!(store.bytes[HUB_LOW_BYTE], 1);
    let cut = tape_with(&[calls.as_flattened(), &head_0[..3]]);
    assert_eq!(resume(&cut), 7);
    let cut = tape_with(&[calls.as_flattened(), &head_0[..3], &[0x25, 0x25]]);
    assert_eq!(resume(&cut), 0, "version 37, and a hub");
}

// ---------------------------------------------------------------- bytes

/// The answers to 0C, to a fork from 0, and to each other call that reads a store.
fn answers_of(store: &Store) -> [u32; 8] {
    let bytes = &store.bytes;
    [
        tested::command(&mut bytes.clone(), MAKE_HUB),
        tested::command(&mut bytes.clone(), &[0x01, 9, 0]),
        tested::pause(bytes, &mut [0; 99]),
        tested::board(bytes, 0, &mut [0; 384]),
        tested::heard(bytes, 0),
        tested::common(bytes, 0, 1),
        tested::origin(bytes, 0, 0, 0),
        tested::mergeable(bytes),
    ]
    .map(|reply| reply.answer)
}

#[test]
fn the_field_of_the_hub_is_0_or_1() {
    let mut without_hub = Store::open(4);
    without_hub.say_all(&[&[0x01, 1, 0]]);
    for mut store in [store_with_hub(4), without_hub] {
        for field in [2, 3, 255, 256, 257, 0x8000, 0xFFFF_u16] {
            store.bytes[2..4].copy_from_slice(&field.to_be_bytes());
            assert_eq!(answers_of(&store), [11; 8], "{field}");
        }
        for field in [0, 1_u16] {
            store.bytes[2..4].copy_from_slice(&field.to_be_bytes());
            assert_eq!(answers_of(&store), [0; 8], "{field}");
        }
    }
}

#[test]
fn a_hub_whose_heads_could_not_enter_is_no_store() {
    let mut store = store_without_way_in(4);
    store.bytes[HUB_LOW_BYTE] = 1;
    assert_eq!(answers_of(&store), [11; 8]);
    store.bytes[HUB_LOW_BYTE] = 0;
    store.say_all(&[&[0x0A, 0, 1]]);
    store.bytes[HUB_LOW_BYTE] = 1;
    assert_eq!(answers_of(&store), [0; 8], "as if it had entered");
    assert_eq!(store.say(&[0x01, 9, 1]), 22);

    let mut stuck = stuck_store();
    stuck.bytes[HUB_LOW_BYTE] = 1;
    assert_eq!(answers_of(&stuck), [11; 8]);
}
