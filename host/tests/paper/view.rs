// Request Seven: a frozen board beside the live one. Answers, boards and places are worked out by hand from the request and
// docs/LAYOUT.md: the board of version v stands at 4,096 + 544 v + 160. Heads are told as versions, consoles rising.

use super::cases::{store_of_three_consoles, stuck_store};
use super::store::{
    accepted, refused, resumed, strip_of, Store, StripBytes, FILLER, PRINTED_INPUT, PRINTED_TAPE,
};
use super::{tested, TESTED};
use room_host::gen;
use room_host::layout::{encode, store_bytes};
use room_host::model::{Entry, Room, Version};
use room_host::rng::Rng;
use room_host::views::{self, Asked};

const LIVE: u32 = 0;
const FROZEN: u32 = 1;

/// Where the boards of the first versions stand.
const PLACES: [u32; 7] = [4256, 4800, 5344, 5888, 6432, 6976, 7520];

/// The two stores must show a board at this place of the store chosen: the part is no copy, but lies there.
fn part_at<'a>(live: &'a [u8], frozen: &'a [u8], console: u32, choice: u32, at: u32) -> &'a [u8] {
    let refusal = tested::view_refusal(live, frozen, console, choice);
    assert_eq!(refusal, accepted(0));
    let place = tested::view_at(live, frozen, console, choice);
    assert_eq!(place, accepted(at));
    let part = tested::view(live, frozen, console, choice);
    let due = &[live, frozen][choice as usize][at as usize..at as usize + 384];
    assert_eq!(part.as_ptr_range(), due.as_ptr_range());
    part
}

/// The same by the version whose board it is.
fn seen<'a>(
    live: &'a Store,
    frozen: &'a Store,
    console: u32,
    choice: u32,
    version: usize,
) -> &'a [u8] {
    let at = PLACES[version];
    part_at(&live.bytes, &frozen.bytes, console, choice, at)
}

/// A view must be refused with this number: nothing is counted, and the part has length 0.
fn expect_refusal(live: &[u8], frozen: &[u8], console: u32, choice: u32, refusal: u32) {
    let asked = format!("console {console}, choice {choice}");
    let reply = tested::view_refusal(live, frozen, console, choice);
    assert_eq!(reply, refused(refusal), "{asked}");
    let reply = tested::view_at(live, frozen, console, choice);
    assert_eq!(reply, refused(refusal), "{asked}");
    let part = tested::view(live, frozen, console, choice);
    assert_eq!(part.len(), 0, "{asked}");
}

/// A strip with this level and nothing else.
fn level(level: u16) -> StripBytes {
    StripBytes {
        level,
        ..StripBytes::default()
    }
}

/// Console 0 on version 1, in which strip 5 has this level.
fn store_of_level(capacity: usize, level: u8) -> Store {
    let mut store = Store::open(capacity);
    store.say_all(&[&[0x02, 0, 5, 0, level]]);
    store
}

// ---------------------------------------------------------------- the two choices

#[test]
fn each_choice_shows_its_own_store() {
    let live = store_of_level(4, 100);
    let mut frozen = store_of_level(8, 200);
    frozen.say_all(&[&[0x06, 0, 5]]);
    assert_eq!(strip_of(seen(&live, &frozen, 0, LIVE, 1), 5), level(100));
    let called = StripBytes {
        calls: 1,
        ..level(200)
    };
    assert_eq!(strip_of(seen(&live, &frozen, 0, FROZEN, 2), 5), called);
}

/// Either store may stand in either place: the choice says which is shown, and nothing else depends on it.
#[test]
fn the_stores_exchanged() {
    let (one, other) = (store_of_level(2, 100), store_of_level(2, 200));
    let part = seen(&one, &other, 0, LIVE, 1);
    assert_eq!(strip_of(part, 5), level(100));
    let again = seen(&other, &one, 0, FROZEN, 1);
    assert_eq!(part.as_ptr_range(), again.as_ptr_range());
}

/// The board of the printed session in all its bytes: strip 5 starts at 60, with the level at 60 and the calls at 66.
#[test]
fn the_printed_board_beside_its_tape() {
    let mut live = Store::open(64);
    live.say_all(&PRINTED_INPUT[..5]);
    let frozen = resumed(&PRINTED_TAPE).expect("the printed tape is resumed");
    let mut board = [0; 384];
    board[61] = 100;
    board[67] = 1;
    for (console, choice) in [(0, LIVE), (1, LIVE), (0, FROZEN), (1, FROZEN)] {
        assert_eq!(seen(&live, &frozen, console, choice, 3), board);
    }
}

#[test]
fn one_store_as_both() {
    let mut store = store_of_level(4, 100);
    store.say_all(&[&[0x01, 1, 0], &[0x06, 1, 5]]);
    for choice in [LIVE, FROZEN] {
        assert_eq!(strip_of(seen(&store, &store, 0, choice, 1), 5), level(100));
        assert_eq!(strip_of(seen(&store, &store, 1, choice, 2), 5).calls, 1);
        expect_refusal(&store.bytes, &store.bytes, 2, choice, 12);
        expect_refusal(&store.bytes, &store.bytes, 16, choice, 3);
    }
    expect_refusal(&store.bytes, &store.bytes, 0, 2, 5);
    expect_refusal(&[], &[], 0, LIVE, 11);
}

/// Two stores one behind the other: the live one is lent with all that stands behind it, the frozen one with nothing before it.
#[test]
fn two_stores_in_one_buffer() {
    let (first, second) = (store_of_level(2, 100), store_of_level(4, 200));
    let both = [&first.bytes[..store_bytes(2)], &second.bytes].concat();
    let frozen = &both[store_bytes(2)..];
    let part = part_at(&both, frozen, 0, LIVE, PLACES[1]);
    assert_eq!(strip_of(part, 5), level(100));
    let part = part_at(&both, frozen, 0, FROZEN, PLACES[1]);
    assert_eq!(strip_of(part, 5), level(200));
}

/// All 16 consoles apart: console c has set a level on strip c, in version 1 + c, and the highest version is 16.
#[test]
fn every_console_has_its_own_part() {
    let mut live = Store::open(17);
    for console in 1..16 {
        live.say_all(&[&[0x01, console, 0]]);
    }
    for console in 0..16 {
        live.say_all(&[&[0x02, console, console, 0, 10 + console]]);
    }
    let frozen = Store::open(1);
    for console in 0..16 {
        let at = 4256 + 544 * (1 + console);
        let part = part_at(&live.bytes, &frozen.bytes, console, LIVE, at);
        let strips = (0..16).map(|strip| strip_of(part, strip).level);
        let due = (0..16).map(|strip| if strip == console { 10 + strip } else { 0 });
        assert!(strips.map(u32::from).eq(due));
    }
}

/// The board of version 1,023 is the last 384 bytes of the longest store there is.
#[test]
fn the_last_part_of_the_longest_store() {
    let call_on = |parent: usize| {
        Version::Entry(Entry {
            parent,
            code: 0x06,
            strip: 31,
            operand: 0,
        })
    };
    let mut room = Room::opened(1024);
    room.versions.extend((0..1023).map(call_on));
    room.heads[0] = Some(1023);
    room.heads[15] = Some(1022);
    let (long, short) = (encode(&room), Store::open(1));
    assert_eq!(long.len(), 560_768 + 384);
    let part = part_at(&short.bytes, &long, 0, FROZEN, 560_768);
    assert_eq!(strip_of(part, 31).calls, 1023);
    let part = part_at(&long, &short.bytes, 15, LIVE, 560_224);
    assert_eq!(strip_of(part, 31).calls, 1022);
    part_at(&short.bytes, &long, 0, LIVE, 4256);
}

#[test]
fn a_hub_changes_no_view() {
    let mut live = store_of_level(4, 100);
    let frozen = live.clone();
    live.say_all(&[&[0x0C]]);
    let part = seen(&live, &frozen, 0, LIVE, 1);
    assert_eq!(part, seen(&live, &frozen, 0, FROZEN, 1));
}

// ---------------------------------------------------------------- the other store

/// Bytes that hold no sound store: none, other ones, and a store of capacity 4 that is cut or has one bit changed.
fn no_stores() -> Vec<Vec<u8>> {
    let store = store_of_level(4, 50);
    let cut = |length: usize| store.bytes[..length].to_vec();
    let damaged = |place: usize| {
        let mut bytes = store.bytes.clone();
        bytes[place] ^= 1;
        bytes
    };
    vec![
        vec![],
        vec![0],
        vec![0; store_bytes(4)],
        vec![FILLER; store_bytes(4)],
        vec![0xFF; 384],
        cut(4095),
        cut(4096),
        cut(store_bytes(4) - 1),
        damaged(5),    // the number of versions
        damaged(6),    // what is always zero
        damaged(257),  // the head of console 0
        damaged(4301), // the board of version 0
        damaged(4640), // the code of version 1
        damaged(4861), // the level of version 1
        damaged(store_bytes(4) - 1),
    ]
}

#[test]
fn the_other_store_may_hold_anything() {
    let store = store_of_level(4, 100);
    for other in no_stores() {
        let live = part_at(&store.bytes, &other, 0, LIVE, PLACES[1]);
        let frozen = part_at(&other, &store.bytes, 0, FROZEN, PLACES[1]);
        assert_eq!(strip_of(live, 5), level(100));
        assert_eq!(live.as_ptr_range(), frozen.as_ptr_range());
        expect_refusal(&store.bytes, &other, 1, LIVE, 12);
        expect_refusal(&other, &store.bytes, 1, FROZEN, 12);
    }
}

#[test]
fn the_store_chosen_must_be_sound() {
    let store = store_of_level(4, 100);
    for chosen in no_stores() {
        for console in [0, 1, 15] {
            expect_refusal(&chosen, &store.bytes, console, LIVE, 11);
            expect_refusal(&store.bytes, &chosen, console, FROZEN, 11);
            expect_refusal(&chosen, &chosen, console, LIVE, 11);
            expect_refusal(&chosen, &[], console, LIVE, 11);
            expect_refusal(&[], &chosen, console, FROZEN, 11);
        }
    }
}

/// Consoles 0, 1, 2 on versions 1, 2, 5 of a store for 8: the whole store is judged, not only the board that is viewed.
#[test]
fn damage_anywhere_is_seen() {
    let store = store_of_three_consoles(8);
    let in_header = [2, 5, 6, 128, 255, 256, 286, 767, 1000, 4095];
    let in_blocks = [
        (0, 160),
        (1, 32),
        (2, 543),
        (3, 0),
        (4, 8),
        (5, 160),
        (6, 0),
        (7, 543),
    ]
    .map(|(version, place)| 4096 + 544 * version + place);
    for place in in_header.into_iter().chain(in_blocks) {
        let mut damaged = store.clone();
        damaged.bytes[place] ^= 2;
        for (console, version) in [(0, 1), (1, 2), (2, 5)] {
            expect_refusal(&damaged.bytes, &store.bytes, console, LIVE, 11);
            expect_refusal(&store.bytes, &damaged.bytes, console, FROZEN, 11);
            seen(&damaged, &store, console, FROZEN, version);
            seen(&store, &damaged, console, LIVE, version);
        }
    }
}

/// Every byte of a small store but its capacity, which may name a smaller store: the chosen one gives 11, and the other none.
#[test]
fn every_changed_byte_is_seen_in_the_store_chosen_alone() {
    let sound = store_of_level(2, 100);
    let mut changed = sound.clone();
    for place in 2..store_bytes(2) {
        changed.bytes[place] ^= 0x10;
        expect_refusal(&changed.bytes, &sound.bytes, 0, LIVE, 11);
        expect_refusal(&sound.bytes, &changed.bytes, 0, FROZEN, 11);
        seen(&sound, &changed, 0, LIVE, 1);
        seen(&changed, &sound, 0, FROZEN, 1);
        changed.bytes[place] ^= 0x10;
    }
    seen(&changed, &sound, 0, LIVE, 1);
}

/// Bytes behind a store belong to nobody, and a store may fill its buffer.
#[test]
fn the_length_of_the_buffer() {
    let store = store_of_level(2, 100);
    let exact = &store.bytes[..store_bytes(2)];
    assert_eq!(PLACES[1] as usize + 384, exact.len());
    for other in [exact, &store.bytes, &[]] {
        let part = part_at(exact, other, 0, LIVE, PLACES[1]);
        assert_eq!(strip_of(part, 5), level(100));
        part_at(&store.bytes, other, 0, LIVE, PLACES[1]);
        part_at(other, exact, 0, FROZEN, PLACES[1]);
    }
    let cut = &exact[..exact.len() - 1];
    expect_refusal(cut, exact, 0, LIVE, 11);
    expect_refusal(exact, cut, 0, FROZEN, 11);
    part_at(exact, cut, 0, LIVE, PLACES[1]);
}

// ---------------------------------------------------------------- refusals and their order

const TOO_HIGH_CONSOLES: [u32; 9] = [
    16,
    17,
    31,
    255,
    256,
    256 + 15,
    65_536,
    65_536 + 15,
    u32::MAX,
];

/// 2 and 256 among them: the choice is judged as 32 bits.
const OTHER_CHOICES: [u32; 11] = [
    2,
    3,
    255,
    256,
    257,
    65_535,
    65_536,
    65_537,
    1 << 31,
    (1 << 31) + 1,
    u32::MAX,
];

#[test]
fn refusal_3_comes_first() {
    let store = Store::open(1);
    let nothing = &[FILLER; 100][..];
    let pairs = [
        (&store.bytes[..], nothing),
        (nothing, &store.bytes),
        (nothing, nothing),
    ];
    for (live, frozen) in pairs {
        for console in TOO_HIGH_CONSOLES {
            expect_refusal(live, frozen, console, LIVE, 3);
            expect_refusal(live, frozen, console, FROZEN, 3);
            expect_refusal(live, frozen, console, 2, 3);
            expect_refusal(live, frozen, console, 256, 3);
            expect_refusal(live, frozen, console, u32::MAX, 3);
        }
    }
    expect_refusal(&store.bytes, nothing, 15, LIVE, 12);
}

#[test]
fn refusal_5_another_choice() {
    let store = Store::open(1);
    for choice in OTHER_CHOICES {
        expect_refusal(&store.bytes, &store.bytes, 0, choice, 5);
    }
    seen(&store, &store, 0, LIVE, 0);
    seen(&store, &store, 0, FROZEN, 0);
}

/// With another choice no store is chosen, so that none is judged and no console can be absent.
#[test]
fn refusal_5_comes_before_11_and_12() {
    let store = Store::open(1);
    for choice in OTHER_CHOICES {
        expect_refusal(&store.bytes, &store.bytes, 15, choice, 5);
        for bytes in no_stores() {
            expect_refusal(&bytes, &store.bytes, 0, choice, 5);
            expect_refusal(&store.bytes, &bytes, 1, choice, 5);
            expect_refusal(&bytes, &bytes, 15, choice, 5);
        }
    }
}

#[test]
fn refusal_12_in_the_store_chosen_alone() {
    let mut with = store_of_level(4, 100);
    let without = with.clone();
    with.say_all(&[&[0x01, 15, 0], &[0x06, 15, 5]]);
    assert_eq!((with.heads(), without.heads()), (vec![1, 2], vec![1]));
    assert_eq!(strip_of(seen(&with, &without, 15, LIVE, 2), 5).calls, 1);
    expect_refusal(&with.bytes, &without.bytes, 15, FROZEN, 12);
    assert_eq!(strip_of(seen(&without, &with, 15, FROZEN, 2), 5).calls, 1);
    expect_refusal(&without.bytes, &with.bytes, 15, LIVE, 12);
    for console in 1..15 {
        expect_refusal(&with.bytes, &without.bytes, console, LIVE, 12);
        expect_refusal(&with.bytes, &without.bytes, console, FROZEN, 12);
    }
}

// ---------------------------------------------------------------- the debrief

/// A live room in which console 1 has set a level, in version 1, and console 0 a mark, in version 2; and the room resumed from its tape.
fn debrief() -> (Store, Store) {
    let mut live = Store::open(16);
    live.say_all(&[&[0x01, 1, 0], &[0x02, 1, 7, 0, 120], &[0x04, 0, 7, 3]]);
    let frozen = resumed(&live.tape()).expect("a store's tape is resumed");
    (live, frozen)
}

fn marked() -> StripBytes {
    StripBytes {
        marks: 8,
        ..StripBytes::default()
    }
}

/// The frozen room shows what both showed at the pause.
fn expect_as_at_pause(live: &Store, frozen: &Store) {
    assert_eq!(strip_of(seen(live, frozen, 0, FROZEN, 2), 7), marked());
    assert_eq!(strip_of(seen(live, frozen, 1, FROZEN, 1), 7), level(120));
    expect_refusal(&live.bytes, &frozen.bytes, 2, FROZEN, 12);
}

#[test]
fn at_the_pause_both_show_the_same() {
    let (live, frozen) = debrief();
    expect_as_at_pause(&live, &frozen);
    assert_eq!(strip_of(seen(&live, &frozen, 0, LIVE, 2), 7), marked());
    assert_eq!(strip_of(seen(&live, &frozen, 1, LIVE, 1), 7), level(120));
    expect_refusal(&live.bytes, &frozen.bytes, 2, LIVE, 12);
}

/// In the live room 3 is of 2 and 1, 4 is an entry on 1, and 5 is of 4 and 3.
#[test]
fn the_frozen_room_stays_while_the_live_one_goes_on() {
    let (mut live, frozen) = debrief();
    let before = frozen.bytes.clone();
    live.say_all(&[&[0x09, 0, 1], &[0x07, 1, 7], &[0x01, 2, 0], &[0x09, 1, 0]]);
    assert_eq!(live.heads(), [3, 5, 3]);
    expect_as_at_pause(&live, &frozen);
    let merged = || StripBytes {
        level: 120,
        ..marked()
    };
    assert_eq!(strip_of(seen(&live, &frozen, 0, LIVE, 3), 7), merged());
    assert_eq!(strip_of(seen(&live, &frozen, 2, LIVE, 3), 7), merged());
    let alerted = StripBytes {
        alert: (1, 1),
        ..merged()
    };
    assert_eq!(strip_of(seen(&live, &frozen, 1, LIVE, 5), 7), alerted);
    assert!(frozen.bytes == before);
}

/// Version 3 is of 2 and 1.
#[test]
fn a_console_that_went_home_is_still_seen_frozen() {
    let (mut live, frozen) = debrief();
    live.say_all(&[&[0x09, 0, 1], &[0x0B, 1]]);
    assert_eq!(live.heads(), [3]);
    expect_as_at_pause(&live, &frozen);
    expect_refusal(&live.bytes, &frozen.bytes, 1, LIVE, 12);
    // Its number is forked again, and frozen it is the one before.
    live.say_all(&[&[0x01, 1, 0]]);
    expect_as_at_pause(&live, &frozen);
    assert_eq!(strip_of(seen(&live, &frozen, 1, LIVE, 3), 7).marks, 8);
}

#[test]
fn the_frozen_room_outlasts_the_live_one() {
    let (mut live, frozen) = debrief();
    assert_eq!(tested::open(1, &mut live.bytes), accepted(0));
    expect_as_at_pause(&live, &frozen);
    assert_eq!(seen(&live, &frozen, 0, LIVE, 0), [0; 384]);
    live.bytes.fill(FILLER);
    expect_as_at_pause(&live, &frozen);
    expect_refusal(&live.bytes, &frozen.bytes, 0, LIVE, 11);
}

/// A view is borrowed from the stores, so that a command comes between two of them; the next one shows what it wrote.
#[test]
fn a_command_is_seen_through_the_next_view() {
    let mut live = Store::open(4);
    let frozen = live.clone();
    assert_eq!(seen(&live, &frozen, 0, LIVE, 0), [0; 384]);
    live.say_all(&[&[0x02, 0, 5, 0, 100]]);
    assert_eq!(strip_of(seen(&live, &frozen, 0, LIVE, 1), 5), level(100));
    assert_eq!(seen(&live, &frozen, 0, FROZEN, 0), [0; 384]);
    // A refused command changes nothing.
    assert_eq!(live.say(&[0x02, 0, 5, 0x02, 0x59]), 5);
    assert_eq!(strip_of(seen(&live, &frozen, 0, LIVE, 1), 5), level(100));
    live.say_all(&[&[0x02, 0, 5, 0, 0]]);
    assert_eq!(seen(&live, &frozen, 0, LIVE, 2), [0; 384]);
}

/// A fork or fast-forward makes no version: both consoles then show one part.
#[test]
fn consoles_on_one_head_show_one_part() {
    let mut live = store_of_level(4, 100);
    let frozen = live.clone();
    live.say_all(&[&[0x01, 9, 0]]);
    let [one, other] = [0, 9].map(|console| seen(&live, &frozen, console, LIVE, 1));
    assert_eq!(one.as_ptr_range(), other.as_ptr_range());
    live.say_all(&[&[0x06, 9, 5]]);
    let part = seen(&live, &frozen, 0, LIVE, 1);
    assert_ne!(part, seen(&live, &frozen, 9, LIVE, 2));
    live.say_all(&[&[0x0A, 0, 9]]);
    let [one, other] = [0, 9].map(|console| seen(&live, &frozen, console, LIVE, 2));
    assert_eq!(one.as_ptr_range(), other.as_ptr_range());
}

/// The frozen room may be another with each debrief: the next view shows the tape resumed last, and a refused one leaves what was there.
#[test]
fn a_resume_is_seen_through_the_next_view() {
    let live = store_of_level(4, 100);
    let mut frozen = stuck_store();
    seen(&live, &frozen, 0, FROZEN, 6);
    assert_eq!(frozen.resume(&PRINTED_TAPE[..30]), 7);
    seen(&live, &frozen, 0, FROZEN, 6);
    assert_eq!(frozen.resume(&PRINTED_TAPE), 0);
    assert_eq!(strip_of(seen(&live, &frozen, 0, FROZEN, 3), 5).calls, 1);
    assert_eq!(frozen.resume(&live.tape()), 0);
    let part = seen(&live, &frozen, 0, FROZEN, 1);
    assert_eq!(part, seen(&live, &frozen, 0, LIVE, 1));
}

// ---------------------------------------------------------------- the part is the board

/// Heads 6, 6, 3, 5 beside heads 1, 2, 5.
#[test]
fn the_part_is_the_board_that_is_copied_out() {
    let (live, frozen) = (stuck_store(), store_of_three_consoles(6));
    for (console, version) in [(0, 6), (1, 6), (2, 3), (3, 5)] {
        let part = seen(&live, &frozen, console, LIVE, version);
        assert_eq!(part, live.board(console));
    }
    for (console, version) in [(0, 1), (1, 2), (2, 5)] {
        let part = seen(&live, &frozen, console, FROZEN, version);
        assert_eq!(part, frozen.board(console));
    }
}

/// In rooms of every kind, each beside the next one or what is left of it, the calls of a view say the same of it.
#[test]
fn the_calls_of_a_view_fit() {
    let rng = &mut Rng::new(31);
    let stores: Vec<Vec<u8>> = gen::random_rooms(32, 60).iter().map(encode).collect();
    let (mut accepted, mut refused) = (0, 0);
    for stores in stores.windows(2) {
        let frozen = gen::store_beside(rng, &stores[1]);
        let operands = (0..17).flat_map(|console| [(console, LIVE), (console, FROZEN)]);
        for (console, choice) in operands.chain([(0, 2)]) {
            let asked = Asked {
                live: &stores[0],
                frozen: &frozen,
                console,
                choice,
            };
            match views::check(&TESTED, asked) {
                Ok(Ok(_)) => accepted += 1,
                Ok(Err(_)) => refused += 1,
                Err(difference) => panic!("{difference}: console {console}, choice {choice}"),
            }
        }
    }
    assert!(accepted > 300 && refused > 300, "{accepted} {refused}");
}
