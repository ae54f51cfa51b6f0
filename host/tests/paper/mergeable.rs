// Request Four: which two can meet. Answers are worked out by hand from the paper's refusals of a merge and a fast-forward: heads are
// told as versions, consoles rising, and "3 and 5 have 1" says that 1 is the common version of the heads 3 and 5. In rooms that are too
// many for that the commands must bear them out.

use super::cases::{store_of_three_consoles, stuck_store};
use super::store::{accepted, refused, resumed, Store, FILLER};
use super::{tested, TESTED};
use room_host::calls::verdict_in;
use room_host::gen;
use room_host::layout::store_bytes;
use room_host::model::{Entry, Room, Verdict, Version};
use room_host::rng::Rng;
use room_host::verdicts;

const ALL_AGREE: u32 = 0;
const STUCK: u32 = 256;

fn merge(receiver: u32, giver: u32) -> u32 {
    2 * 256 + 16 * receiver + giver
}

fn fast_forward(receiver: u32, giver: u32) -> u32 {
    3 * 256 + 16 * receiver + giver
}

/// The store must answer this number, and so must a store that is resumed from its tape.
fn expect(store: &Store, number: u32) {
    assert_eq!(store.mergeable(), accepted(number));
    let again = resumed(&store.tape()).expect("a store's tape is resumed");
    assert_eq!(again.mergeable(), accepted(number));
}

// ---------------------------------------------------------------- all agree

#[test]
fn one_console_alone_agrees() {
    let mut store = Store::open(3);
    expect(&store, ALL_AGREE);
    store.say_all(&[&[0x06, 0, 0], &[0x06, 0, 0]]);
    expect(&store, ALL_AGREE);
    expect(&Store::open(1), ALL_AGREE);
}

#[test]
fn several_consoles_on_one_head_agree() {
    let mut store = Store::open(4);
    store.say_all(&[&[0x01, 15, 0], &[0x01, 3, 15], &[0x01, 1, 0]]);
    expect(&store, ALL_AGREE);
    store.say_all(&[&[0x06, 3, 0]]);
    assert_eq!(store.heads(), [0, 0, 1, 0]);
    expect(&store, fast_forward(0, 3));
    store.say_all(&[&[0x0A, 0, 3], &[0x0A, 1, 3], &[0x0A, 15, 1]]);
    assert_eq!(store.heads(), [1; 4]);
    expect(&store, ALL_AGREE);
}

#[test]
fn sixteen_consoles_on_one_head_agree() {
    let mut store = Store::open(2);
    for console in 1..16 {
        store.say_all(&[&[0x01, console, console - 1]]);
        expect(&store, ALL_AGREE);
    }
    store.say_all(&[&[0x06, 15, 0]]);
    expect(&store, fast_forward(0, 15));
    for console in 0..15 {
        store.say_all(&[&[0x0A, console, 15]]);
    }
    expect(&store, ALL_AGREE);
}

// ---------------------------------------------------------------- a pair

/// The numbers written out: 512 and 768, and 16 for each receiver.
#[test]
fn two_consoles() {
    let after = |commands: &[&[u8]]| {
        let mut store = Store::open(8);
        store.say_all(&[&[0x01, 1, 0]]);
        store.say_all(commands);
        store.mergeable()
    };
    assert_eq!(after(&[]), accepted(0));
    assert_eq!(after(&[&[0x06, 1, 0]]), accepted(769), "0 from 1");
    assert_eq!(after(&[&[0x06, 0, 0]]), accepted(784), "1 from 0");
    let both: [&[u8]; 2] = [&[0x06, 1, 0], &[0x06, 0, 0]];
    assert_eq!(after(&both), accepted(513), "0 from 1");
    let merged: [&[u8]; 3] = [&[0x06, 1, 0], &[0x06, 0, 0], &[0x09, 0, 1]];
    assert_eq!(after(&merged), accepted(784), "1 from 0");
    let merged: [&[u8]; 3] = [&[0x06, 1, 0], &[0x06, 0, 0], &[0x09, 1, 0]];
    assert_eq!(after(&merged), accepted(769), "0 from 1");
}

/// Heads 1, 1, 0: 0 and 1 are on one version and 2 is behind both, so that 14 refuses 0 and 1 everything.
#[test]
fn the_first_receiver_is_2() {
    let mut store = Store::open(4);
    store.say_all(&[&[0x01, 2, 0], &[0x06, 0, 0], &[0x01, 1, 0]]);
    assert_eq!(store.heads(), [1, 1, 0]);
    expect(&store, fast_forward(2, 0));
    for (receiver, giver) in [(0, 1), (0, 2), (1, 0), (1, 2)] {
        assert_eq!(store.say(&[0x09, receiver, giver]), 14);
        assert_eq!(store.say(&[0x0A, receiver, giver]), 14);
    }
    assert_eq!(store.say(&[0x09, 2, 0]), 15);
    assert_eq!(store.say(&[0x0A, 2, 0]), 0);
    expect(&store, ALL_AGREE);
}

/// Heads 1, 0, 2: 1 is behind both. With givers before receivers 1 from 0 would be the first, with fast-forwards before merges too.
#[test]
fn receivers_come_before_givers() {
    let mut store = Store::open(4);
    store.say_all(&[&[0x01, 1, 0], &[0x01, 2, 0], &[0x06, 0, 0], &[0x06, 2, 0]]);
    assert_eq!(store.heads(), [1, 0, 2]);
    expect(&store, merge(0, 2));
    assert_eq!(store.say(&[0x0A, 0, 1]), 14);
    assert_eq!(store.clone().say(&[0x0A, 1, 0]), 0);
    assert_eq!(store.say(&[0x09, 0, 2]), 0);
}

/// Heads 1, 2, 3: 0 is behind 1 and apart from 2, which it could merge.
#[test]
fn a_fast_forward_from_a_lower_giver_comes_first() {
    let mut store = Store::open(6);
    store.say_all(&[&[0x01, 2, 0], &[0x06, 0, 0], &[0x01, 1, 0]]);
    store.say_all(&[&[0x06, 1, 0], &[0x06, 2, 0]]);
    assert_eq!(store.heads(), [1, 2, 3]);
    expect(&store, fast_forward(0, 1));
    assert_eq!(store.clone().say(&[0x09, 0, 2]), 0);
}

/// Heads 2, 3, 1: 2 is behind 0 and 1, who are apart. 0 merges 1 before 2 follows.
#[test]
fn a_merge_of_lower_consoles_comes_first() {
    let mut store = Store::open(6);
    store.say_all(&[&[0x06, 0, 0], &[0x01, 1, 0], &[0x01, 2, 0]]);
    store.say_all(&[&[0x06, 0, 0], &[0x06, 1, 0]]);
    assert_eq!(store.heads(), [2, 3, 1]);
    expect(&store, merge(0, 1));
    store.say_all(&[&[0x09, 0, 1]]);
    assert_eq!(store.heads(), [4, 3, 1]);
    expect(&store, fast_forward(1, 0));
    store.say_all(&[&[0x0A, 1, 0]]);
    expect(&store, fast_forward(2, 0));
    store.say_all(&[&[0x0A, 2, 0]]);
    expect(&store, ALL_AGREE);
}

/// A number lower than another is no ancestor of it: heads 2, 1, apart.
#[test]
fn a_lower_number_is_not_behind() {
    let mut store = Store::open(4);
    store.say_all(&[&[0x01, 1, 0], &[0x06, 1, 0], &[0x06, 0, 0]]);
    assert_eq!(store.heads(), [2, 1]);
    expect(&store, merge(0, 1));
}

// ---------------------------------------------------------------- 17 in the way

/// Heads 1, 2, 5: 2 has heard 0 and 1. 1 and 5 have 1, 2 and 5 have 2, which are apart: 0 can't merge 1, but is behind 2.
#[test]
fn after_17_a_fast_forward() {
    let mut store = store_of_three_consoles(64);
    assert_eq!(store.say(&[0x09, 0, 1]), 17);
    expect(&store, fast_forward(0, 2));
    store.say_all(&[&[0x0A, 0, 2]]);
    assert_eq!(store.heads(), [5, 2, 5]);
    // 1 is behind the others, who agree.
    expect(&store, fast_forward(1, 0));
}

/// Heads 6, 2, 5: 6 is an entry on 1. 6 and 5 have 1, 2 and 5 have 2: 17 for 0 and 1. For 0 and 2 the third is 1: 2 and 6 have 0, 2 and 5
/// have 2, and 0 is behind 2.
#[test]
fn after_17_a_merge() {
    let mut store = store_of_three_consoles(64);
    store.say_all(&[&[0x06, 0, 0]]);
    assert_eq!(store.heads(), [6, 2, 5]);
    expect(&store, merge(0, 2));
    assert_eq!(store.say(&[0x09, 0, 1]), 17);
    assert_eq!(store.say(&[0x0A, 0, 1]), 16);
    assert_eq!(store.say(&[0x09, 0, 2]), 0);
}

/// Heads 1, 1, 2, 5: as the three consoles, but that 0 and 1 are on 1, 2 on 2 and 3 on 5. 0 can't merge 2 for 17, nor follow 1; it is
/// behind 3.
#[test]
fn after_17_and_14() {
    let mut store = Store::open(16);
    store.say_all(&[&[0x01, 2, 0], &[0x01, 3, 0]]);
    store.say_all(&[&[0x06, 0, 0], &[0x06, 2, 0], &[0x06, 3, 0]]);
    store.say_all(&[&[0x09, 3, 0], &[0x09, 3, 2], &[0x01, 1, 0]]);
    assert_eq!(store.heads(), [1, 1, 2, 5]);
    assert_eq!(store.say(&[0x09, 0, 1]), 14);
    assert_eq!(store.say(&[0x09, 0, 2]), 17);
    expect(&store, fast_forward(0, 3));
}

// ---------------------------------------------------------------- stuck

/// The paper's: heads 6, 6, 3, 5. 6 and 3 have 2, 6 and 5 have 4, 3 and 5 have 1, and each two of these are apart.
#[test]
fn the_stuck_room_is_stuck() {
    let store = stuck_store();
    assert_eq!(store.heads(), [6, 6, 3, 5]);
    expect(&store, STUCK);
}

/// Before its last steps it is not. Heads 2, 4, 3, 5: 0 is on 2, which 3 has merged, 1 on 4, which 5 has. 0 and 1 can still merge: 2 and 3
/// have 2, 4 and 3 have 0, which is behind; 2 and 5 have 0, 4 and 5 have 4.
#[test]
fn the_steps_to_the_stuck_room() {
    let mut store = Store::open(64);
    store.say_all(&[&[0x01, 1, 0], &[0x01, 2, 0], &[0x01, 3, 0]]);
    let steps: [(&[u8], u32); 8] = [
        (&[0x06, 2, 0], fast_forward(0, 2)), // heads 0, 0, 1, 0
        (&[0x0A, 3, 2], fast_forward(0, 2)), // 0, 0, 1, 1
        (&[0x06, 0, 0], merge(0, 2)),        // 2, 0, 1, 1: 1 is behind 0
        (&[0x09, 2, 0], fast_forward(0, 2)), // 2, 0, 3, 1
        (&[0x06, 1, 0], merge(0, 1)),        // 2, 4, 3, 1
        (&[0x09, 3, 1], merge(0, 1)),        // 2, 4, 3, 5
        (&[0x09, 0, 1], fast_forward(1, 0)), // 6, 4, 3, 5
        (&[0x0A, 1, 0], STUCK),              // 6, 6, 3, 5
    ];
    expect(&store, ALL_AGREE);
    for (command, number) in steps {
        store.say_all(&[command]);
        expect(&store, number);
    }
}

/// An entry changes no common version. Alone on its head, its console is as stuck as before; else those on that head are behind it now.
#[test]
fn an_entry_in_a_stuck_room() {
    let mut alone = stuck_store();
    alone.say_all(&[&[0x06, 3, 0]]);
    assert_eq!(alone.heads(), [6, 6, 3, 7]);
    expect(&alone, STUCK);
    let mut shared = stuck_store();
    shared.say_all(&[&[0x06, 0, 0]]);
    assert_eq!(shared.heads(), [7, 6, 3, 5]);
    expect(&shared, fast_forward(1, 0));
    shared.say_all(&[&[0x06, 1, 0]]);
    // 7 and 8 have 6, and what 2 and 3 have with one they have with the other.
    assert_eq!(shared.heads(), [7, 8, 3, 5]);
    expect(&shared, merge(0, 1));
}

#[test]
fn forks_and_leaves_keep_a_room_stuck() {
    let mut store = stuck_store();
    for console in 4..16 {
        store.say_all(&[&[0x01, console, console % 4]]);
        expect(&store, STUCK);
    }
    for console in 1..13 {
        store.say_all(&[&[0x0B, console]]);
        expect(&store, STUCK);
    }
    assert_eq!(store.heads(), [6, 6, 3, 5], "of 0, 13, 14 and 15");
}

/// Only 14 and 15 can meet: the stuck room's 3 on head 5 is 14 now, and 15 is forked from it.
#[test]
fn the_highest_consoles() {
    let mut store = stuck_store();
    store.say_all(&[&[0x01, 14, 3], &[0x0B, 3], &[0x01, 15, 14]]);
    assert_eq!(store.heads(), [6, 6, 3, 5, 5]);
    expect(&store, STUCK);

    let mut above = store.clone();
    above.say_all(&[&[0x06, 15, 0]]); // 15 on 7, ahead of 14
    expect(&above, fast_forward(14, 15));

    store.say_all(&[&[0x06, 14, 0]]); // 14 on 7, ahead of 15
    expect(&store, fast_forward(15, 14));

    store.say_all(&[&[0x06, 15, 0]]); // 15 on 8, 7 and 8 have 5
    expect(&store, merge(14, 15));

    store.say_all(&[&[0x09, 14, 15]]);
    expect(&store, fast_forward(15, 14));
    store.say_all(&[&[0x0A, 15, 14]]);
    assert_eq!(store.heads(), [6, 6, 3, 9, 9]);
    expect(&store, STUCK);
}

/// The rooms of the benchmark, whose makers say why no two can meet.
#[test]
fn the_largest_rooms_in_which_no_two_can_meet() {
    let reply = |room: &Room| Store::of_room(room).mergeable();
    assert_eq!(reply(&gen::agreeing_room(1024)), accepted(ALL_AGREE));
    assert_eq!(reply(&gen::stuck_room(1024)), accepted(STUCK));
    assert_eq!(reply(&gen::stuck_apart_room(1024)), accepted(STUCK));
}

// ---------------------------------------------------------------- full rooms

#[test]
fn a_merge_is_named_though_no_version_is_left() {
    let commands: [&[u8]; 4] = [&[0x01, 1, 0], &[0x01, 2, 0], &[0x06, 0, 0], &[0x06, 1, 0]];
    let mut full = Store::open(3);
    full.say_all(&commands);
    assert_eq!(full.heads(), [1, 2, 0]);
    expect(&full, merge(0, 1));
    assert_eq!(full.say(&[0x09, 0, 1]), 18);
    assert_eq!(full.say(&[0x0A, 2, 0]), 0, "which comes later");
    let mut roomier = Store::open(4);
    roomier.say_all(&commands);
    expect(&roomier, merge(0, 1));
    assert_eq!(roomier.say(&[0x09, 0, 1]), 0);
}

#[test]
fn a_full_room_can_be_anything() {
    let mut store = Store::open(1);
    store.say_all(&[&[0x01, 9, 0]]);
    expect(&store, ALL_AGREE);
    let mut behind = Store::open(2);
    behind.say_all(&[&[0x01, 9, 0], &[0x06, 0, 0]]);
    expect(&behind, fast_forward(9, 0));
    behind.say_all(&[&[0x0A, 9, 0]]);
    expect(&behind, ALL_AGREE);
    // 17 comes before 18.
    expect(&store_of_three_consoles(6), fast_forward(0, 2));
}

/// A chain of calls by console 0 and one last call by console 15, with as many versions as a store can have.
#[test]
fn a_merge_is_named_where_no_store_has_a_version_more() {
    let call_on = |parent: usize| {
        Version::Entry(Entry {
            parent,
            code: 0x06,
            strip: 0,
            operand: 0,
        })
    };
    let mut room = Room::opened(1024);
    room.versions.extend((0..1022).map(call_on));
    room.versions.push(call_on(0));
    room.heads[0] = Some(1022);
    room.heads[15] = Some(1023);
    let mut store = Store::of_room(&room);
    assert_eq!(store.mergeable(), accepted(merge(0, 15)));
    assert_eq!(store.say(&[0x09, 0, 15]), 18);
}

// ---------------------------------------------------------------- absent consoles

#[test]
fn an_absent_console_is_in_no_pair() {
    let mut store = Store::open(4);
    store.say_all(&[&[0x01, 1, 0], &[0x01, 7, 0], &[0x06, 1, 0], &[0x0A, 7, 1]]);
    assert_eq!(store.heads(), [0, 1, 1]);
    expect(&store, fast_forward(0, 1));
    store.say_all(&[&[0x0B, 1]]);
    assert_eq!(store.heads(), [0, 1], "of 0 and 7");
    expect(&store, fast_forward(0, 7));
    store.say_all(&[&[0x06, 0, 0]]);
    expect(&store, merge(0, 7));
    store.say_all(&[&[0x01, 1, 0]]);
    assert_eq!(store.heads(), [2, 2, 1], "1 is back, on the head of 0");
    expect(&store, merge(0, 7));
    store.say_all(&[&[0x09, 7, 1], &[0x0A, 0, 7], &[0x0B, 7]]);
    assert_eq!(store.heads(), [3, 2], "of 0 and 1");
    expect(&store, fast_forward(1, 0));
    store.say_all(&[&[0x0B, 1]]);
    expect(&store, ALL_AGREE);
}

// ---------------------------------------------------------------- no store

#[test]
fn bytes_without_a_store_give_11() {
    let mergeable = tested::mergeable;
    let store = Store::open(2);
    assert_eq!(mergeable(&[]), refused(11));
    for length in [1, 2, 4, 255, 4095, 4096, 4097, store_bytes(2) - 1] {
        assert_eq!(mergeable(&store.bytes[..length]), refused(11));
    }
    assert_eq!(mergeable(&store.bytes[..store_bytes(2)]), accepted(0));
    assert_eq!(mergeable(&vec![0; store_bytes(1024)]), refused(11));
    assert_eq!(mergeable(&vec![FILLER; store_bytes(1024)]), refused(11));
}

/// One byte of a stuck room changed: in what is always zero, in the table of commons, in an ancestry row and in a board.
#[test]
fn a_damaged_store_gives_11() {
    let store = stuck_store();
    let block_6 = 4096 + 544 * 6;
    for place in [6, 256 + 5, 256 + 15, 4095, block_6 + 32, block_6 + 543] {
        let mut damaged = store.clone();
        damaged.bytes[place] ^= 1;
        assert_eq!(damaged.mergeable(), refused(11), "{place}");
    }
    assert_eq!(store.mergeable(), accepted(STUCK));
}

// ---------------------------------------------------------------- the answer in words, and what follows from it

#[test]
fn a_reply_in_words() {
    assert_eq!(verdict_in(accepted(0)), Some(Verdict::AllAgree));
    assert_eq!(verdict_in(accepted(256)), Some(Verdict::Stuck));
    let (receiver, giver) = (0, 1);
    let merge = Verdict::Merge { receiver, giver };
    assert_eq!(verdict_in(accepted(513)), Some(merge));
    let (receiver, giver) = (15, 14);
    let follows = Verdict::FastForward { receiver, giver };
    assert_eq!(verdict_in(accepted(1022)), Some(follows));
    // Neither a kind with a pair that has none, nor a console with itself, nor a fifth kind.
    for number in [1, 255, 257, 511, 512, 512 + 17, 768, 1023, 1024, u32::MAX] {
        assert_eq!(verdict_in(accepted(number)), None, "{number}");
    }
    assert_eq!(verdict_in(refused(11)), None);
}

/// In rooms of every kind the commands themselves bear the answer out.
#[test]
fn the_commands_bear_the_answer_out() {
    let rng = &mut Rng::new(23);
    let stuck = (0..6).map(|_| gen::some_stuck_room(rng)).collect();
    let rooms = [gen::random_rooms(24, 60), stuck].concat();
    let mut met = [0; 4];
    for room in rooms {
        let store = Store::of_room(&room);
        if let Err(difference) = verdicts::check(&TESTED, &store.bytes) {
            panic!("{difference}: {room:?}");
        }
        met[store.mergeable().count as usize / 256] += 1;
    }
    assert!(met.iter().all(|&met| met > 3), "{met:?}");
}
