// Request Three: an accepted merge counts its clashes, the levels and headings in which base, receiver and giver all differ. The numbers
// are worked out by hand from the request, with l, a and b for the values of the base, of console 0 and of console 1.

use super::store::{accepted, refused, resumed, Store, StripBytes, FILLER};
use super::tested;
use room_host::calls::Reply;
use room_host::layout::store_bytes;

/// The codes that write a level and a heading.
const CODES: [u8; 2] = [0x02, 0x03];

/// Console 1 from console 0, and entries on console 0's strip 7.
const FORK: [u8; 3] = [0x01, 1, 0];
const CALL: [u8; 3] = [0x06, 0, 7];
const ALERT: [u8; 3] = [0x07, 0, 7];

/// Console 0 takes from console 1, and the other way round.
const MERGE: [u8; 3] = [0x09, 0, 1];
const MERGE_BACK: [u8; 3] = [0x09, 1, 0];

fn set(code: u8, console: u8, strip: u8, value: u16) -> [u8; 5] {
    let [high, low] = value.to_be_bytes();
    [code, console, strip, high, low]
}

/// A store of so many versions, four of which are used, in which a level or heading is l, a and b.
fn parted_in(capacity: usize, code: u8, strip: u8, [l, a, b]: [u16; 3]) -> Store {
    let mut store = Store::open(capacity);
    store.say_all(&[&set(code, 0, strip, l), &FORK]);
    store.say_all(&[&set(code, 0, strip, a), &set(code, 1, strip, b)]);
    store
}

fn parted(code: u8, strip: u8, values: [u16; 3]) -> Store {
    parted_in(8, code, strip, values)
}

/// What the merge counts, and what the other way round, each in a copy of the store.
fn counted(store: &Store) -> [Reply; 2] {
    [MERGE, MERGE_BACK].map(|merge| store.clone().reply(&merge))
}

/// With each of these values of l, a and b, as levels and as headings, the merge counts so many, and so the other way round.
fn expect_of_each_cell(cases: &[[u16; 3]], clashes: u32) {
    for code in CODES {
        for &values in cases {
            let found = counted(&parted(code, 7, values));
            assert_eq!(found, [accepted(clashes); 2], "{code} {values:?}");
        }
    }
}

// ---------------------------------------------------------------- one cell

#[test]
fn all_three_differ() {
    expect_of_each_cell(&[[50, 100, 200], [200, 100, 50], [100, 200, 150]], 1);
    let with_a_0 = [[0, 100, 200], [100, 0, 200], [100, 200, 0]];
    expect_of_each_cell(&with_a_0, 1);
}

#[test]
fn one_side_has_the_bases_value() {
    expect_of_each_cell(&[[50, 50, 100], [0, 0, 100], [50, 50, 0]], 0);
    expect_of_each_cell(&[[50, 100, 50], [0, 100, 0], [50, 0, 50]], 0);
}

#[test]
fn both_sides_have_the_same_value() {
    expect_of_each_cell(&[[50, 100, 100], [0, 100, 100], [50, 0, 0]], 0);
    expect_of_each_cell(&[[0, 0, 0], [50, 50, 50]], 0);
}

#[test]
fn values_are_compared_in_both_bytes() {
    let swapped = [[0, 0x0100, 0x0001], [0x0001, 0x0100, 0], [0x0101, 1, 256]];
    expect_of_each_cell(&swapped, 1);
    let in_the_high_byte = [[5, 0x0105, 6], [5, 6, 0x0105], [6, 5, 0x0105]];
    expect_of_each_cell(&in_the_high_byte, 1);
    let in_the_low_byte = [[0x0100, 0x0101, 0x0102], [0x0102, 0x0101, 0x0100]];
    expect_of_each_cell(&in_the_low_byte, 1);
    let of_two = [[0x0100, 1, 1], [0x0100, 0x0100, 1], [0x0100, 1, 0x0100]];
    expect_of_each_cell(&of_two, 0);
    let levels = parted(0x02, 7, [0x0001, 0x0101, 0x0201]);
    assert_eq!(counted(&levels), [accepted(1); 2], "the high byte alone");
}

#[test]
fn on_each_strip() {
    for strip in 0..32 {
        for code in CODES {
            let found = counted(&parted(code, strip, [50, 100, 200]));
            assert_eq!(found, [accepted(1); 2], "{code} {strip}");
        }
    }
}

/// The count changes nothing of the rule: the receiver's value stays.
#[test]
fn the_receivers_value_stays() {
    let store = parted(0x02, 7, [50, 100, 200]);
    for (merge, receiver, level) in [(MERGE, 0, 100), (MERGE_BACK, 1, 200)] {
        let mut merged = store.clone();
        assert_eq!(merged.reply(&merge), accepted(1));
        assert_eq!(merged.strip(receiver, 7).level, level);
    }
}

// ---------------------------------------------------------------- which cells

/// Two consoles forked on version 0, and then these commands.
fn store_after(commands: &[&[u8]]) -> Store {
    let mut store = Store::open(16);
    store.say_all(&[&FORK]);
    store.say_all(commands);
    store
}

#[test]
fn level_and_heading_of_a_strip_count_each() {
    let both = store_after(&[
        &[0x02, 0, 7, 0, 100],
        &[0x03, 0, 7, 0, 90],
        &[0x02, 1, 7, 0, 200],
        &[0x03, 1, 7, 0, 180],
    ]);
    assert_eq!(counted(&both), [accepted(2); 2]);
    let one = store_after(&[
        &[0x02, 0, 7, 0, 100],
        &[0x03, 0, 7, 0, 90],
        &[0x02, 1, 7, 0, 200],
        &[0x03, 1, 7, 0, 90],
    ]);
    assert_eq!(counted(&one), [accepted(1); 2], "headings 0, 90, 90");
}

#[test]
fn a_level_and_a_heading_are_two_cells() {
    let one_strip = store_after(&[&[0x02, 0, 7, 0, 100], &[0x03, 1, 7, 0, 90]]);
    assert_eq!(counted(&one_strip), [accepted(0); 2]);
    let next_strip = store_after(&[&[0x03, 0, 7, 0, 100], &[0x02, 1, 8, 0, 90]]);
    assert_eq!(counted(&next_strip), [accepted(0); 2]);
}

#[test]
fn two_strips_are_two_cells() {
    for code in CODES {
        let store = store_after(&[&[code, 0, 7, 0, 100], &[code, 1, 8, 0, 200]]);
        assert_eq!(counted(&store), [accepted(0); 2]);
    }
}

/// On strip 7 marks, calls and alert are 1, 1 and (1, on) in the base, 3, 2 and (2, on) with console 0, 5, 3 and (3, off) with console 1.
fn store_of_other_cells() -> Store {
    let mut store = Store::open(32);
    store.say_all(&[&[0x04, 0, 7, 0], &CALL, &ALERT, &FORK]);
    store.say_all(&[&[0x04, 0, 7, 1], &CALL, &ALERT]);
    store.say_all(&[&[0x04, 1, 7, 2], &[0x06, 1, 7], &[0x06, 1, 7]]);
    store.say_all(&[&[0x07, 1, 7], &[0x07, 1, 7], &[0x08, 1, 7]]);
    let shown = |marks, calls, alert| StripBytes {
        marks,
        calls,
        alert,
        ..StripBytes::default()
    };
    assert_eq!(store.strip(0, 7), shown(3, 2, (2, 1)));
    assert_eq!(store.strip(1, 7), shown(5, 3, (3, 0)));
    store
}

#[test]
fn marks_calls_and_alerts_are_not_counted() {
    let mut store = store_of_other_cells();
    assert_eq!(counted(&store), [accepted(0); 2]);
    store.say_all(&[&[0x02, 0, 7, 0, 100], &[0x02, 1, 7, 0, 200]]);
    assert_eq!(counted(&store), [accepted(1); 2]);
}

/// Marks 1, 3 and 5, calls 1, 2 and 3, alert counts 1, 2 and 3.
#[test]
fn no_other_cell_is_counted_alone() {
    let alone: [&[&[u8]]; 3] = [
        &[&[0x04, 0, 7, 0], &FORK, &[0x04, 0, 7, 1], &[0x04, 1, 7, 2]],
        &[&CALL, &FORK, &CALL, &[0x06, 1, 7], &[0x06, 1, 7]],
        &[&ALERT, &FORK, &ALERT, &[0x07, 1, 7], &[0x07, 1, 7]],
    ];
    for commands in alone {
        let mut store = Store::open(8);
        store.say_all(commands);
        assert_eq!(counted(&store), [accepted(0); 2], "{commands:02X?}");
    }
}

// ---------------------------------------------------------------- 0 to 64

/// The levels and headings of a board: level and heading of strip 0, those of strip 1, and so on.
type Values = [u16; 64];

/// Records of entries that write them all, the first on this parent, each later one on the one before it.
fn records_of(values: &Values, parent: u16, first_version: u16) -> Vec<u8> {
    let parents = [parent].into_iter().chain(first_version..);
    let cells = (0..32).flat_map(|strip| CODES.map(|code| [code, strip]));
    let entries = parents.zip(cells).zip(values);
    entries
        .flat_map(|((parent, cell), value)| {
            let fields = [parent.to_be_bytes(), cell, value.to_be_bytes()];
            [&[0x21], fields.as_flattened()].concat()
        })
        .collect()
}

/// Consoles 0 and 1 on versions 128 and 192, both of which stem from version 64, and one version left.
fn parted_boards(l: &Values, a: &Values, b: &Values) -> Store {
    let versions = [
        records_of(l, 0, 1),
        records_of(a, 64, 65),
        records_of(b, 64, 129),
    ];
    let heads = [0x23, 0, 0, 128, 0x23, 1, 0, 192];
    let tape = [&[0x20, 0, 194], &versions.concat()[..], &heads, &[0x24]].concat();
    resumed(&tape).expect("the tape is sound")
}

/// In the others both sides have the same value, which is not the base's.
#[test]
fn every_number_from_0_to_64() {
    let (l, a) = ([50; 64], [100; 64]);
    for clashes in 0..=64 {
        let (mut at_the_front, mut at_the_back) = (a, a);
        at_the_front[..clashes].fill(200);
        at_the_back[64 - clashes..].fill(200);
        for b in [at_the_front, at_the_back] {
            let found = counted(&parted_boards(&l, &a, &b));
            assert_eq!(found, [accepted(clashes as u32); 2]);
        }
    }
}

#[test]
fn each_cell_alone_and_all_but_it() {
    let (l, a) = ([50; 64], [100; 64]);
    for cell in 0..64 {
        let (mut alone, mut all_but) = (a, [200; 64]);
        alone[cell] = 200;
        all_but[cell] = l[cell];
        let found = counted(&parted_boards(&l, &a, &alone));
        assert_eq!(found, [accepted(1); 2], "{cell}");
        let found = counted(&parted_boards(&l, &a, &all_but));
        assert_eq!(found, [accepted(63); 2], "{cell}");
    }
}

#[test]
fn all_64_by_commands() {
    let mut store = store_of_64(130);
    assert_eq!(store.version_count(), 129);
    assert_eq!(counted(&store), [accepted(64); 2]);
    assert_eq!(store.reply(&MERGE), accepted(64));
    let all_of_0 = [0, 1, 0, 1, 0, 0, 0, 0, 0, 0, 0, 0].repeat(32);
    assert_eq!(store.board(0), all_of_0);
}

/// On version 0 console 0 enters 1 in each level and heading, console 1 enters 256.
fn store_of_64(capacity: usize) -> Store {
    let mut store = Store::open(capacity);
    store.say_all(&[&FORK]);
    for strip in 0..32 {
        for code in CODES {
            store.say_all(&[&set(code, 0, strip, 1), &set(code, 1, strip, 256)]);
        }
    }
    store
}

// ---------------------------------------------------------------- which base

#[test]
fn the_base_is_the_lowest_common_version() {
    for code in CODES {
        let mut store = store_after(&[&[code, 0, 7, 0, 100], &[code, 1, 7, 0, 200]]);
        assert_eq!(store.reply(&MERGE), accepted(1), "base 0: 0, 100, 200");
        store.say_all(&[&[0x06, 1, 7]]); // 4
        assert_eq!(store.reply(&MERGE), accepted(0), "base 2: 200, 100, 200");
        store.say_all(&[&[code, 1, 7, 0, 250]]); // 6
        assert_eq!(store.reply(&MERGE), accepted(1), "base 4: 200, 100, 250");
        store.say_all(&[&[code, 1, 7, 0, 100]]); // 8
        assert_eq!(store.reply(&MERGE), accepted(0), "base 6: 250, 100, 100");
        assert_eq!(store.heads(), [9, 8]);
    }
}

#[test]
fn the_base_is_a_merge() {
    for code in CODES {
        let mut store = store_after(&[&[code, 0, 7, 0, 100], &[code, 1, 7, 0, 200]]);
        assert_eq!(store.reply(&MERGE), accepted(1)); // 3, which shows 100
        store.say_all(&[&[0x0A, 1, 0]]);
        let after = |a: u8, b: u8| {
            let mut parted = store.clone();
            parted.say_all(&[&[code, 0, 7, 0, a], &[code, 1, 7, 0, b]]);
            counted(&parted)
        };
        assert_eq!(after(150, 200), [accepted(1); 2], "100, 150, 200");
        assert_eq!(after(0, 200), [accepted(1); 2], "100, 0, 200");
        assert_eq!(after(100, 200), [accepted(0); 2], "100, 100, 200");
    }
}

/// A clash counts in the merge that meets it: what the receiver kept is then one value, whoever takes it.
#[test]
fn a_clash_is_counted_once() {
    for code in CODES {
        let mut store = store_after(&[
            &[0x01, 2, 0],
            &[code, 0, 7, 0, 100],
            &[code, 1, 7, 0, 200],
            &[0x06, 2, 7],
        ]);
        assert_eq!(store.reply(&MERGE), accepted(1));
        assert_eq!(store.reply(&[0x09, 2, 0]), accepted(0), "0, 0, 100");
        assert_eq!(store.heads(), [4, 2, 5]);
    }
}

// ---------------------------------------------------------------- everything else counts 0

#[test]
fn every_other_command_counts_0() {
    let mut store = store_of_64(140);
    assert_eq!(store.reply(&MERGE), accepted(64));
    let commands: [&[u8]; 10] = [
        &[0x01, 2, 0],
        &[0x02, 0, 7, 0, 100],
        &[0x03, 0, 7, 0, 100],
        &[0x04, 0, 7, 1],
        &[0x05, 0, 7, 1],
        &[0x06, 0, 7],
        &[0x07, 0, 7],
        &[0x08, 0, 7],
        &[0x0A, 1, 0],
        &[0x0B, 1],
    ];
    for command in commands {
        let reply = store.clone().reply(command);
        assert_eq!(reply, accepted(0), "{command:02X?}");
    }
    store.say_all(&[&[0x02, 1, 7, 0, 100]]);
    assert_eq!(store.reply(&MERGE), accepted(1), "256, 1, 100");
}

#[test]
fn a_refused_merge_counts_0() {
    let mut full = parted_in(4, 0x02, 7, [50, 100, 200]);
    assert_eq!(full.reply(&MERGE), refused(18));
    let mut store = parted_in(5, 0x02, 7, [50, 100, 200]);
    for (merge, refusal) in [([0x09, 0, 16], 3), ([0x09, 0, 0], 6), ([0x09, 0, 2], 12)] {
        assert_eq!(store.reply(&merge), refused(refusal));
    }
    // A spare byte: the bytes hold no store.
    store.bytes[4] = 1;
    assert_eq!(store.reply(&MERGE), refused(11));
    store.bytes[4] = 0;
    assert_eq!(store.reply(&MERGE), accepted(1));
    assert_eq!(store.reply(&MERGE), refused(14));
    assert_eq!(store.reply(&MERGE_BACK), refused(15));
}

/// The paper's case of 17, with levels that differ; 2 takes 100 from 0, and then meets 200.
#[test]
fn refusal_17_counts_0() {
    let mut store = store_after(&[&[0x01, 2, 0]]);
    store.say_all(&[&[0x02, 0, 7, 0, 100], &[0x02, 1, 7, 0, 200], &[0x06, 2, 7]]);
    assert_eq!(store.reply(&[0x09, 2, 0]), accepted(0), "0, 0, 100");
    assert_eq!(store.reply(&[0x09, 2, 1]), accepted(1), "0, 100, 200");
    assert_eq!(store.reply(&MERGE), refused(17));
    assert_eq!(store.reply(&MERGE_BACK), refused(17));
}

#[test]
fn resume_reports_none() {
    let tape = [
        0x20, 0, 8, //
        0x21, 0, 0, 0x02, 7, 0, 100, // 1
        0x21, 0, 0, 0x02, 7, 0, 200, // 2
        0x22, 0, 1, 0, 2, // 3: 0, 100, 200
        0x21, 0, 2, 0x02, 7, 0, 150, // 4
        0x23, 0, 0, 3, //
        0x23, 1, 0, 4, //
        0x24,
    ];
    let mut lent = vec![FILLER; store_bytes(8)];
    assert_eq!(tested::resume(&tape, &mut lent), accepted(0));
    let store = resumed(&tape).expect("the tape is sound");
    assert_eq!(store.strip(0, 7).level, 100);
    assert_eq!(counted(&store), [accepted(1); 2], "base 2: 200, 100, 150");
}
