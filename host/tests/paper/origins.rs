// Request One: the entry behind a level or heading. Each case is run for both cells; origins and values are worked out by hand from
// the request, with l, a and b for the values of base, receiver and giver.

use super::store::{accepted, resumed, Store};
use room_host::gen;

/// The strip that is looked at, and another.
const STRIP: u8 = 7;
const OTHER_STRIP: u8 = 8;

/// A store in which one of the two cells is looked at.
struct Case {
    store: Store,
    cell: u32,
    /// The code that writes the cell, and the one that writes the other cell.
    code: u8,
    other_code: u8,
}

/// An opened store for the level and one for the heading.
fn both_cells() -> [Case; 2] {
    let case = |cell: u32, code: u8, other_code: u8| Case {
        store: Store::open(16),
        cell,
        code,
        other_code,
    };
    [case(0, 0x02, 0x03), case(1, 0x03, 0x02)]
}

impl Case {
    fn fork(&mut self, new: u8, old: u8) {
        self.store.say_all(&[&[0x01, new, old]]);
    }

    fn set(&mut self, console: u8, value: u8) {
        self.store
            .say_all(&[&[self.code, console, STRIP, 0, value]]);
    }

    /// An entry that doesn't write the cell.
    fn call(&mut self, console: u8) {
        self.store.say_all(&[&[0x06, console, STRIP]]);
    }

    fn merge(&mut self, receiver: u8, giver: u8) {
        self.store.say_all(&[&[0x09, receiver, giver]]);
    }

    /// The cell's origin and value with this console.
    fn expect(&self, console: u32, origin: u32, value: u16) {
        let found = self.store.origin(console, STRIP.into(), self.cell);
        assert_eq!(found, accepted(origin), "cell {}", self.cell);
        let strip = self.store.strip(console, STRIP.into());
        assert_eq!([strip.level, strip.heading][self.cell as usize], value);
    }
}

// ---------------------------------------------------------------- entries

#[test]
fn nothing_entered() {
    let mut store = Store::open(4);
    store.say_all(&[&[0x01, 15, 0], &[0x06, 15, 31]]);
    let cells = (0..32).flat_map(|strip| [(strip, 0), (strip, 1)]);
    for (strip, cell) in cells {
        assert_eq!(store.origin(0, strip, cell), accepted(0));
        assert_eq!(store.origin(15, strip, cell), accepted(0));
    }
}

#[test]
fn an_own_entry() {
    for mut case in both_cells() {
        case.set(0, 100); // version 1
        case.expect(0, 1, 100);
        let other_cell = 1 - case.cell;
        let other = case.store.origin(0, STRIP.into(), other_cell);
        assert_eq!(other, accepted(0));
    }
}

#[test]
fn an_overwritten_entry_is_no_origin() {
    for mut case in both_cells() {
        case.set(0, 100); // 1
        case.set(0, 200); // 2
        case.expect(0, 2, 200);
        case.set(0, 200); // 3, which changes nothing visible
        case.expect(0, 3, 200);
        case.set(0, 100); // 4
        case.expect(0, 4, 100);
    }
}

#[test]
fn entries_that_write_something_else_are_passed_over() {
    for mut case in both_cells() {
        case.set(0, 100); // 1
        let (code, other_code) = (case.code, case.other_code);
        let elsewhere: [&[u8]; 7] = [
            &[code, 0, OTHER_STRIP, 0, 100], // 2
            &[other_code, 0, STRIP, 0, 100], // 3
            &[0x04, 0, STRIP, 1],            // 4
            &[0x05, 0, STRIP, 1],            // 5
            &[0x06, 0, STRIP],               // 6
            &[0x07, 0, STRIP],               // 7
            &[0x08, 0, STRIP],               // 8
        ];
        case.store.say_all(&elsewhere);
        case.expect(0, 1, 100);
        let origin = |strip: u8, cell: u32| case.store.origin(0, strip.into(), cell);
        assert_eq!(origin(OTHER_STRIP, case.cell), accepted(2));
        assert_eq!(origin(STRIP, 1 - case.cell), accepted(3));
        assert_eq!(origin(OTHER_STRIP, 1 - case.cell), accepted(0));
    }
}

#[test]
fn a_0_that_was_entered_has_an_origin() {
    for mut case in both_cells() {
        case.set(0, 0); // 1, which changes nothing visible
        case.expect(0, 1, 0);
        case.set(0, 100); // 2
        case.set(0, 0); // 3
        case.call(0); // 4
        case.expect(0, 3, 0);
    }
}

#[test]
fn a_console_follows_its_own_head() {
    for mut case in both_cells() {
        case.set(0, 100); // 1
        case.fork(1, 0);
        case.set(0, 200); // 2
        case.expect(0, 2, 200);
        case.expect(1, 1, 100);
        case.store.say_all(&[&[0x0A, 1, 0]]);
        case.expect(1, 2, 200);
    }
}

// ---------------------------------------------------------------- merges

#[test]
fn a_merge_leads_to_the_giver() {
    for mut case in both_cells() {
        case.fork(1, 0);
        case.set(1, 100); // 1
        case.call(0); // 2
        case.merge(0, 1); // 3: l 0, a 0, b 100
        case.expect(0, 1, 100);
        case.expect(1, 1, 100);
    }
}

#[test]
fn a_merge_leads_to_the_receiver() {
    for mut case in both_cells() {
        case.fork(1, 0);
        case.set(0, 100); // 1
        case.call(1); // 2
        case.merge(0, 1); // 3: l 0, a 100, b 0
        case.expect(0, 1, 100);
        case.expect(1, 0, 0);
    }
}

#[test]
fn the_receivers_entry_though_the_giver_wrote_the_same_value() {
    for (receiver, giver) in [(0, 1), (1, 0)] {
        for mut case in both_cells() {
            case.fork(1, 0);
            case.set(0, 100); // 1
            case.set(1, 100); // 2
            case.merge(receiver, giver); // 3: l 0, a 100, b 100
            case.expect(receiver.into(), u32::from(receiver) + 1, 100);
        }
    }
}

#[test]
fn the_receivers_entry_where_all_three_differ() {
    for (receiver, giver, value) in [(0, 1, 100), (1, 0, 200)] {
        for mut case in both_cells() {
            case.set(0, 50); // 1
            case.fork(1, 0);
            case.set(0, 100); // 2
            case.set(1, 200); // 3
            case.merge(receiver, giver); // 4
            case.expect(receiver.into(), u32::from(receiver) + 2, value);
        }
    }
}

#[test]
fn the_receivers_side_where_both_show_the_bases_value() {
    for mut case in both_cells() {
        case.set(0, 100); // 1
        case.fork(1, 0);
        case.call(0); // 2
        case.set(1, 100); // 3, what the base shows
        case.merge(0, 1); // 4: l, a, b 100
        case.expect(0, 1, 100);
        case.expect(1, 3, 100);
    }
    for mut case in both_cells() {
        case.set(0, 100); // 1
        case.fork(1, 0);
        case.set(0, 100); // 2
        case.set(1, 100); // 3
        case.merge(1, 0); // 4: l, a, b 100
        case.expect(1, 3, 100);
        case.expect(0, 2, 100);
    }
}

#[test]
fn a_0_entered_by_the_giver() {
    for mut case in both_cells() {
        case.set(0, 100); // 1
        case.fork(1, 0);
        case.call(0); // 2
        case.set(1, 0); // 3
        case.merge(0, 1); // 4: l 100, a 100, b 0
        case.expect(0, 3, 0);
    }
    for mut case in both_cells() {
        case.fork(1, 0);
        case.call(0); // 1
        case.set(1, 0); // 2, what the base shows
        case.merge(0, 1); // 3: l, a, b 0
        case.expect(0, 0, 0);
        case.expect(1, 2, 0);
    }
}

#[test]
fn a_receiver_that_came_back_to_the_bases_value() {
    for mut case in both_cells() {
        case.set(0, 100); // 1
        case.fork(1, 0);
        case.set(0, 200); // 2
        case.set(0, 100); // 3
        case.call(1); // 4
        case.merge(0, 1); // 5: l, a, b 100
        case.expect(0, 3, 100);
        case.set(1, 250); // 6
        case.merge(0, 1); // 7: base 4, l 100, a 100, b 250
        case.expect(0, 6, 250);
    }
}

#[test]
fn a_giver_that_came_back_to_the_bases_value() {
    for mut case in both_cells() {
        case.set(0, 100); // 1
        case.fork(1, 0);
        case.set(1, 200); // 2
        case.set(1, 100); // 3
        case.call(0); // 4
        case.merge(0, 1); // 5: l, a, b 100
        case.expect(0, 1, 100);
    }
}

#[test]
fn a_walk_through_several_merges() {
    for mut case in both_cells() {
        case.fork(1, 0);
        case.fork(2, 0);
        case.set(2, 100); // 1
        case.call(1); // 2
        case.merge(1, 2); // 3: l 0, a 0, b 100
        case.call(0); // 4
        case.merge(0, 1); // 5: l 0, a 0, b 100
        case.expect(0, 1, 100);
        case.call(2); // 6
        case.merge(0, 2); // 7: base 1, l, a, b 100, so by 5 and 3 to 1
        case.expect(0, 1, 100);
        case.set(1, 200); // 8
        case.merge(0, 1); // 9: base 3, l 100, a 100, b 200
        case.expect(0, 8, 200);
        case.set(0, 150); // 10
        case.expect(0, 10, 150);
    }
}

#[test]
fn the_cells_of_a_strip_go_their_own_ways() {
    let mut store = Store::open(16);
    store.say_all(&[
        &[0x01, 1, 0],
        &[0x02, 0, STRIP, 0, 100], // 1
        &[0x03, 1, STRIP, 0, 90],  // 2
        &[0x02, 1, STRIP, 0, 200], // 3
        &[0x09, 0, 1],             // 4: levels 0, 100, 200, headings 0, 0, 90
    ]);
    assert_eq!(store.origin(0, STRIP.into(), 0), accepted(1));
    assert_eq!(store.origin(0, STRIP.into(), 1), accepted(2));
    assert_eq!(store.origin(1, STRIP.into(), 0), accepted(3));
    assert_eq!(store.origin(1, STRIP.into(), 1), accepted(2));
}

// ---------------------------------------------------------------- tapes and long walks

#[test]
fn pause_and_resume_keep_the_origins() {
    for mut case in both_cells() {
        case.set(0, 100); // 1
        case.fork(1, 0);
        case.set(0, 200); // 2
        case.set(0, 100); // 3
        case.set(1, 250); // 4
        case.merge(0, 1); // 5: l 100, a 100, b 250
        case.set(1, 0); // 6
        case.expect(0, 4, 250);
        case.expect(1, 6, 0);
        let again = resumed(&case.store.tape()).expect("a store's tape is resumed");
        case.store = again;
        case.expect(0, 4, 250);
        case.expect(1, 6, 0);
    }
}

/// The entries that write are version 1 and, with merges, version 2, both on strip 1: the walks of console 0 are as long as can be.
#[test]
fn the_longest_walks() {
    let entries = Store::of_room(&gen::chain_of_entries(1024));
    assert_eq!(entries.origin(0, 1, 0), accepted(1));
    assert_eq!(entries.origin(0, 1, 1), accepted(0));
    assert_eq!(entries.origin(0, 2, 0), accepted(0));
    let merges = Store::of_room(&gen::chain_of_merges(1024));
    assert_eq!(merges.origin(0, 1, 0), accepted(1));
    assert_eq!(merges.origin(0, 1, 1), accepted(2));
    assert_eq!(merges.origin(0, 2, 0), accepted(0));
    assert_eq!(merges.origin(1, 1, 0), accepted(0));
    assert_eq!(merges.origin(1, 1, 1), accepted(2));
}
