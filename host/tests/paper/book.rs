// Demand 3: after any list of calls the store says of its consoles what a book says that is kept of the calls alone.

use super::store::Store;
use super::TESTED;
use room_host::book::Book;
use room_host::gen;
use room_host::model::{room_of_tape, tape_of, Room};
use room_host::rng::Rng;

/// A store and the book of its calls; `leaves` counts the accepted ones, `clashes` what merges counted.
struct Kept {
    store: Store,
    book: Book,
    leaves: usize,
    clashes: usize,
}

impl Kept {
    fn open(capacity: usize) -> Kept {
        Kept {
            store: Store::open(capacity),
            book: Book::opened(),
            leaves: 0,
            clashes: 0,
        }
    }

    fn say(&mut self, command: &[u8]) {
        let reply = self.store.reply(command);
        if reply.answer == 0 {
            let clashes = reply.count as usize;
            assert!(clashes <= self.book.most_clashes(command), "{command:02X?}");
            self.book.note(command);
            self.leaves += usize::from(command[0] == 0x0B);
            self.clashes += clashes;
        }
    }

    /// Commands that lead the model to this room, and so must lead the store.
    fn say_all(&mut self, (commands, last): (Vec<Vec<u8>>, Room)) {
        commands.iter().for_each(|command| self.say(command));
        assert_eq!(self.store.tape(), tape_of(&last));
    }

    /// The room that the store holds.
    fn room(&self) -> Room {
        room_of_tape(&self.store.tape()).expect("a store's tape is sound")
    }

    /// Resumes a tape over the room; whether it was accepted.
    fn resume(&mut self, tape: &[u8]) -> bool {
        let is_accepted = self.store.resume(tape) == 0;
        if is_accepted {
            self.book = Book::of_tape(tape);
        }
        is_accepted
    }

    /// Compares the store with the book; how many pairs of consoles, in both orders, have heard the same entries.
    fn check(&self) -> usize {
        match self.book.check(&TESTED, &self.store.bytes) {
            Ok(alike) => alike,
            Err(difference) => panic!("{difference}"),
        }
    }
}

/// What the store's own pause writes, or the tape of another graph, which may be refused.
fn some_tape(rng: &mut Rng, store: &Store) -> Vec<u8> {
    if rng.chance(50) {
        store.tape()
    } else {
        gen::graph_tape(rng)
    }
}

#[test]
fn lists_of_calls_agree_with_the_book() {
    let rng = &mut Rng::new(2);
    let (mut resumes, mut same, mut clashes) = (0, 0, 0);
    for _ in 0..40 {
        let opened = Room::opened(rng.between(1, 40));
        let mut kept = Kept::open(opened.capacity);
        kept.say_all(gen::commands_from(rng, opened, 80));
        same += kept.check();
        let tape = some_tape(rng, &kept.store);
        resumes += usize::from(kept.resume(&tape));
        same += kept.check();
        kept.say_all(gen::commands_from(rng, kept.room(), 80));
        same += kept.check();
        clashes += kept.clashes;
    }
    assert!(resumes > 15 && same > 500, "{resumes} {same}");
    assert!(clashes > 20, "{clashes}");
}

/// Of the levels and headings that both consoles have set since they parted; worked out by hand.
#[test]
fn the_book_bounds_the_clashes() {
    let mut kept = Kept::open(16);
    let mut after = |commands: &[&[u8]]| {
        commands.iter().for_each(|command| kept.say(command));
        let merges = [[0x09, 0, 1], [0x09, 1, 0]];
        merges.map(|merge| kept.book.most_clashes(&merge))
    };
    let level_and_heading: [&[u8]; 2] = [&[0x02, 0, 5, 0, 100], &[0x03, 0, 5, 0, 90]];
    assert_eq!(after(&[&[0x01, 1, 0]]), [0; 2]);
    assert_eq!(after(&level_and_heading), [0; 2], "by 0 alone");
    assert_eq!(after(&[&[0x02, 1, 6, 0, 100], &[0x06, 1, 5]]), [0; 2]);
    assert_eq!(after(&[&[0x02, 1, 5, 0, 100]]), [1; 2], "level 5");
    assert_eq!(after(&[&[0x03, 1, 5, 0, 80]]), [2; 2], "and heading 5");
    assert_eq!(after(&[&[0x09, 0, 1]]), [0; 2], "1 is behind");
    assert_eq!(after(&[&[0x02, 1, 6, 0, 200]]), [0; 2], "0 has not set 6");
    assert_eq!(after(&[&[0x03, 1, 5, 0, 70]]), [1; 2], "heading 5 again");
}

/// The pairs that have heard the same are worked out by hand.
#[test]
fn the_book_drops_the_head_of_one_that_leaves() {
    let mut kept = Kept::open(16);
    let mut after = |commands: &[&[u8]]| {
        commands.iter().for_each(|command| kept.say(command));
        kept.check()
    };
    assert_eq!(after(&[&[0x01, 1, 0], &[0x01, 2, 0]]), 6, "all three");
    assert_eq!(after(&[&[0x06, 1, 0], &[0x04, 2, 0, 1]]), 0);
    assert_eq!(after(&[&[0x09, 1, 2], &[0x0A, 0, 1]]), 2, "0 and 1 on 3");
    assert_eq!(after(&[&[0x0B, 2]]), 2, "2 leaves, on 2");
    assert_eq!(after(&[&[0x0B, 1]]), 0, "0 is alone");
    assert_eq!(after(&[&[0x0B, 0]]), 0, "and stays");
    assert_eq!(after(&[&[0x01, 2, 0]]), 2, "0 and 2 on 3");
    assert_eq!(after(&[&[0x06, 2, 0], &[0x01, 1, 2]]), 2, "2 and 1 on 4");
    assert_eq!(after(&[&[0x0B, 2], &[0x0A, 0, 1]]), 2, "0 and 1 on 4");
    assert_eq!(kept.leaves, 3);
}

/// Long lists in which consoles come and go, with pauses and resumes in between.
#[test]
fn consoles_that_come_and_go_agree_with_the_book() {
    let rng = &mut Rng::new(17);
    let (mut leaves, mut same) = (0, 0);
    for capacity in [6, 40, 80] {
        let mut kept = Kept::open(capacity);
        for _ in 0..6 {
            kept.say_all(gen::turnover_from(rng, kept.room(), 100));
            same += kept.check();
            assert!(kept.resume(&kept.store.tape()));
            same += kept.check();
        }
        leaves += kept.leaves;
    }
    assert!(leaves > 150 && same > 300, "{leaves} {same}");
}

/// With 0C said at every step: what is on whose head, and which pairs have heard the same, is worked out by hand.
#[test]
fn the_book_has_no_hub() {
    let mut kept = Kept::open(16);
    let mut after = |commands: &[&[u8]]| {
        for command in commands {
            kept.say(&[0x0C]);
            kept.say(command);
        }
        kept.check()
    };
    assert_eq!(after(&[&[0x01, 1, 0], &[0x01, 2, 0]]), 6, "all three");
    assert_eq!(after(&[&[0x06, 1, 0], &[0x0A, 2, 1]]), 2, "0 and 2 on 0");
    assert_eq!(after(&[&[0x01, 3, 1], &[0x01, 3, 0]]), 6, "0, 2 and 3 on 0");
    assert_eq!(after(&[&[0x0A, 0, 1], &[0x0A, 3, 0]]), 6, "0, 1 and 3 on 1");
    assert_eq!(after(&[&[0x0B, 1], &[0x09, 3, 2]]), 2, "0 and 3 on 1");
    let tape = kept.store.tape();
    assert!(tape.ends_with(&[0x25, 0x24]));
    assert!(kept.resume(&tape));
    assert_eq!(kept.check(), 2);
}

/// Long lists in rooms that are to have a hub, with pauses and resumes in between.
#[test]
fn rooms_with_a_hub_agree_with_the_book() {
    let rng = &mut Rng::new(30);
    let (mut hubs, mut same) = (0, 0);
    for capacity in [6, 40, 80] {
        let mut kept = Kept::open(capacity);
        for _ in 0..6 {
            kept.say_all(gen::hub_from(rng, kept.room(), 60));
            same += kept.check();
            assert!(kept.resume(&kept.store.tape()));
            same += kept.check();
            hubs += usize::from(kept.room().hub);
        }
    }
    assert!(hubs > 12 && same > 300, "{hubs} {same}");
}
