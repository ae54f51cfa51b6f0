// Request Eight, secrecy: two stores run side by side from one list of commands, in the second of which each entry that no student sees
// is another one. All answers and every student's pane must be the same. That the same look at two stores finds a difference is seen
// by the instructor's panes, and by lists that differ in what a student does see.

use super::store::{Store, FILLER};
use super::tested;
use room_host::calls::Reply;
use room_host::gen;
use room_host::implementations::CopyOut;
use room_host::model::Room;
use room_host::rng::Rng;
use room_host::secrets;

const CONSOLES: u32 = 16;

const CAPACITIES: [usize; 6] = [4, 12, 24, 40, 64, 64];
/// The length of a list, and how many of its commands lie between two pauses.
const STEPS: usize = 80;
const STEPS_TO_PAUSE: usize = 12;

/// What two stores showed beside each other after all their calls.
#[derive(Debug, Default)]
struct Seen {
    replaced: usize,
    pauses: usize,
    replies_apart: usize,
    /// Pairs of panes, refusals with them.
    panes: usize,
    student_panes_apart: usize,
    instructor_panes_apart: usize,
}

/// Two running rooms of one capacity, and what was seen of them so far.
struct Twins {
    one: Store,
    other: Store,
    seen: Seen,
}

impl Twins {
    fn open(capacity: usize, seen: Seen) -> Twins {
        let one = Store::open(capacity);
        let other = one.clone();
        Twins { one, other, seen }
    }

    /// A command to each.
    fn step(&mut self, command: &[u8], other_command: &[u8]) {
        let reply = self.one.reply(command);
        let is_apart = reply != self.other.reply(other_command);
        self.seen.replies_apart += usize::from(is_apart);
        let is_replaced = reply.answer == 0 && command != other_command;
        self.seen.replaced += usize::from(is_replaced);
        self.look();
    }

    /// Both are paused, and each is resumed from its own tape.
    fn pause(&mut self) {
        for store in [&mut self.one, &mut self.other] {
            let tape = store.tape();
            store.bytes.fill(FILLER);
            assert_eq!(store.resume(&tape), 0);
        }
        self.seen.pauses += 1;
        self.look();
    }

    /// Compares all panes.
    fn look(&mut self) {
        for console in 0..CONSOLES {
            let is_apart = |pane: CopyOut| {
                let of_one = pane_of(&self.one.bytes, pane, console);
                of_one != pane_of(&self.other.bytes, pane, console)
            };
            let student = is_apart(tested::student_pane);
            let instructor = is_apart(tested::instructor_pane);
            self.seen.panes += 1;
            self.seen.student_panes_apart += usize::from(student);
            self.seen.instructor_panes_apart += usize::from(instructor);
        }
    }
}

/// What a console's pane replies and shows.
fn pane_of(store: &[u8], pane: CopyOut, console: u32) -> (Reply, [u8; 384]) {
    let mut output = [0; 384];
    let reply = pane(store, console, &mut output);
    (reply, output)
}

/// Lists of commands for rooms of several kinds, each with its capacity: with a hub, with consoles that come and go, and others.
fn lists(rng: &mut Rng) -> Vec<(usize, Vec<Vec<u8>>)> {
    let mut lists = vec![];
    for capacity in CAPACITIES {
        let opened = Room::opened(capacity);
        lists.push((capacity, gen::hub_sequence(rng, capacity, STEPS).0));
        lists.push((capacity, gen::turnover_from(rng, opened, STEPS).0));
        lists.push((capacity, gen::command_sequence(rng, capacity, STEPS).0));
    }
    lists
}

/// Runs the lists beside what becomes of them where each command is replaced.
fn seen_beside(seed: u64, replace: fn(&mut Rng, &[u8]) -> Vec<u8>) -> Seen {
    let rng = &mut Rng::new(seed);
    let mut seen = Seen::default();
    for (capacity, commands) in lists(rng) {
        let mut twins = Twins::open(capacity, seen);
        for (step, command) in commands.iter().enumerate() {
            if step % STEPS_TO_PAUSE == STEPS_TO_PAUSE - 1 {
                twins.pause();
            }
            twins.step(command, &replace(rng, command));
        }
        seen = twins.seen;
    }
    seen
}

#[test]
fn other_secrets_change_no_student_pane() {
    let seen = seen_beside(41, secrets::other_command);
    assert_eq!(seen.student_panes_apart, 0, "{seen:?}");
    assert_eq!(seen.replies_apart, 0, "{seen:?}");
    assert!(seen.replaced > 50 && seen.pauses > 20, "{seen:?}");
    assert!(10 * seen.instructor_panes_apart > seen.panes, "{seen:?}");
}

/// In place of a level the next one; every other command stays as it is.
fn next_level(_: &mut Rng, command: &[u8]) -> Vec<u8> {
    match *command {
        [0x02, console, strip, high, low] if u16::from_be_bytes([high, low]) < 600 => {
            let [high, low] = (u16::from_be_bytes([high, low]) + 1).to_be_bytes();
            vec![0x02, console, strip, high, low]
        }
        _ => command.to_vec(),
    }
}

#[test]
fn another_level_is_seen_by_students() {
    let seen = seen_beside(41, next_level);
    assert!(seen.replaced > 50, "{seen:?}");
    assert!(10 * seen.student_panes_apart > seen.panes, "{seen:?}");
}

/// In place of marks 8 to 15, which no student sees, mark 7; every other command stays as it is.
fn mark_7_instead(_: &mut Rng, command: &[u8]) -> Vec<u8> {
    match *command {
        [code @ (0x04 | 0x05), console, strip, 8..=15] => vec![code, console, strip, 7],
        _ => command.to_vec(),
    }
}

#[test]
fn a_mark_that_is_no_secret_is_seen_by_students() {
    let seen = seen_beside(41, mark_7_instead);
    assert_eq!(seen.replies_apart, 0, "{seen:?}");
    assert!(seen.replaced > 20, "{seen:?}");
    assert!(100 * seen.student_panes_apart > seen.panes, "{seen:?}");
}

/// The same of rooms that are on tapes, with other secrets at the same versions: graphs of every kind, and no list of commands.
#[test]
fn rooms_with_other_secrets_show_students_the_same() {
    let rng = &mut Rng::new(42);
    let mut seen = Seen::default();
    for room in gen::random_rooms(43, 60) {
        let other = secrets::other_room(rng, &room);
        let mut twins = Twins {
            one: Store::of_room(&room),
            other: Store::of_room(&other),
            seen,
        };
        twins.look();
        seen = twins.seen;
    }
    assert_eq!(seen.student_panes_apart, 0, "{seen:?}");
    assert!(10 * seen.instructor_panes_apart > seen.panes, "{seen:?}");
}
