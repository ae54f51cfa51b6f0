// Rooms in which no two can meet.

use super::commands::leave_command;
use super::rooms::after;
use crate::model::{code, Entry, Room, Version, CONSOLES};
use crate::rng::Rng;
use std::array;

/// A full room of 16 consoles, all on the head of console 0, which alone has made entries.
pub fn agreeing_room(capacity: usize) -> Room {
    let mut room = Room::opened(capacity);
    let head = append_calls(&mut room, capacity - 1);
    room.heads = [Some(head); CONSOLES];
    room
}

/// Appends so many calls, each on the one before it; the last version.
fn append_calls(room: &mut Room, calls: usize) -> usize {
    (0..calls).fold(room.versions.len() - 1, |parent, _| {
        append_call(room, parent)
    })
}

fn append_call(room: &mut Room, parent: usize) -> usize {
    let entry = Entry {
        parent,
        code: code::CALL_COUNTED,
        strip: 0,
        operand: 0,
    };
    append(room, Version::Entry(entry))
}

fn append(room: &mut Room, version: Version) -> usize {
    room.versions.push(version);
    room.versions.len() - 1
}

/// Merges these versions one after the other into the first; the last merge.
fn append_merges(room: &mut Room, first: usize, others: &[usize]) -> usize {
    others.iter().fold(first, |receiver, &giver| {
        append(room, Version::Merge { receiver, giver })
    })
}

/// The versions of the paper's stuck room, and those that the other one below has at least.
pub const STUCK_VERSIONS: usize = 7;
pub const STUCK_APART_VERSIONS: usize = 85;

/// A full room of 16 consoles that is the paper's stuck room on top of a chain of entries, with every console from 4 on forked from one of
/// the first four.
pub fn stuck_room(capacity: usize) -> Room {
    let mut room = Room::opened(capacity);
    let start = append_calls(&mut room, capacity - STUCK_VERSIONS);
    let [a, b, c] = [(); 3].map(|()| append_call(&mut room, start));
    let with_a_b = append_merges(&mut room, a, &[b]);
    let with_a_c = append_merges(&mut room, a, &[c]);
    let with_b_c = append_merges(&mut room, b, &[c]);
    let four = [with_b_c, with_b_c, with_a_b, with_a_c];
    room.heads = array::from_fn(|console| Some(four[console % 4]));
    room
}

/// A full room of 16 consoles that is stuck with every head another version. A merge of two of the first 14 meets 17 at consoles 14 and 15
/// alone, after 12 consoles whose common versions with the two mostly differ but are not apart.
///
/// On a chain of entries, whose last 14 versions are places to stand on, there are an entry x on the last place, and entries e and g of
/// each console from 0 to 13 on a place of its own; the console is on a merge of its two. Console 14 is on merges of x and each e, console
/// 15 on merges of x and each g. So two of the first 14 have the lower of their places in common, one of them and 14 its e, one of them
/// and 15 its g, and 14 and 15 have x.
pub fn stuck_apart_room(capacity: usize) -> Room {
    const STANDING: usize = CONSOLES - 2;
    let mut room = Room::opened(capacity);
    let last = append_calls(&mut room, capacity - STUCK_APART_VERSIONS + STANDING - 1);
    // 5 and 14 have no divisor in common, so the places are all taken, in no order.
    let place = |console: usize| last - 5 * console % STANDING;
    let x = append_call(&mut room, last);
    let e: [usize; STANDING] = array::from_fn(|console| append_call(&mut room, place(console)));
    let g: [usize; STANDING] = array::from_fn(|console| append_call(&mut room, place(console)));
    for console in 0..STANDING {
        room.heads[console] = Some(append_merges(&mut room, e[console], &[g[console]]));
    }
    room.heads[CONSOLES - 2] = Some(append_merges(&mut room, x, &e));
    room.heads[CONSOLES - 1] = Some(append_merges(&mut room, x, &g));
    room
}

/// A stuck room of either kind with its consoles in any order, some of them gone where another one is on the same head, and often some
/// versions free.
pub fn some_stuck_room(rng: &mut Rng) -> Room {
    let longer = rng.below(12);
    let mut room = if rng.chance(70) {
        stuck_room(STUCK_VERSIONS + longer)
    } else {
        stuck_apart_room(STUCK_APART_VERSIONS + longer)
    };
    let heads = rng.shuffled(&room.heads);
    room.heads = array::from_fn(|console| heads[console]);
    for _ in 0..rng.below(CONSOLES) {
        let leave = leave_command(rng, &room);
        room = after(&room, &leave).unwrap_or(room);
    }
    room.capacity += rng.below(5);
    room
}
