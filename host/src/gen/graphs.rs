// Graphs, sound and unsound, as tapes.

use super::commands::some_change;
use super::rooms::some_room;
use crate::model::{parents, tape_of, Ancestry, Entry, Room, Version, CONSOLES};
use crate::rng::Rng;

/// A room whose fields are in range and whose parents are lower numbers, but which need not be sound.
pub fn random_graph(rng: &mut Rng, version_count: usize) -> Room {
    let mut room = Room::opened(version_count.max(1) + rng.below(3));
    let merge_percent = rng.pick(&[10, 25, 40]).unwrap_or(25);
    for number in 1..version_count {
        let version = if rng.chance(merge_percent) {
            random_merge(rng, &room)
        } else {
            random_entry(rng, number)
        };
        room.versions.push(version);
    }
    room.heads = random_heads(rng, &room);
    room.hub = rng.chance(25);
    room
}

/// One of the lower numbers, often one of the last few.
fn lower_number(rng: &mut Rng, number: usize) -> usize {
    if rng.chance(60) {
        number - 1 - rng.below(number.min(4))
    } else {
        rng.below(number)
    }
}

fn random_entry(rng: &mut Rng, number: usize) -> Version {
    let (code, strip, operand) = some_change(rng);
    Version::Entry(Entry {
        parent: lower_number(rng, number),
        code,
        strip,
        operand,
    })
}

/// A merge of any two lower versions; often the first pair of a few tries that has a base.
fn random_merge(rng: &mut Rng, room: &Room) -> Version {
    let number = room.versions.len();
    let ancestry = Ancestry::new(room);
    let tries = rng.below(8);
    let mut pair = (lower_number(rng, number), lower_number(rng, number));
    for _ in 0..tries {
        let base = ancestry.lowest_common(pair.0, pair.1);
        if base.is_some_and(|base| base != pair.0 && base != pair.1) {
            break;
        }
        pair = (lower_number(rng, number), lower_number(rng, number));
    }
    Version::Merge {
        receiver: pair.0,
        giver: pair.1,
    }
}

/// Heads of console 0 and some others.
fn random_heads(rng: &mut Rng, room: &Room) -> [Option<usize>; CONSOLES] {
    let chosen = chosen_heads(rng, room);
    let mut heads = [None; CONSOLES];
    let others: Vec<usize> = (1..CONSOLES).collect();
    let mut consoles = rng.shuffled(&others);
    consoles.push(0);
    for head in rng.shuffled(&chosen) {
        if let Some(console) = consoles.pop() {
            heads[console] = Some(head);
        }
    }
    heads
}

/// Versions that mostly cover the graph: those without children, then a few others; at least one.
fn chosen_heads(rng: &mut Rng, room: &Room) -> Vec<usize> {
    let mut chosen = rng.shuffled(&childless(room));
    if rng.chance(15) {
        chosen.pop();
    }
    chosen.truncate(CONSOLES);
    for _ in 0..rng.below(3).max(usize::from(chosen.is_empty())) {
        chosen.push(rng.below(room.versions.len()));
    }
    chosen
}

fn childless(room: &Room) -> Vec<usize> {
    let is_parent = |number: &usize| {
        room.versions
            .iter()
            .any(|version| parents(version).any(|parent| parent == *number))
    };
    (0..room.versions.len())
        .filter(|number| !is_parent(number))
        .collect()
}

/// A room at most one change away from a sound one: a head, a parent, a whole version, the capacity or the hub is another.
pub fn near_miss(rng: &mut Rng, sound_room: &Room) -> Room {
    let mut room = sound_room.clone();
    let number = rng.below(room.versions.len());
    match rng.below(6) {
        0 => room.heads[rng.below(CONSOLES)] = Some(number),
        1 => room.heads[rng.between(1, CONSOLES - 1)] = None,
        2 if number > 0 => room.versions[number] = random_merge_at(rng, number),
        3 => room.capacity = rng.between(room.versions.len(), room.capacity),
        4 => room.hub = !room.hub,
        _ if number > 0 => change_parent(rng, &mut room.versions[number], number),
        _ => {}
    }
    room
}

fn random_merge_at(rng: &mut Rng, number: usize) -> Version {
    Version::Merge {
        receiver: rng.below(number),
        giver: rng.below(number),
    }
}

fn change_parent(rng: &mut Rng, version: &mut Version, number: usize) {
    match version {
        Version::Entry(entry) => entry.parent = rng.below(number),
        Version::Merge { giver, .. } => *giver = rng.below(number),
        Version::Start => {}
    }
}

/// The tape of a graph, sound or not: of commands, of random parents, or at most one change away from a sound one.
pub fn graph_tape(rng: &mut Rng) -> Vec<u8> {
    let (capacity, length) = (rng.between(1, 40), rng.below(60));
    let room = match rng.below(4) {
        0 => some_room(rng, capacity, length),
        1 => {
            let reached = some_room(rng, capacity, length);
            near_miss(rng, &reached)
        }
        2 => random_graph(rng, capacity),
        _ => random_graph(rng, 1 + capacity % 8),
    };
    tape_of(&room)
}
