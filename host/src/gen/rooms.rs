// Sequences of commands, and the rooms that they lead to.

use super::commands::{
    any_command, entry_anywhere, entry_command, hub_command, likely_command, turnover_command,
};
use super::hub::hub_room;
use crate::model::{code, decode, step, Room, CONSOLES, HUB};
use crate::rng::Rng;
use std::iter::{once, repeat};

/// The room after a command, where it is accepted.
pub(super) fn after(room: &Room, bytes: &[u8]) -> Option<Room> {
    step(room, &decode(bytes).ok()?).ok()
}

/// So many commands for a room opened with this capacity, most of them accepted, and the room they lead to.
pub fn command_sequence(rng: &mut Rng, capacity: usize, length: usize) -> (Vec<Vec<u8>>, Room) {
    commands_from(rng, Room::opened(capacity), length)
}

/// The same from any room on.
pub fn commands_from(rng: &mut Rng, room: Room, length: usize) -> (Vec<Vec<u8>>, Room) {
    chosen_commands(rng, room, length, |rng, room, _| likely_command(rng, room))
}

/// The same, with consoles that come and go.
pub fn turnover_from(rng: &mut Rng, room: Room, length: usize) -> (Vec<Vec<u8>>, Room) {
    chosen_commands(rng, room, length, turnover_command)
}

/// The same, from a room that is to have a hub.
pub fn hub_from(rng: &mut Rng, room: Room, length: usize) -> (Vec<Vec<u8>>, Room) {
    chosen_commands(rng, room, length, |rng, room, _| hub_command(rng, room))
}

/// The same for a room opened with this capacity, which is to have a hub early or late.
pub fn hub_sequence(rng: &mut Rng, capacity: usize, length: usize) -> (Vec<Vec<u8>>, Room) {
    let before = rng.below(length + 1);
    let (mut commands, reached) = command_sequence(rng, capacity, before);
    let (later, room) = hub_from(rng, reached, length - before);
    commands.extend(later);
    (commands, room)
}

/// So many commands from a room on, most of them chosen by the room and the step, and the room they lead to.
fn chosen_commands(
    rng: &mut Rng,
    mut room: Room,
    length: usize,
    choose: impl Fn(&mut Rng, &Room, usize) -> Vec<u8>,
) -> (Vec<Vec<u8>>, Room) {
    let mut commands = Vec::new();
    for step in 0..length {
        let bytes = if rng.chance(90) {
            choose(rng, &room, step)
        } else {
            any_command(rng)
        };
        if let Some(next) = after(&room, &bytes) {
            room = next;
        }
        commands.push(bytes);
    }
    (commands, room)
}

/// A sound room that a random command sequence leads to.
pub fn random_room(rng: &mut Rng, capacity: usize, length: usize) -> Room {
    command_sequence(rng, capacity, length).1
}

/// The same, in one of four cases with a hub.
pub fn some_room(rng: &mut Rng, capacity: usize, length: usize) -> Room {
    if rng.chance(25) {
        hub_room(rng, capacity, length)
    } else {
        random_room(rng, capacity, length)
    }
}

/// So many rooms of several capacities, up to 90, that random command sequences lead to, one of four with a hub.
pub fn random_rooms(seed: u64, count: usize) -> Vec<Room> {
    let rng = &mut Rng::new(seed);
    (0..count)
        .map(|_| {
            let (capacity, length) = (rng.between(1, 90), rng.below(120));
            some_room(rng, capacity, length)
        })
        .collect()
}

/// A newly opened room with all 16 consoles on version 0.
fn room_of_all_consoles(capacity: usize) -> Room {
    let mut room = Room::opened(capacity);
    for console in 1..CONSOLES {
        if let Some(next) = after(&room, &[code::FORK, console as u8, 0]) {
            room = next;
        }
    }
    room
}

/// The room after an entry on some console; the same room where no version is free.
fn with_entry(rng: &mut Rng, room: &Room) -> Room {
    let bytes = entry_anywhere(rng, room);
    after(room, &bytes).unwrap_or_else(|| room.clone())
}

/// A full room of 16 consoles with entries alone.
pub fn full_of_entries(rng: &mut Rng, capacity: usize) -> Room {
    filled_with_entries(rng, room_of_all_consoles(capacity))
}

fn filled_with_entries(rng: &mut Rng, mut room: Room) -> Room {
    while room.versions.len() < room.capacity {
        room = with_entry(rng, &room);
    }
    room
}

/// A full room of 16 consoles: version 1 an entry, then an entry and a merge by turns.
///
/// The consoles are hung up as a random tree, and only neighbours merge or fast-forward. Whatever two consoles have
/// in common has then passed every console between them, so refusal 17 never stands in the way of neighbours.
pub fn full_of_merges(rng: &mut Rng, capacity: usize) -> Room {
    let neighbours = random_tree(rng);
    filled_with_merges(rng, room_of_all_consoles(capacity), &neighbours)
}

/// The same with a hub from the start: every other console is a neighbour of console 0 alone.
pub fn full_through_hub(rng: &mut Rng, capacity: usize) -> Room {
    let neighbours: Vec<(usize, usize)> = (1..CONSOLES).map(|console| (HUB, console)).collect();
    let mut room = room_of_all_consoles(capacity);
    room.hub = true;
    filled_with_merges(rng, room, &neighbours)
}

fn filled_with_merges(rng: &mut Rng, room: Room, neighbours: &[(usize, usize)]) -> Room {
    let mut room = with_entry(rng, &room);
    while room.versions.len() + 2 <= room.capacity {
        let Some(next) = entry_and_merge(rng, &room, neighbours) else {
            break;
        };
        room = next;
    }
    filled_with_entries(rng, room)
}

/// The pairs of neighbours of a random tree of the 16 consoles.
fn random_tree(rng: &mut Rng) -> Vec<(usize, usize)> {
    let consoles: Vec<usize> = (0..CONSOLES).collect();
    let order = rng.shuffled(&consoles);
    (1..CONSOLES)
        .map(|place| (order[place], order[rng.below(place)]))
        .collect()
}

/// The room after an entry and a merge of neighbours, and now and then a fast-forward before them.
fn entry_and_merge(rng: &mut Rng, room: &Room, neighbours: &[(usize, usize)]) -> Option<Room> {
    if rng.chance(30) {
        let forwarded = joined(rng, room, neighbours, code::FAST_FORWARD);
        let round = forwarded.and_then(|next| entry_then_merge(rng, &next, neighbours));
        if round.is_some() {
            return round;
        }
    }
    entry_then_merge(rng, room, neighbours)
}

fn entry_then_merge(rng: &mut Rng, room: &Room, neighbours: &[(usize, usize)]) -> Option<Room> {
    rng.shuffled(&room.present())
        .into_iter()
        .find_map(|console| {
            let entered = after(room, &entry_command(rng, console))?;
            joined(rng, &entered, neighbours, code::MERGE)
        })
}

/// The room after an accepted merge or fast-forward of some neighbours, where there is one.
fn joined(
    rng: &mut Rng,
    room: &Room,
    neighbours: &[(usize, usize)],
    joining_code: u8,
) -> Option<Room> {
    rng.shuffled(neighbours)
        .into_iter()
        .find_map(|(one, other)| {
            let (first, second) = if rng.chance(50) {
                (one as u8, other as u8)
            } else {
                (other as u8, one as u8)
            };
            after(room, &[joining_code, first, second])
                .or_else(|| after(room, &[joining_code, second, first]))
        })
}

/// A full room of console 0 alone: a level on strip 1, then calls. The walk back from the head passes every version.
pub fn chain_of_entries(capacity: usize) -> Room {
    let level: &[u8] = &[code::LEVEL, 0, 1, 0, 100];
    let call: &[u8] = &[code::CALL_COUNTED, 0, 0];
    filled_by(capacity, once(level).chain(repeat(call)))
}

/// A full room of two consoles: on strip 1 console 0 enters a level and console 1 a heading (versions 1 and 2); then console 0 merges
/// console 1 and console 1 counts a call, by turns. The walk back from the head of console 0 passes every merge.
pub fn chain_of_merges(capacity: usize) -> Room {
    let start: [&[u8]; 3] = [
        &[code::FORK, 1, 0],
        &[code::LEVEL, 0, 1, 0, 100],
        &[code::HEADING, 1, 1, 0, 90],
    ];
    let turns: [&[u8]; 2] = [&[code::MERGE, 0, 1], &[code::CALL_COUNTED, 1, 0]];
    filled_by(capacity, start.into_iter().chain(turns.into_iter().cycle()))
}

/// A newly opened room after these commands, up to the first that is refused.
fn filled_by<'a>(capacity: usize, mut commands: impl Iterator<Item = &'a [u8]>) -> Room {
    let mut room = Room::opened(capacity);
    while let Some(next) = commands.next().and_then(|command| after(&room, command)) {
        room = next;
    }
    room
}
