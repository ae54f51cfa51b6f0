// Rooms with a hub, and the commands that bring all to one head.

use super::rooms::{after, commands_from, random_room};
use crate::model::{code, Ancestry, Room, HUB};
use crate::rng::Rng;

/// The commands that bring all consoles of a room with a hub to one head: console 0 takes from each other console, rising, and then each
/// that isn't there yet takes from console 0. Where versions are missing, merges among them are refused.
pub fn gathering(room: &Room) -> Vec<Vec<u8>> {
    let mut room = room.clone();
    let mut commands = Vec::new();
    for (receiver, giver) in gathering_pairs(&room) {
        if let Some(command) = taking_command(&room, receiver, giver) {
            room = after(&room, &command).unwrap_or(room);
            commands.push(command);
        }
    }
    commands
}

/// The first of them, where heads differ.
pub(super) fn next_of_gathering(room: &Room) -> Option<Vec<u8>> {
    gathering_pairs(room)
        .into_iter()
        .find_map(|(receiver, giver)| taking_command(room, receiver, giver))
}

/// Who takes from whom in a gathering, in order.
fn gathering_pairs(room: &Room) -> Vec<(usize, usize)> {
    let mut others = room.present();
    others.retain(|&console| console != HUB);
    let taking = others.iter().map(|&other| (HUB, other));
    let giving = others.iter().map(|&other| (other, HUB));
    taking.chain(giving).collect()
}

/// The command by which a console takes from another: nothing where the giver is behind, else a fast-forward or a merge.
fn taking_command(room: &Room, receiver: usize, giver: usize) -> Option<Vec<u8>> {
    let (receiver_head, giver_head) = (room.head(receiver)?, room.head(giver)?);
    let ancestry = Ancestry::new(room);
    let taking_code = if ancestry.is_ancestor(giver_head, receiver_head) {
        return None;
    } else if ancestry.is_ancestor(receiver_head, giver_head) {
        code::FAST_FORWARD
    } else {
        code::MERGE
    };
    Some(vec![taking_code, receiver as u8, giver as u8])
}

/// A room with a hub that a random command sequence leads to, in which console 0 has become the hub early or late.
pub fn hub_room(rng: &mut Rng, capacity: usize, length: usize) -> Room {
    let before = rng.below(length + 1);
    let reached = random_room(rng, capacity, before);
    let mut room = with_hub(reached).unwrap_or(Room::opened(capacity));
    // In a newly opened room there are no two consoles that could stand against it.
    room.hub = true;
    commands_from(rng, room, length - before).1
}

/// The room with a hub, at once or after console 0 has taken from others; nothing where it can't take from as many as it must.
fn with_hub(mut room: Room) -> Option<Room> {
    let make_hub = [code::MAKE_HUB];
    for (receiver, giver) in gathering_pairs(&room) {
        if after(&room, &make_hub).is_some() {
            break;
        }
        let taking = taking_command(&room, receiver, giver);
        let taken = taking.and_then(|command| after(&room, &command));
        room = taken.unwrap_or(room);
    }
    after(&room, &make_hub)
}
