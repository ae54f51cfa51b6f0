// A room in which every command but the hub's is accepted.

use crate::works::full_room;
use room_host::model::{code, decode, step, Room, CONSOLES};

/// A room of 1,000 versions and 15 consoles, and an accepted command of each kind but that in it.
pub fn busy_room() -> (Room, [(&'static str, Vec<u8>); 5]) {
    let mut room = full_room("merges", 990);
    room.capacity = 1024;
    let absent = leaving_console(&mut room);
    let follower = leaving_console(&mut room);
    room = after(&room, &[code::FORK, follower, 0]).expect("the console has left");
    while room.versions.len() < 1000 {
        room = after(&room, &[code::CALL_COUNTED, 0, 5]).expect("there are versions free");
    }
    let merge = accepted_merge(&room);
    let commands = [
        ("entry", vec![code::LEVEL, 0, 5, 0, 100]),
        ("merge", merge),
        ("fork", vec![code::FORK, absent, 0]),
        ("fast_forward", vec![code::FAST_FORWARD, follower, 0]),
        ("leave", vec![code::LEAVE, follower]),
    ];
    (room, commands)
}

fn after(room: &Room, command: &[u8]) -> Option<Room> {
    step(room, &decode(command).ok()?).ok()
}

fn accepted_merge(room: &Room) -> Vec<u8> {
    let consoles = 1..CONSOLES as u8;
    let pairs = consoles
        .clone()
        .flat_map(|one| consoles.clone().map(move |other| (one, other)));
    pairs
        .map(|(receiver, giver)| vec![code::MERGE, receiver, giver])
        .find(|command| after(room, command).is_some())
        .expect("some two neighbours can merge")
}

/// Merges some console into another, after which it leaves.
fn leaving_console(room: &mut Room) -> u8 {
    let merge = accepted_merge(room);
    *room = after(room, &merge).expect("the merge is accepted");
    let leaving = merge[2];
    *room = after(room, &[code::LEAVE, leaving]).expect("the receiver is ahead of it");
    leaving
}
