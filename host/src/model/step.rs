// What a command does to a room, or by which refusal it does nothing.

use super::ancestors::{common_by, Ancestry};
use super::board::{Board, Worked};
use super::command::Command;
use super::room::{Entry, Room, Version};
use super::sound::can_make_hub;
use super::{refusal, refuse_if, HUB};

/// The room after a decoded command, or the first that applies of the refusals 12, 13, 22, 14 to 18, 21 and 23.
pub fn step(room: &Room, command: &Command) -> Result<Room, u32> {
    match *command {
        Command::Fork { new, old } => fork(room, new, old),
        Command::Entry {
            console,
            code,
            strip,
            operand,
        } => {
            let parent = named_head(room, console)?;
            let entry = Entry {
                parent,
                code,
                strip,
                operand,
            };
            make_version(room, console, Version::Entry(entry))
        }
        Command::Merge { receiver, giver } => merge(room, receiver, giver),
        Command::FastForward { receiver, giver } => fast_forward(room, receiver, giver),
        Command::Leave { console } => leave(room, console),
        Command::MakeHub => make_hub(room),
    }
}

/// What an accepted command reports, by the boards of the room after it: a merge the clashes of the version that it has made, which is
/// the last; every other command 0.
pub fn reported(command: &Command, boards: &[Worked<Board>]) -> usize {
    match (command, boards) {
        (Command::Merge { .. }, [.., made]) => made.clashes,
        _ => 0,
    }
}

/// The head of a console that a command names, or refusal 12.
fn named_head(room: &Room, console: usize) -> Result<usize, u32> {
    room.head(console).ok_or(refusal::CONSOLE_ABSENT)
}

fn fork(room: &Room, new: usize, old: usize) -> Result<Room, u32> {
    let head = named_head(room, old)?;
    refuse_if(room.head(new).is_some(), refusal::NEW_CONSOLE_PRESENT)?;
    refuse_if(room.hub && old != HUB, refusal::NOT_THROUGH_HUB)?;
    Ok(with_head(room, new, Some(head)))
}

/// The heads of receiver and giver, or refusal 12, or 22 in a room with a hub that is neither of them.
fn heads_of_two(room: &Room, receiver: usize, giver: usize) -> Result<(usize, usize), u32> {
    let heads = (named_head(room, receiver)?, named_head(room, giver)?);
    let is_through_hub = receiver == HUB || giver == HUB;
    refuse_if(room.hub && !is_through_hub, refusal::NOT_THROUGH_HUB)?;
    Ok(heads)
}

fn fast_forward(room: &Room, receiver: usize, giver: usize) -> Result<Room, u32> {
    let (receiver_head, giver_head) = heads_of_two(room, receiver, giver)?;
    let ancestry = Ancestry::new(room);
    refuse_if(
        ancestry.is_ancestor(giver_head, receiver_head),
        refusal::GIVER_BEHIND,
    )?;
    refuse_if(
        !ancestry.is_ancestor(receiver_head, giver_head),
        refusal::RECEIVER_NOT_BEHIND,
    )?;
    Ok(with_head(room, receiver, Some(giver_head)))
}

fn merge(room: &Room, receiver: usize, giver: usize) -> Result<Room, u32> {
    let (receiver_head, giver_head) = heads_of_two(room, receiver, giver)?;
    let ancestry = Ancestry::new(room);
    refuse_if(
        ancestry.is_ancestor(giver_head, receiver_head),
        refusal::GIVER_BEHIND,
    )?;
    refuse_if(
        ancestry.is_ancestor(receiver_head, giver_head),
        refusal::RECEIVER_BEHIND,
    )?;
    refuse_if(
        some_third_console_is_torn(room, &ancestry, receiver, giver),
        refusal::COMMONS_APART,
    )?;
    let merged = Version::Merge {
        receiver: receiver_head,
        giver: giver_head,
    };
    make_version(room, receiver, merged)
}

/// The console goes home, provided that its head is an ancestor of another present head.
fn leave(room: &Room, console: usize) -> Result<Room, u32> {
    let head = named_head(room, console)?;
    let without = with_head(room, console, None);
    let ancestry = Ancestry::new(room);
    let other_heads = without.present_heads();
    refuse_if(
        !other_heads
            .iter()
            .any(|&other| ancestry.is_ancestor(head, other)),
        refusal::NO_OTHER_HEAD_DESCENDS,
    )?;
    Ok(without)
}

/// Console 0 becomes the hub, or stays it.
fn make_hub(room: &Room) -> Result<Room, u32> {
    let is_possible = can_make_hub(room, &Ancestry::new(room));
    refuse_if(!is_possible, refusal::CANNOT_MAKE_HUB)?;
    let mut changed = room.clone();
    changed.hub = true;
    Ok(changed)
}

/// For some third console, its common versions with receiver and giver are neither an ancestor of the other.
fn some_third_console_is_torn(
    room: &Room,
    ancestry: &Ancestry,
    receiver: usize,
    giver: usize,
) -> bool {
    let common = |one: usize, other: usize| common_by(room, ancestry, one, other);
    let torn = |third: usize| match (common(third, receiver), common(third, giver)) {
        (Some(one), Some(other)) => {
            !ancestry.is_ancestor(one, other) && !ancestry.is_ancestor(other, one)
        }
        _ => true,
    };
    room.present()
        .into_iter()
        .filter(|&third| third != receiver && third != giver)
        .any(torn)
}

/// The room with one more version, on which the console stands, or refusal 18.
fn make_version(room: &Room, console: usize, version: Version) -> Result<Room, u32> {
    let number = room.versions.len();
    refuse_if(number >= room.capacity, refusal::NO_VERSION_LEFT)?;
    let mut changed = with_head(room, console, Some(number));
    changed.versions.push(version);
    Ok(changed)
}

/// The room with another head of this console, or with none.
fn with_head(room: &Room, console: usize, head: Option<usize>) -> Room {
    let mut changed = room.clone();
    changed.heads[console] = head;
    changed
}
