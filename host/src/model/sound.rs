// Which rooms are sound.

use super::ancestors::{common_by, Ancestry};
use super::room::{parents, Entry, Room, Version};
use super::{code, HIGHEST_CAPACITY, HIGHEST_HEADING, HIGHEST_LEVEL, HUB, MARKS, STRIPS};

/// Whether a room is sound, clause by clause; boards, bases and commons follow from the rest.
pub fn sound(room: &Room) -> bool {
    sound_by(room, &Ancestry::new(room))
}

/// The same, with the room's ancestries lent by a caller who needs them again.
pub fn sound_by(room: &Room, ancestry: &Ancestry) -> bool {
    capacity_is_in_range(room.capacity)
        && version_count_is_in_range(room)
        && version_0_alone_is_the_start(room)
        && parents_are_lower_numbers(room)
        && entries_are_in_range(room)
        && console_0_is_present(room)
        && heads_name_versions(room)
        && every_merge_has_a_base(room, ancestry)
        && every_two_heads_have_a_common_version(room, ancestry)
        && every_version_is_an_ancestor_of_a_head(room, ancestry)
        && (!room.hub || can_make_hub(room, ancestry))
}

pub fn capacity_is_in_range(capacity: usize) -> bool {
    (1..=HIGHEST_CAPACITY).contains(&capacity)
}

fn version_count_is_in_range(room: &Room) -> bool {
    (1..=room.capacity).contains(&room.versions.len())
}

fn version_0_alone_is_the_start(room: &Room) -> bool {
    let is_start = |version: &Version| *version == Version::Start;
    room.versions
        .iter()
        .enumerate()
        .all(|(number, version)| is_start(version) == (number == 0))
}

fn parents_are_lower_numbers(room: &Room) -> bool {
    room.versions
        .iter()
        .enumerate()
        .all(|(number, version)| parents(version).all(|parent| parent < number))
}

fn entries_are_in_range(room: &Room) -> bool {
    room.versions.iter().all(|version| match version {
        Version::Entry(entry) => entry_is_in_range(entry),
        _ => true,
    })
}

pub(super) fn entry_is_in_range(entry: &Entry) -> bool {
    usize::from(entry.strip) < STRIPS && operand_is_in_range(entry.code, entry.operand)
}

/// Whether the code is an entry code and the operand one that it takes.
pub(super) fn operand_is_in_range(entry_code: u8, operand: u16) -> bool {
    match entry_code {
        code::LEVEL => operand <= HIGHEST_LEVEL,
        code::HEADING => operand <= HIGHEST_HEADING,
        code::MARK_PUT | code::MARK_TAKEN => usize::from(operand) < MARKS,
        code::CALL_COUNTED | code::ALERT_ON | code::ALERT_OFF => operand == 0,
        _ => false,
    }
}

fn console_0_is_present(room: &Room) -> bool {
    room.heads[0].is_some()
}

fn heads_name_versions(room: &Room) -> bool {
    room.present_heads()
        .iter()
        .all(|&head| head < room.versions.len())
}

/// The two parents of a merge have a single lowest common ancestor, equal to neither.
fn every_merge_has_a_base(room: &Room, ancestry: &Ancestry) -> bool {
    room.versions.iter().all(|version| match *version {
        Version::Merge { receiver, giver } => ancestry
            .lowest_common(receiver, giver)
            .is_some_and(|base| base != receiver && base != giver),
        _ => true,
    })
}

/// Every two heads have a single lowest common ancestor, which may be one of them.
fn every_two_heads_have_a_common_version(room: &Room, ancestry: &Ancestry) -> bool {
    let heads = room.present_heads();
    heads.iter().all(|&one| {
        heads
            .iter()
            .all(|&other| ancestry.lowest_common(one, other).is_some())
    })
}

fn every_version_is_an_ancestor_of_a_head(room: &Room, ancestry: &Ancestry) -> bool {
    let heads = room.present_heads();
    (0..room.versions.len()).all(|version| {
        heads
            .iter()
            .any(|&head| ancestry.is_ancestor(version, head))
    })
}

/// Whether console 0 can be the hub: the common version of every two present consoles is an ancestor of its head.
pub(super) fn can_make_hub(room: &Room, ancestry: &Ancestry) -> bool {
    let Some(hub_head) = room.head(HUB) else {
        return false;
    };
    let is_behind_hub = |one: usize, other: usize| {
        common_by(room, ancestry, one, other)
            .is_some_and(|common| ancestry.is_ancestor(common, hub_head))
    };
    let present = room.present();
    present.iter().all(|&one| {
        let mut others = present.iter().filter(|&&other| other != one);
        others.all(|&other| is_behind_hub(one, other))
    })
}
