// Single commands, likely and unlikely.

use super::hub::next_of_gathering;
use super::rooms::after;
use crate::model::{
    code, Entry, Room, Version, CONSOLES, HIGHEST_HEADING, HIGHEST_LEVEL, MARKS, STRIPS,
};
use crate::rng::Rng;
use std::iter::repeat_with;

/// A strip, often one of the first few, so that consoles meet on the same cells.
pub fn some_strip(rng: &mut Rng) -> u8 {
    let strips = if rng.chance(70) { 3 } else { STRIPS };
    rng.below(strips) as u8
}

/// Marks that are put and taken often, so that consoles meet on them: the first and the last that students see, and that they do not.
const COMMON_MARKS: [u16; 4] = [0, 7, 8, 15];

fn some_mark(rng: &mut Rng) -> u16 {
    let any = rng.below(MARKS) as u16;
    let common = rng.pick(&COMMON_MARKS).filter(|_| rng.chance(70));
    common.unwrap_or(any)
}

/// A number up to the highest, often at an end of the range or small.
fn some_value(rng: &mut Rng, highest: u16) -> u16 {
    match rng.below(5) {
        0 => 0,
        1 => highest,
        2 => rng.below(4) as u16,
        _ => rng.below(usize::from(highest) + 1) as u16,
    }
}

/// An entry's code, strip and operand.
pub type Change = (u8, u8, u16);

/// A level or heading with one of few values on one of two strips, so that both sides of a merge write the same cell, with the
/// same value or another, and a value that was there before comes back.
fn contested_setting(rng: &mut Rng) -> Change {
    let setting_code = rng.between(code::LEVEL.into(), code::HEADING.into()) as u8;
    (setting_code, rng.below(2) as u8, rng.below(5) as u16)
}

/// A strip change in range: any of the seven entry codes, a strip and an operand.
pub(super) fn some_change(rng: &mut Rng) -> Change {
    if rng.chance(30) {
        return contested_setting(rng);
    }
    change_by_one_of(rng, code::LEVEL, code::ALERT_OFF)
}

/// A strip change in range by one of the entry codes from the first to the last.
pub(super) fn change_by_one_of(rng: &mut Rng, first_code: u8, last_code: u8) -> Change {
    let entry_code = rng.between(first_code.into(), last_code.into()) as u8;
    let operand = match entry_code {
        code::LEVEL => some_value(rng, HIGHEST_LEVEL),
        code::HEADING => some_value(rng, HIGHEST_HEADING),
        code::MARK_PUT | code::MARK_TAKEN => some_mark(rng),
        _ => 0,
    };
    (entry_code, some_strip(rng), operand)
}

/// An entry command of any of the seven codes, in range.
pub fn entry_command(rng: &mut Rng, console: usize) -> Vec<u8> {
    let change = some_change(rng);
    entry_bytes(console, change)
}

/// The command of a strip change.
pub fn entry_bytes(console: usize, (entry_code, strip, operand): Change) -> Vec<u8> {
    let mut bytes = vec![entry_code, console as u8, strip];
    match entry_code {
        code::LEVEL | code::HEADING => bytes.extend(operand.to_be_bytes()),
        code::MARK_PUT | code::MARK_TAKEN => bytes.push(operand as u8),
        _ => {}
    }
    bytes
}

pub(super) fn entry_anywhere(rng: &mut Rng, room: &Room) -> Vec<u8> {
    let console = rng.pick(&room.present()).unwrap_or(0);
    entry_command(rng, console)
}

/// An entry by which a console contradicts another: the level or heading that the other has set last, with another value.
fn contradicting_command(rng: &mut Rng, room: &Room) -> Vec<u8> {
    let consoles = rng.shuffled(&room.present());
    let contradiction = consoles.split_first().and_then(|(&console, others)| {
        let said = others.iter().find_map(|&other| last_value(room, other))?;
        Some((console, said))
    });
    let Some((console, said)) = contradiction else {
        return entry_anywhere(rng, room);
    };
    // In range as a level and as a heading.
    let value = (said.operand + rng.between(1, 3) as u16) % 300;
    entry_bytes(console, (said.code, said.strip, value))
}

/// The last level or heading set on the way to a console's head since a merge.
fn last_value(room: &Room, console: usize) -> Option<Entry> {
    let mut version = room.head(console)?;
    while let Version::Entry(entry) = room.versions[version] {
        if matches!(entry.code, code::LEVEL | code::HEADING) {
            return Some(entry);
        }
        version = entry.parent;
    }
    None
}

/// A fork of a present console to an absent one, in a room with a hub an accepted one if a few tries meet one; an entry where all are
/// present.
fn fork_command(rng: &mut Rng, room: &Room) -> Vec<u8> {
    let absent: Vec<usize> = (0..CONSOLES).filter(|&c| room.head(c).is_none()).collect();
    let Some(new) = rng.pick(&absent) else {
        return entry_anywhere(rng, room);
    };
    let olds = rng.shuffled(&room.present()).into_iter().take(4);
    let forks = olds.map(|old| vec![code::FORK, new as u8, old as u8]);
    first_accepted(rng, room, forks)
}

/// The first of these commands that is accepted, else the last of them; an entry where there are none.
fn first_accepted(
    rng: &mut Rng,
    room: &Room,
    commands: impl IntoIterator<Item = Vec<u8>>,
) -> Vec<u8> {
    let mut bytes = entry_anywhere(rng, room);
    for command in commands {
        bytes = command;
        if after(room, &bytes).is_some() {
            break;
        }
    }
    bytes
}

/// A merge or fast-forward of two present consoles, an accepted one if a few tries meet one.
fn joining_command(rng: &mut Rng, room: &Room, joining_code: u8) -> Vec<u8> {
    let present = room.present();
    let tries: Vec<Vec<u8>> = repeat_with(|| rng.shuffled(&present))
        .take(12)
        .filter_map(|consoles| match consoles[..] {
            [receiver, giver, ..] => Some(vec![joining_code, receiver as u8, giver as u8]),
            _ => None,
        })
        .collect();
    first_accepted(rng, room, tries)
}

/// A leave of a console other than 0, an accepted one if there is one.
pub(super) fn leave_command(rng: &mut Rng, room: &Room) -> Vec<u8> {
    let present = rng.shuffled(&room.present());
    let students = present.into_iter().filter(|&console| console != 0);
    let leaves = students.map(|console| vec![code::LEAVE, console as u8]);
    first_accepted(rng, room, leaves)
}

/// A command that is likely to be accepted in this room.
pub fn likely_command(rng: &mut Rng, room: &Room) -> Vec<u8> {
    match rng.below(100) {
        0..=14 => fork_command(rng, room),
        15..=19 => leave_command(rng, room),
        20..=49 => entry_anywhere(rng, room),
        50..=59 => contradicting_command(rng, room),
        60..=84 => joining_command(rng, room, code::MERGE),
        _ => joining_command(rng, room, code::FAST_FORWARD),
    }
}

/// For so many steps consoles come to a room, and for as many they go.
const TIDE: usize = 40;

/// A command for this step of a room to which consoles come and from which they go; meanwhile they enter, merge and fast-forward, with
/// so few new versions that the room lasts for long.
pub fn turnover_command(rng: &mut Rng, room: &Room, step: usize) -> Vec<u8> {
    let is_ebb = step / TIDE % 2 == 1;
    match rng.below(100) {
        0..=49 if is_ebb => leave_command(rng, room),
        0..=49 => fork_command(rng, room),
        50..=54 => entry_anywhere(rng, room),
        55..=59 => contradicting_command(rng, room),
        60..=74 => joining_command(rng, room, code::MERGE),
        _ => joining_command(rng, room, code::FAST_FORWARD),
    }
}

/// A command for a room that is to have a hub: now and then the one that makes it, and the next one of a gathering, by which console 0
/// gets ahead of the others until it can be the hub.
pub fn hub_command(rng: &mut Rng, room: &Room) -> Vec<u8> {
    match rng.below(100) {
        0..=9 => vec![code::MAKE_HUB],
        10..=29 => next_of_gathering(room).unwrap_or_else(|| likely_command(rng, room)),
        _ => likely_command(rng, room),
    }
}

/// A command of any kind: codes, lengths and operands in range and just out of it.
pub fn any_command(rng: &mut Rng) -> Vec<u8> {
    let (first, second) = (near(rng, CONSOLES), near(rng, CONSOLES));
    let joining_code = rng.pick(&[code::FORK, code::MERGE, code::FAST_FORWARD]);
    let leaving = rng.pick(&[0, first]);
    let mut bytes = match rng.below(100) {
        0..=9 => (0..rng.below(8)).map(|_| rng.byte()).collect(),
        10..=54 => entry_command(rng, first),
        55..=63 => vec![code::LEAVE, leaving.unwrap_or(0) as u8],
        64 => vec![code::MAKE_HUB],
        _ => vec![joining_code.unwrap_or(0), first as u8, second as u8],
    };
    if rng.chance(30) {
        damage_command(rng, &mut bytes);
    }
    bytes
}

/// A number mostly below the bound, now and then at it or just above.
fn near(rng: &mut Rng, bound: usize) -> usize {
    if rng.chance(90) {
        rng.below(bound)
    } else {
        bound + rng.below(2)
    }
}

fn damage_command(rng: &mut Rng, bytes: &mut Vec<u8>) {
    match rng.below(5) {
        0 => bytes.push(rng.byte()),
        1 => bytes.truncate(rng.below(bytes.len() + 1)),
        2 => set_byte(bytes, 0, rng.below(16) as u8),
        3 => set_byte(bytes, 2, 30 + rng.below(4) as u8),
        _ => {
            let place = rng.below(bytes.len());
            set_byte(bytes, place, rng.byte());
        }
    }
}

pub(super) fn set_byte(bytes: &mut [u8], place: usize, value: u8) {
    if let Some(byte) = bytes.get_mut(place) {
        *byte = value;
    }
}
