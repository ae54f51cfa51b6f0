// Rooms whose next merge has so many clashes.

use super::commands::{change_by_one_of, Change};
use crate::model::{code, Entry, Room, Version, HIGHEST_HEADING, HIGHEST_LEVEL, STRIPS};
use crate::rng::Rng;

/// The levels and headings of a board: level and heading of strip 0, those of strip 1, and so on.
pub const VALUES: usize = 2 * STRIPS;
type Values = [u16; VALUES];

/// Values that differ in one byte alone or have their bytes swapped, and the ends of the ranges.
const NEAR_VALUES: [u16; 10] = [
    0,
    1,
    2,
    0x0100,
    0x0101,
    0x0102,
    HIGHEST_HEADING,
    0x0200,
    0x0201,
    HIGHEST_LEVEL,
];

/// A room of consoles 0 and 1 in which a merge of the two, either way round, has so many clashes; some versions are free.
pub fn clashing_room(rng: &mut Rng, clashes: usize) -> Room {
    let (mut l, mut a, mut b) = ([0; VALUES], [0; VALUES], [0; VALUES]);
    let places: Vec<usize> = (0..VALUES).collect();
    for (number, place) in rng.shuffled(&places).into_iter().enumerate() {
        [l[place], a[place], b[place]] = three_values(rng, place, number < clashes);
    }
    let mut room = Room::opened(1);
    let base = append_changes(rng, &mut room, 0, &[0; VALUES], &l);
    room.heads[0] = Some(append_changes(rng, &mut room, base, &l, &a));
    room.heads[1] = Some(append_changes(rng, &mut room, base, &l, &b));
    room.capacity = room.versions.len() + rng.between(1, 12);
    room
}

/// Values of one cell for base, receiver and giver: all three differ, or two or all of them agree.
fn three_values(rng: &mut Rng, place: usize, all_differ: bool) -> [u16; 3] {
    let highest = [HIGHEST_LEVEL, HIGHEST_HEADING][place % 2];
    let mut values = NEAR_VALUES.to_vec();
    values.retain(|&value| value <= highest);
    let values = rng.shuffled(&values);
    let (one, other) = (values[0], values[1]);
    let agreeing = [
        [one, one, one],
        [one, one, other],
        [one, other, one],
        [one, other, other],
    ];
    if all_differ {
        [one, other, values[2]]
    } else {
        rng.pick(&agreeing).unwrap_or_default()
    }
}

/// Appends a chain of entries on a parent, in any order, that bring levels and headings from some values to others; now and then one that
/// stays is written again, and other cells change. The last version.
fn append_changes(
    rng: &mut Rng,
    room: &mut Room,
    mut parent: usize,
    from: &Values,
    to: &Values,
) -> usize {
    let mut changes: Vec<Change> = (0..rng.between(1, 20))
        .map(|_| change_by_one_of(rng, code::MARK_PUT, code::ALERT_OFF))
        .collect();
    for place in 0..VALUES {
        if from[place] != to[place] || rng.chance(20) {
            let setting_code = [code::LEVEL, code::HEADING][place % 2];
            changes.push((setting_code, (place / 2) as u8, to[place]));
        }
    }
    for (code, strip, operand) in rng.shuffled(&changes) {
        let entry = Entry {
            parent,
            code,
            strip,
            operand,
        };
        parent = room.versions.len();
        room.versions.push(Version::Entry(entry));
    }
    parent
}
