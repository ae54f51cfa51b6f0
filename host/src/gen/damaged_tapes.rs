// Tapes with something changed.

use super::commands::set_byte;
use super::damaged_stores::set_field;
use crate::model::record;
use crate::rng::Rng;

/// A tape with one to three damages of any kind.
pub fn damaged_tape(rng: &mut Rng, tape: &[u8]) -> Vec<u8> {
    let mut damaged = tape.to_vec();
    for _ in 0..rng.between(1, 3) {
        damage_tape_once(rng, &mut damaged);
    }
    damaged
}

fn damage_tape_once(rng: &mut Rng, tape: &mut Vec<u8>) {
    let place = rng.below(tape.len());
    match rng.below(20) {
        0 => tape.truncate(place),
        1 => tape.push(rng.byte()),
        2 => tape.insert(place, rng.byte()),
        3 => set_byte(tape, place, rng.byte()),
        4 => set_byte(tape, place, rng.below(0x26) as u8),
        5 => change_bits(rng, tape, place),
        6..=8 => move_record(rng, tape),
        9 => set_field(rng, tape, 1),
        10 => put_hub_record(rng, tape),
        _ => change_record(rng, tape),
    }
}

/// Puts a record of the hub before another record.
fn put_hub_record(rng: &mut Rng, tape: &mut Vec<u8>) {
    let (place, _) = rng.pick(&record_places(tape)).unwrap_or((0, 0));
    tape.insert(place, record::HUB);
}

pub(super) fn change_bits(rng: &mut Rng, bytes: &mut [u8], place: usize) {
    if let Some(byte) = bytes.get_mut(place) {
        *byte ^= 1 << rng.below(8);
    }
}

/// Where the records of a tape start and end, as their codes say; in a damaged one a byte of no code passes for a record.
fn record_places(tape: &[u8]) -> Vec<(usize, usize)> {
    let mut places = Vec::new();
    let mut start = 0;
    while let Some(&record_code) = tape.get(start) {
        let length = match record_code {
            record::CAPACITY => 3,
            record::ENTRY => 7,
            record::MERGE => 5,
            record::HEAD => 4,
            _ => 1,
        };
        places.push((start, (start + length).min(tape.len())));
        start += length;
    }
    places
}

/// Copies a whole record to another place, or cuts it out, or both.
fn move_record(rng: &mut Rng, tape: &mut Vec<u8>) {
    let (start, end) = rng.pick(&record_places(tape)).unwrap_or((0, 0));
    let copied = tape[start..end].to_vec();
    if rng.chance(50) {
        tape.drain(start..end);
    }
    if rng.chance(60) {
        let (target, _) = rng.pick(&record_places(tape)).unwrap_or((0, 0));
        tape.splice(target..target, copied);
    }
}

/// Changes one byte of a record, not its code, to a small number, an edge of a range, or one next to what it was.
fn change_record(rng: &mut Rng, tape: &mut [u8]) {
    let (start, end) = rng.pick(&record_places(tape)).unwrap_or((0, 0));
    if end - start < 2 {
        return;
    }
    let place = rng.between(start + 1, end - 1);
    let edges = [0, 1, 2, 8, 9, 15, 16, 31, 32, 0x58, 0x59, 0x68, 0x69, 0xFF];
    let value = match rng.below(4) {
        0 => rng.pick(&edges).unwrap_or(0),
        1 => tape[place].wrapping_add(1),
        2 => tape[place].wrapping_sub(1),
        _ => rng.below(40) as u8,
    };
    set_byte(tape, place, value);
}
