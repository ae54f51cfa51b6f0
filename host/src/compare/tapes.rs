// Tapes sound, damaged, cut, long and with a hub, and commands and records with numbers at the edges.

use super::buffers::Pair;
use super::call::{Call, CELLS};
use super::comparison::Comparison;
use super::drawn::{bytes_of_length, output_length, pairs};
use super::Outcome;
use crate::gen;
use crate::layout::{self, store_bytes};
use crate::model::{code, record, room_of_tape, tape_of, Room};
use crate::rng::Rng;

/// Tapes of graphs sound and unsound, and damaged ones, each resumed and, where accepted, used.
pub(super) fn compare_tapes(
    comparison: &mut Comparison,
    rng: &mut Rng,
    count: usize,
) -> Outcome<()> {
    for _ in 0..count {
        let graph = gen::graph_tape(rng);
        let tape = if rng.chance(50) {
            graph
        } else {
            gen::damaged_tape(rng, &graph)
        };
        let capacity = room_of_tape(&tape).map_or(rng.between(1, 40), |room| room.capacity);
        let length = output_length(rng, store_bytes(capacity));
        let mut pair = Pair::of_store(&bytes_of_length(rng, length));
        if comparison.resume(&mut pair, &tape)?.answer == 0 {
            let strip = gen::some_strip(rng).into();
            comparison.origins(&mut pair, &[0, 1], &[strip], &CELLS)?;
            comparison.verdict(&mut pair)?;
            comparison.any_call(rng, &mut pair)?;
            comparison.output_call(rng, Call::Pause, &mut pair, tape.len())?;
        }
    }
    Ok(())
}

/// A tape cut at every place, and with each of its bytes changed.
pub(super) fn compare_cut_tapes(comparison: &mut Comparison, rng: &mut Rng) -> Outcome<()> {
    let room = gen::some_room(rng, 12, 40);
    let tape = tape_of(&room);
    let mut pair = Pair::of_store(&bytes_of_length(rng, store_bytes(room.capacity)));
    for place in 0..tape.len() {
        comparison.resume(&mut pair, &tape[..place])?;
        let mut changed = tape.clone();
        changed[place] ^= 1 << rng.below(8);
        comparison.resume(&mut pair, &changed)?;
        changed[place] = rng.byte();
        comparison.resume(&mut pair, &changed)?;
    }
    Ok(())
}

/// A room with a hub, one that may be able to have one, and one that isn't.
pub(super) fn rooms_for_a_hub(rng: &mut Rng) -> [Room; 3] {
    [
        gen::hub_room(rng, 8, 20),
        gen::random_room(rng, 8, 20),
        gen::some_stuck_room(rng),
    ]
}

/// Tapes with one or two more records of the hub at every place.
pub(super) fn compare_hub_tapes(comparison: &mut Comparison, rng: &mut Rng) -> Outcome<()> {
    for room in rooms_for_a_hub(rng) {
        let tape = tape_of(&room);
        let mut pair = Pair::of_store(&bytes_of_length(rng, store_bytes(room.capacity)));
        for (place, more) in pairs(&Vec::from_iter(0..=tape.len()), &[1, 2]) {
            let (before, behind) = tape.split_at(place);
            let hubs = vec![record::HUB; more];
            comparison.resume(&mut pair, &[before, &hubs, behind].concat())?;
        }
    }
    Ok(())
}

/// Tapes of many versions, around the highest capacity and around what 16 bits count.
pub(super) fn compare_long_tapes(comparison: &mut Comparison, rng: &mut Rng) -> Outcome<()> {
    let lengths = [
        1022, 1023, 1024, 65_534, 65_535, 65_536, 65_537, 65_540, 70_000,
    ];
    for (versions, capacity) in pairs(&lengths, &[1024, 1023]) {
        let tape = long_tape(capacity, versions, rng.chance(50));
        let length = output_length(rng, store_bytes(capacity.into()));
        let mut pair = Pair::of_store(&bytes_of_length(rng, length));
        comparison.resume(&mut pair, &tape)?;
    }
    Ok(())
}

/// A tape of so many entries, each on the one before it, or all on version 0. Numbers beyond 16 bits lose what is above them.
fn long_tape(capacity: u16, versions: usize, is_chained: bool) -> Vec<u8> {
    let number = |version: usize| if is_chained { version as u16 } else { 0 };
    let mut tape = tape_start(capacity);
    for version in 0..versions {
        tape.extend(entry_record(number(version), code::CALL_COUNTED, 0, 0));
    }
    tape.extend(tape_end(number(versions)));
    tape
}

fn tape_start(capacity: u16) -> Vec<u8> {
    let [high, low] = capacity.to_be_bytes();
    vec![record::CAPACITY, high, low]
}

fn entry_record(parent: u16, code: u8, strip: u8, operand: u16) -> [u8; 7] {
    let [high, low] = parent.to_be_bytes();
    let [operand_high, operand_low] = operand.to_be_bytes();
    [
        record::ENTRY,
        high,
        low,
        code,
        strip,
        operand_high,
        operand_low,
    ]
}

/// The head of console 0, and the end.
fn tape_end(head: u16) -> [u8; 5] {
    let [high, low] = head.to_be_bytes();
    [record::HEAD, 0, high, low, record::END]
}

const EDGE_STRIPS: [u8; 4] = [0, 31, 32, 255];
const EDGE_OPERANDS: [u16; 11] = [0, 1, 15, 16, 255, 256, 360, 361, 600, 601, 0xFFFF];

/// Codes, strips and operands at and beyond the ends of their ranges, as commands and on tapes.
pub(super) fn compare_edges(comparison: &mut Comparison, rng: &mut Rng) -> Outcome<()> {
    let opened = comparison.opened(rng, 3, store_bytes(3))?;
    let codes: Vec<u8> = (0..=0x0D).collect();
    for (code, strip) in pairs(&codes, &EDGE_STRIPS) {
        compare_edge_commands(comparison, &opened, code, strip)?;
        compare_edge_records(comparison, &opened, code, strip)?;
    }
    Ok(())
}

fn compare_edge_commands(
    comparison: &mut Comparison,
    opened: &Pair,
    code: u8,
    strip: u8,
) -> Outcome<()> {
    let operands = pairs(&EDGE_OPERANDS, &[0, 15, 16]);
    for ((operand, console), length) in pairs(&operands, &[5, 4, 3, 2, 1]) {
        let [high, low] = operand.to_be_bytes();
        let command = [code, console, strip, high, low];
        comparison.command(&mut opened.clone(), &command[..length])?;
    }
    Ok(())
}

fn compare_edge_records(
    comparison: &mut Comparison,
    opened: &Pair,
    code: u8,
    strip: u8,
) -> Outcome<()> {
    for operand in EDGE_OPERANDS {
        let record = entry_record(0, code, strip, operand);
        let tape = [&tape_start(3)[..], &record, &tape_end(1)].concat();
        comparison.resume(&mut opened.clone(), &tape)?;
    }
    Ok(())
}

/// Garbage as commands and tapes.
pub(super) fn compare_garbage(
    comparison: &mut Comparison,
    rng: &mut Rng,
    count: usize,
) -> Outcome<()> {
    let mut pair = Pair::of_store(&layout::encode(&gen::some_room(rng, 8, 12)));
    for _ in 0..count {
        comparison.command(&mut pair, &gen::any_command(rng))?;
        comparison.command(&mut pair, &gen::garbage(rng, 8))?;
        let mut tape = gen::garbage(rng, 40);
        if let (Some(first), true) = (tape.first_mut(), rng.chance(50)) {
            *first = 0x20;
        }
        comparison.resume(&mut pair, &tape)?;
    }
    Ok(())
}
