// The tape of a room, and the room of a tape.

use super::room::{parents, Entry, Room, Version};
use super::sound::{capacity_is_in_range, entry_is_in_range, sound};
use super::{record, refusal, refuse_if, CONSOLES};

/// The pause tape of a room.
pub fn tape_of(room: &Room) -> Vec<u8> {
    let mut tape = vec![record::CAPACITY];
    push_16_bits(&mut tape, room.capacity);
    for version in room.versions.iter().skip(1) {
        push_version(&mut tape, version);
    }
    push_heads(&mut tape, room);
    if room.hub {
        tape.push(record::HUB);
    }
    tape.push(record::END);
    tape
}

/// A head record for each present console, consoles rising.
fn push_heads(tape: &mut Vec<u8>, room: &Room) {
    for (console, head) in room.heads.iter().enumerate() {
        if let Some(head) = *head {
            tape.extend([record::HEAD, console as u8]);
            push_16_bits(tape, head);
        }
    }
}

fn push_16_bits(tape: &mut Vec<u8>, number: usize) {
    tape.extend((number as u16).to_be_bytes());
}

fn push_version(tape: &mut Vec<u8>, version: &Version) {
    match *version {
        Version::Start => {}
        Version::Entry(entry) => {
            tape.push(record::ENTRY);
            push_16_bits(tape, entry.parent);
            tape.extend([entry.code, entry.strip]);
            push_16_bits(tape, usize::from(entry.operand));
        }
        Version::Merge { receiver, giver } => {
            tape.push(record::MERGE);
            push_16_bits(tape, receiver);
            push_16_bits(tape, giver);
        }
    }
}

/// The room of a tape, or the lowest of the refusals 7 to 10.
pub fn room_of_tape(tape: &[u8]) -> Result<Room, u32> {
    let written = split_tape(tape).ok_or(refusal::NOT_A_TAPE)?;
    refuse_if(
        !capacity_is_in_range(written.capacity),
        refusal::CAPACITY_OUT_OF_RANGE,
    )?;
    refuse_if(!tape_is_in_range(&written), refusal::TAPE_OUT_OF_RANGE)?;
    let room = room_as_written(written);
    refuse_if(!sound(&room), refusal::TAPE_NOT_SOUND)?;
    Ok(room)
}

/// What a tape says, in any range: version 0 and the versions of its records, its head records in order, and whether it names the hub.
struct WrittenTape {
    capacity: usize,
    versions: Vec<Version>,
    heads: Vec<(usize, usize)>,
    hub: bool,
}

enum Record {
    Capacity(usize),
    Version(Version),
    Head { console: usize, version: usize },
    Hub,
    End,
}

/// The first whole record of a tape and the rest of the tape.
fn split_record(tape: &[u8]) -> Option<(Record, &[u8])> {
    let number = |high: u8, low: u8| usize::from(u16::from_be_bytes([high, low]));
    match *tape {
        [record::CAPACITY, high, low, ref rest @ ..] => {
            Some((Record::Capacity(number(high, low)), rest))
        }
        [record::ENTRY, high, low, code, strip, operand_high, operand_low, ref rest @ ..] => {
            let entry = Entry {
                parent: number(high, low),
                code,
                strip,
                operand: u16::from_be_bytes([operand_high, operand_low]),
            };
            Some((Record::Version(Version::Entry(entry)), rest))
        }
        [record::MERGE, high, low, giver_high, giver_low, ref rest @ ..] => {
            let merged = Version::Merge {
                receiver: number(high, low),
                giver: number(giver_high, giver_low),
            };
            Some((Record::Version(merged), rest))
        }
        [record::HEAD, console, high, low, ref rest @ ..] => {
            let head = Record::Head {
                console: usize::from(console),
                version: number(high, low),
            };
            Some((head, rest))
        }
        [record::HUB, ref rest @ ..] => Some((Record::Hub, rest)),
        [record::END, ref rest @ ..] => Some((Record::End, rest)),
        _ => None,
    }
}

/// The tape as capacity, versions, at least one head, the hub where it is named, and the end, in this order; nothing for any other bytes.
fn split_tape(tape: &[u8]) -> Option<WrittenTape> {
    let (Record::Capacity(capacity), mut rest) = split_record(tape)? else {
        return None;
    };
    let mut versions = vec![Version::Start];
    let mut heads = Vec::new();
    let mut hub = false;
    loop {
        let (next, behind) = split_record(rest)?;
        rest = behind;
        match next {
            Record::Version(version) if heads.is_empty() => versions.push(version),
            Record::Head { console, version } if !hub => heads.push((console, version)),
            Record::Hub if !heads.is_empty() && !hub => hub = true,
            Record::End if !heads.is_empty() && rest.is_empty() => break,
            _ => return None,
        }
    }
    Some(WrittenTape {
        capacity,
        versions,
        heads,
        hub,
    })
}

/// None of the things for which refusal 9 stands.
fn tape_is_in_range(written: &WrittenTape) -> bool {
    written.versions.len() <= written.capacity
        && written_versions_are_in_range(&written.versions)
        && written_consoles_are_in_order(&written.heads)
        && written
            .heads
            .iter()
            .all(|&(_, version)| version < written.versions.len())
}

fn written_versions_are_in_range(versions: &[Version]) -> bool {
    versions.iter().enumerate().all(|(number, version)| {
        let in_range = match version {
            Version::Entry(entry) => entry_is_in_range(entry),
            _ => true,
        };
        in_range && parents(version).all(|parent| parent < number)
    })
}

/// The first console is 0, each is above the one before it, and none is above 15.
fn written_consoles_are_in_order(heads: &[(usize, usize)]) -> bool {
    let starts_with_0 = heads.first().is_some_and(|&(console, _)| console == 0);
    let rises = heads.windows(2).all(|pair| pair[0].0 < pair[1].0);
    starts_with_0 && rises && heads.iter().all(|&(console, _)| console < CONSOLES)
}

fn room_as_written(written: WrittenTape) -> Room {
    let mut heads = [None; CONSOLES];
    for (console, version) in written.heads {
        heads[console] = Some(version);
    }
    Room {
        capacity: written.capacity,
        hub: written.hub,
        versions: written.versions,
        heads,
    }
}
