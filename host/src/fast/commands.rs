// Commands: decoded, refused, carried out.

use super::fields::{
    common_field, has_hub, head_of, number, put_common_field, put_number, Block, Header, CONSOLES,
    COUNT_AT, ENTRY_ROW_AT, HUB, HUB_AT, STRIPS,
};
use super::questions::refuse_high_console;
use super::rows::has_bit;
use super::sound::{can_make_hub, sound_parts_mut};
use super::versions::{write_entry, write_merge, Entry};
use crate::model::{refusal, refuse_if};

enum Command {
    Fork { new: usize, old: usize },
    Entry { console: usize, entry: Entry },
    Merge { receiver: usize, giver: usize },
    FastForward { receiver: usize, giver: usize },
    Leave { console: usize },
    MakeHub,
}

fn decode(bytes: &[u8]) -> Result<Command, u32> {
    match *bytes {
        [code @ (0x01 | 0x09 | 0x0A), first, second] => decode_pair(code, first, second),
        [code @ (0x02 | 0x03), console, strip, high, low] => {
            decode_entry(console, code, strip, u16::from_be_bytes([high, low]))
        }
        [code @ (0x04 | 0x05), console, strip, mark] => {
            decode_entry(console, code, strip, mark.into())
        }
        [code @ (0x06..=0x08), console, strip] => decode_entry(console, code, strip, 0),
        [0x0B, console] => decode_leave(console),
        [0x0C] => Ok(Command::MakeHub),
        [0x01..=0x0C, ..] => Err(refusal::WRONG_LENGTH),
        _ => Err(refusal::NO_SUCH_COMMAND),
    }
}

/// A fork, merge or fast-forward of two consoles.
fn decode_pair(code: u8, first: u8, second: u8) -> Result<Command, u32> {
    refuse_high_console(first.max(second).into())?;
    refuse_if(first == second, refusal::SAME_CONSOLE_TWICE)?;
    let (first, second) = (first.into(), second.into());
    Ok(match code {
        0x01 => Command::Fork {
            new: first,
            old: second,
        },
        0x09 => Command::Merge {
            receiver: first,
            giver: second,
        },
        _ => Command::FastForward {
            receiver: first,
            giver: second,
        },
    })
}

/// An entry, whose parent is found in the store later.
fn decode_entry(console: u8, code: u8, strip: u8, operand: u16) -> Result<Command, u32> {
    refuse_high_console(console.into())?;
    refuse_if(strip >= STRIPS, refusal::STRIP_TOO_HIGH)?;
    let entry = Entry {
        parent: 0,
        code,
        strip,
        operand,
    };
    refuse_if(!entry.is_in_range(), refusal::OPERAND_TOO_HIGH)?;
    Ok(Command::Entry {
        console: console.into(),
        entry,
    })
}

fn decode_leave(console: u8) -> Result<Command, u32> {
    refuse_high_console(console.into())?;
    refuse_if(console == 0, refusal::CONSOLE_0_LEAVES)?;
    Ok(Command::Leave {
        console: console.into(),
    })
}

pub(super) fn obey(store: &mut [u8], command: &[u8]) -> Result<usize, u32> {
    let decoded = decode(command)?;
    let (header, blocks) = sound_parts_mut(store)?;
    match decoded {
        Command::Fork { new, old } => fork(header, new, old)?,
        Command::Entry { console, entry } => enter(header, blocks, console, entry)?,
        Command::Merge { receiver, giver } => return merge(header, blocks, receiver, giver),
        Command::FastForward { receiver, giver } => fast_forward(header, blocks, receiver, giver)?,
        Command::Leave { console } => leave(header, console)?,
        Command::MakeHub => make_hub(header, blocks)?,
    }
    Ok(0)
}

/// Whether there is a hub and neither of these two is it.
fn is_past_hub(header: &Header, receiver: usize, giver: usize) -> bool {
    has_hub(header) && receiver != HUB && giver != HUB
}

fn fork(header: &mut Header, new: usize, old: usize) -> Result<(), u32> {
    head_of(header, old)?;
    refuse_if(head_of(header, new).is_ok(), refusal::NEW_CONSOLE_PRESENT)?;
    refuse_if(has_hub(header) && old != HUB, refusal::NOT_THROUGH_HUB)?;
    follow(header, new, old);
    Ok(())
}

fn make_hub(header: &mut Header, blocks: &[Block]) -> Result<(), u32> {
    refuse_if(!can_make_hub(header, blocks), refusal::CANNOT_MAKE_HUB)?;
    put_number(header, HUB_AT, 1);
    Ok(())
}

/// The heads of receiver and giver, or refusal 12, or 22.
fn heads_of_two(header: &Header, receiver: usize, giver: usize) -> Result<(usize, usize), u32> {
    let heads = (head_of(header, receiver)?, head_of(header, giver)?);
    refuse_if(
        is_past_hub(header, receiver, giver),
        refusal::NOT_THROUGH_HUB,
    )?;
    Ok(heads)
}

fn fast_forward(
    header: &mut Header,
    blocks: &[Block],
    receiver: usize,
    giver: usize,
) -> Result<(), u32> {
    let (receiver_head, giver_head) = heads_of_two(header, receiver, giver)?;
    refuse_if(
        has_bit(&blocks[receiver_head], giver_head),
        refusal::GIVER_BEHIND,
    )?;
    refuse_if(
        !has_bit(&blocks[giver_head], receiver_head),
        refusal::RECEIVER_NOT_BEHIND,
    )?;
    follow(header, receiver, giver);
    Ok(())
}

/// The console gets the leader's head, and with it all its common versions.
fn follow(header: &mut Header, console: usize, leader: usize) {
    for other in 0..CONSOLES {
        let field = common_field(header, leader, other);
        put_common_field(header, console, other, field);
    }
    let head = common_field(header, leader, leader);
    put_common_field(header, console, leader, head);
    put_common_field(header, console, console, head);
}

/// Another head descends from the console's head exactly where the two have the console's head in common: its row of the table tells.
fn leave(header: &mut Header, console: usize) -> Result<(), u32> {
    let head = head_of(header, console)?;
    let descends =
        |other: usize| other != console && common_field(header, console, other) == head + 1;
    refuse_if(
        !(0..CONSOLES).any(descends),
        refusal::NO_OTHER_HEAD_DESCENDS,
    )?;
    for other in 0..CONSOLES {
        put_common_field(header, console, other, 0);
    }
    Ok(())
}

fn enter(
    header: &mut Header,
    blocks: &mut [Block],
    console: usize,
    entry: Entry,
) -> Result<(), u32> {
    let parent = head_of(header, console)?;
    let version = next_version(header, blocks)?;
    write_entry(blocks, version, &Entry { parent, ..entry });
    header[ENTRY_ROW_AT + version / 8] |= 1 << (version % 8);
    put_number(header, COUNT_AT, version + 1);
    put_common_field(header, console, console, version + 1);
    Ok(())
}

/// The number of the version to be made, or refusal 18.
fn next_version(header: &Header, blocks: &[Block]) -> Result<usize, u32> {
    let version = number(header, COUNT_AT);
    refuse_if(version == blocks.len(), refusal::NO_VERSION_LEFT)?;
    Ok(version)
}

/// Merges, and counts the clashes.
fn merge(
    header: &mut Header,
    blocks: &mut [Block],
    receiver: usize,
    giver: usize,
) -> Result<usize, u32> {
    let (receiver_head, giver_head) = heads_of_two(header, receiver, giver)?;
    refuse_if(
        has_bit(&blocks[receiver_head], giver_head),
        refusal::GIVER_BEHIND,
    )?;
    refuse_if(
        has_bit(&blocks[giver_head], receiver_head),
        refusal::RECEIVER_BEHIND,
    )?;
    let commons = commons_after_merge(header, blocks, receiver, giver)?;
    let version = next_version(header, blocks)?;
    let base = common_field(header, receiver, giver) - 1;
    let clashes = write_merge(blocks, version, (receiver_head, giver_head), base);
    for (other, field) in commons.into_iter().enumerate() {
        put_common_field(header, receiver, other, field);
    }
    put_common_field(header, receiver, giver, giver_head + 1);
    put_common_field(header, receiver, receiver, version + 1);
    put_number(header, COUNT_AT, version + 1);
    Ok(clashes)
}

/// For each third console the later of its common versions with receiver and giver, as fields, or refusal 17.
fn commons_after_merge(
    header: &Header,
    blocks: &[Block],
    receiver: usize,
    giver: usize,
) -> Result<[usize; CONSOLES], u32> {
    let mut fields = [0; CONSOLES];
    for (third, later) in fields.iter_mut().enumerate() {
        let with_receiver = common_field(header, receiver, third);
        let with_giver = common_field(header, giver, third);
        if third == receiver || third == giver || with_receiver == 0 {
            continue;
        }
        *later = if has_bit(&blocks[with_giver - 1], with_receiver - 1) {
            with_giver
        } else if has_bit(&blocks[with_receiver - 1], with_giver - 1) {
            with_receiver
        } else {
            return Err(refusal::COMMONS_APART);
        };
    }
    Ok(fields)
}
