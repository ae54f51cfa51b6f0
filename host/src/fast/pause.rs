// The tape of a store.

use super::fields::{
    common_field, has_hub, number, Block, Header, CONSOLES, COUNT_AT, ENTRY_ROW_AT, MERGE_CODE,
};
use super::rows::{ones, row_at};
use super::sound::sound_parts;
use crate::model::refusal;

pub(super) fn write_tape(store: &[u8], tape: &mut [u8]) -> Result<usize, u32> {
    let (header, blocks) = sound_parts(store)?;
    let later = &blocks[1..number(header, COUNT_AT)];
    let length = tape_length(header, later.len());
    let tape = tape.get_mut(..length).ok_or(refusal::BUFFER_TOO_SHORT)?;
    let rest = put_record(tape, [0x20, header[0], header[1]]);
    let rest = put_versions(rest, later);
    let mut rest = put_heads(rest, header);
    if has_hub(header) {
        rest = put_record(rest, [0x25]);
    }
    put_record(rest, [0x24]);
    Ok(length)
}

/// The length of the tape of a store with so many versions after version 0.
fn tape_length(header: &Header, later: usize) -> usize {
    let entries = ones(&row_at(header, ENTRY_ROW_AT));
    let versions = 7 * entries + 5 * (later - entries);
    3 + versions + 4 * present(header).count() + usize::from(has_hub(header)) + 1
}

/// The present consoles, rising.
pub(super) fn present(header: &Header) -> impl Iterator<Item = usize> + '_ {
    (0..CONSOLES).filter(|&console| common_field(header, console, console) != 0)
}

fn put_versions<'a>(tape: &'a mut [u8], later: &[Block]) -> &'a mut [u8] {
    let mut rest = tape;
    for block in later {
        let [code, strip, high, low, parent_high, parent_low, giver_high, giver_low, ..] = *block;
        rest = if code == MERGE_CODE {
            put_record(rest, [0x22, parent_high, parent_low, giver_high, giver_low])
        } else {
            put_record(
                rest,
                [0x21, parent_high, parent_low, code, strip, high, low],
            )
        };
    }
    rest
}

fn put_heads<'a>(tape: &'a mut [u8], header: &Header) -> &'a mut [u8] {
    let mut rest = tape;
    for console in present(header) {
        let head = common_field(header, console, console) - 1;
        let [high, low] = (head as u16).to_be_bytes();
        rest = put_record(rest, [0x23, console as u8, high, low]);
    }
    rest
}

/// Writes one record at the front, which is long enough, and gives what is behind it.
fn put_record<const N: usize>(tape: &mut [u8], record: [u8; N]) -> &mut [u8] {
    let (front, rest) = tape.split_at_mut(N);
    front.copy_from_slice(&record);
    rest
}
