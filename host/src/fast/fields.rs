// The places of the fields in a store, and the fields of its header.

use crate::model::refusal;

pub(super) const CONSOLES: usize = 16;
/// The console through which a room with a hub meets.
pub(super) const HUB: usize = 0;
pub(super) const STRIPS: u8 = 32;
pub(super) const HIGHEST_CAPACITY: usize = 1024;

pub(super) const CAPACITY_AT: usize = 0;
pub(super) const HUB_AT: usize = 2;
pub(super) const COUNT_AT: usize = 4;
pub(super) const COUNT_END: usize = 6;
pub(super) const ENTRY_ROW_AT: usize = 128;
pub(super) const COMMONS_AT: usize = 256;
pub(super) const COMMONS_END: usize = 768;

/// Places within a block, and the code that makes a node a merge.
pub(super) const PARENT_AT: usize = 4;
pub(super) const GIVER_AT: usize = 6;
pub(super) const BASE_AT: usize = 8;
pub(super) const NODE_END: usize = 10;
pub(super) const ROW_AT: usize = 32;
pub(super) const BOARD_AT: usize = 160;
pub(super) const STRIP_BYTES: usize = 12;
pub(super) const MERGE_CODE: u8 = 0x09;

pub(super) type Header = [u8; 4096];
pub(super) type Block = [u8; 544];

pub(super) fn number(bytes: &[u8], place: usize) -> usize {
    usize::from(u16::from_be_bytes([bytes[place], bytes[place + 1]]))
}

pub(super) fn put_number(bytes: &mut [u8], place: usize, number: usize) {
    bytes[place..place + 2].copy_from_slice(&(number as u16).to_be_bytes());
}

fn common_at(console: usize, other: usize) -> usize {
    COMMONS_AT + 2 * (CONSOLES * console + other)
}

/// The common version of two consoles as it stands in the table: one higher, 0 where one is absent.
pub(super) fn common_field(header: &Header, console: usize, other: usize) -> usize {
    number(header, common_at(console, other))
}

/// The table is symmetric, so a common version is written twice.
pub(super) fn put_common_field(header: &mut Header, console: usize, other: usize, field: usize) {
    put_number(header, common_at(console, other), field);
    put_number(header, common_at(other, console), field);
}

/// Whether console 0 is the hub.
pub(super) fn has_hub(header: &Header) -> bool {
    number(header, HUB_AT) == 1
}

/// The head of a console, or refusal 12.
pub(super) fn head_of(header: &Header, console: usize) -> Result<usize, u32> {
    let field = common_field(header, console, console);
    field.checked_sub(1).ok_or(refusal::CONSOLE_ABSENT)
}

/// Without a way out in the middle, so that many bytes are looked at at a time.
pub(super) fn all_zero(bytes: &[u8]) -> bool {
    bytes.iter().fold(0, |all, byte| all | byte) == 0
}
