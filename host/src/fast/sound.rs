// The test whether bytes hold a sound store.

use super::boards::{cells_at, changed_strip, strips, Sides};
use super::fields::{
    all_zero, common_field, number, Block, Header, BASE_AT, BOARD_AT, CAPACITY_AT, COMMONS_END,
    CONSOLES, COUNT_AT, COUNT_END, ENTRY_ROW_AT, GIVER_AT, HIGHEST_CAPACITY, HUB, HUB_AT,
    MERGE_CODE, NODE_END, PARENT_AT, ROW_AT, STRIP_BYTES,
};
use super::rows::{bits_below, both, either, has_bit, row_at, row_of, same, with_bit, Row};
use super::versions::Entry;
use crate::model::refusal;
use std::array;

/// The header and as many blocks as the capacity says, where it is in range and the bytes are enough for it.
pub(super) fn parts(store: &[u8]) -> Option<(&Header, &[Block])> {
    let (header, rest) = store.split_first_chunk()?;
    let capacity = number(header, CAPACITY_AT);
    let blocks = rest.as_chunks().0.get(..capacity)?;
    capacity_is_in_range(capacity).then_some((header, blocks))
}

fn parts_mut(store: &mut [u8]) -> Option<(&mut Header, &mut [Block])> {
    let (header, rest) = store.split_first_chunk_mut()?;
    let capacity = number(header, CAPACITY_AT);
    let blocks = rest.as_chunks_mut().0.get_mut(..capacity)?;
    capacity_is_in_range(capacity).then_some((header, blocks))
}

pub(super) fn capacity_is_in_range(capacity: usize) -> bool {
    (1..=HIGHEST_CAPACITY).contains(&capacity)
}

/// The parts of a store that is sound, or refusal 11.
pub(super) fn sound_parts(store: &[u8]) -> Result<(&Header, &[Block]), u32> {
    let parts = parts(store).filter(|(header, blocks)| is_sound(header, blocks));
    parts.ok_or(refusal::NO_SOUND_STORE)
}

pub(super) fn sound_parts_mut(store: &mut [u8]) -> Result<(&mut Header, &mut [Block]), u32> {
    let parts = parts_mut(store).filter(|(header, blocks)| is_sound(header, blocks));
    parts.ok_or(refusal::NO_SOUND_STORE)
}

fn is_sound(header: &Header, blocks: &[Block]) -> bool {
    let Some((held, unused)) = blocks.split_at_checked(number(header, COUNT_AT)) else {
        return false;
    };
    let Some(entry_row) = entries_of_sound(held) else {
        return false;
    };
    all_zero(&header[COUNT_END..ENTRY_ROW_AT])
        && all_zero(&header[COMMONS_END..])
        && all_zero(unused.as_flattened())
        && same(&row_at(header, ENTRY_ROW_AT), &entry_row)
        && heads_are_sound(header, held)
        && hub_is_sound(header, held)
}

/// The field of the hub is 0, or it is 1 and these heads, which are sound, can have one.
pub(super) fn hub_is_sound(header: &Header, held: &[Block]) -> bool {
    match number(header, HUB_AT) {
        0 => true,
        1 => can_make_hub(header, held),
        _ => false,
    }
}

/// Whether the common version of every two present consoles is an ancestor of console 0's head, in a store whose heads are sound.
pub(super) fn can_make_hub(header: &Header, held: &[Block]) -> bool {
    let hub_head = &held[common_field(header, HUB, HUB) - 1];
    all_commons(
        |console, other| common_field(header, console, other),
        |common| has_bit(hub_head, common),
    )
}

/// Whether this is true of the common version of every two present consoles other than the hub, by the fields of the table. The hub's own
/// commons are ancestors of its head by themselves.
pub(super) fn all_commons(
    field: impl Fn(usize, usize) -> usize,
    is_right: impl Fn(usize) -> bool,
) -> bool {
    (HUB + 1..CONSOLES).all(|console| {
        (HUB + 1..console).all(|other| match field(console, other) {
            0 => true,
            above => is_right(above - 1),
        })
    })
}

/// The row of entries, where there is a version 0 and every version is right after those before it.
fn entries_of_sound(held: &[Block]) -> Option<Row> {
    let (start, _) = held.split_first()?;
    if !is_start(start) {
        return None;
    }
    let mut entry_row = Row::default();
    for (version, block) in held.iter().enumerate().skip(1) {
        let earlier = &held[..version];
        let is_merge = block[0] == MERGE_CODE;
        let is_right = if is_merge {
            merge_is_right(earlier, block)
        } else {
            entry_is_right(earlier, block)
        };
        if !is_right {
            return None;
        }
        entry_row[version / 64] |= u64::from(!is_merge) << (version % 64);
    }
    Some(entry_row)
}

/// Version 0 has an empty board and no parent, and is its own ancestor.
fn is_start(block: &Block) -> bool {
    all_zero(&block[..ROW_AT]) && block[ROW_AT] == 1 && all_zero(&block[ROW_AT + 1..])
}

fn entry_is_right(earlier: &[Block], block: &Block) -> bool {
    let entry = Entry {
        parent: number(block, PARENT_AT),
        code: block[0],
        strip: block[1],
        operand: u16::from_be_bytes([block[2], block[3]]),
    };
    let Some(parent) = earlier.get(entry.parent) else {
        return false;
    };
    entry.is_in_range()
        && all_zero(&block[GIVER_AT..ROW_AT])
        && same(&row_of(block), &with_bit(row_of(parent), earlier.len()))
        && board_is_changed(parent, block, &entry)
}

/// The strip of the entry is changed as it says, and all others are the parent's.
fn board_is_changed(parent: &Block, block: &Block, entry: &Entry) -> bool {
    let strip = usize::from(entry.strip);
    let start = BOARD_AT + STRIP_BYTES * strip;
    let end = start + STRIP_BYTES;
    block[BOARD_AT..start] == parent[BOARD_AT..start]
        && block[end..] == parent[end..]
        && strips(block)[strip] == changed_strip(strips(parent)[strip], entry.code, entry.operand)
}

fn merge_is_right(earlier: &[Block], block: &Block) -> bool {
    let (receiver, giver) = (number(block, PARENT_AT), number(block, GIVER_AT));
    let base = number(block, BASE_AT);
    let found = (earlier.get(base), earlier.get(receiver), earlier.get(giver));
    let (Some(l), Some(a), Some(b)) = found else {
        return false;
    };
    let (a_row, b_row) = (row_of(a), row_of(b));
    let grown = with_bit(either(&a_row, &b_row), earlier.len());
    base != receiver
        && base != giver
        && all_zero(&block[1..PARENT_AT])
        && all_zero(&block[NODE_END..ROW_AT])
        && same(&row_of(l), &both(&a_row, &b_row))
        && same(&row_of(block), &grown)
        && board_is_merged(l, a, b, block)
}

fn board_is_merged(base: &Block, receiver: &Block, giver: &Block, block: &Block) -> bool {
    let sides = Sides::of(base, receiver, giver);
    let found = cells_at(block, BOARD_AT);
    let cells = found.iter().enumerate();
    let differences =
        cells.map(|(place, cell)| sides.merged(place).value ^ u16::from_be_bytes(*cell));
    differences.fold(0, |all, difference| all | difference) == 0
}

/// Console 0 is present, heads name versions, every version is an ancestor of a head, and the table of commons is right.
fn heads_are_sound(header: &Header, held: &[Block]) -> bool {
    let fields: [usize; CONSOLES] =
        array::from_fn(|console| common_field(header, console, console));
    if fields[0] == 0 || fields.iter().any(|&field| field > held.len()) {
        return false;
    }
    let heads = fields.map(|field| field.checked_sub(1).map(|head| &held[head]));
    let rows = heads.iter().flatten().map(|block| row_of(block));
    let covered = rows.fold(Row::default(), |all, row| either(&all, &row));
    let commons_are_right = (0..CONSOLES).all(|console| {
        (0..console).all(|other| common_is_right(header, held, &heads, console, other))
    });
    commons_are_right && same(&covered, &bits_below(held.len()))
}

/// Two consoles have their common version at both places of the table, and 0 where one is absent.
fn common_is_right(
    header: &Header,
    held: &[Block],
    heads: &[Option<&Block>; CONSOLES],
    console: usize,
    other: usize,
) -> bool {
    let field = common_field(header, console, other);
    let lowest = field.checked_sub(1).and_then(|common| held.get(common));
    let is_common = match (heads[console], heads[other], lowest) {
        (Some(a), Some(b), Some(l)) => same(&row_of(l), &both(&row_of(a), &row_of(b))),
        (Some(_), Some(_), None) => false,
        _ => field == 0,
    };
    is_common && field == common_field(header, other, console)
}
