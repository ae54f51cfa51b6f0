// Opening, and the questions to a store, views and panes among them.

use super::fields::{
    common_field, head_of, number, put_common_field, put_number, Block, Header, BOARD_AT,
    CAPACITY_AT, CONSOLES, COUNT_AT, ENTRY_ROW_AT, GIVER_AT, HUB_AT, MERGE_CODE, PARENT_AT, ROW_AT,
    STRIPS, STRIP_BYTES,
};
use super::rows::{both, ones, row_at, row_of};
use super::sound::{capacity_is_in_range, sound_parts};
use crate::model::{refusal, refuse_if};
use std::array;

pub(super) fn open_store(capacity: usize, store: &mut [u8]) -> Result<usize, u32> {
    refuse_if(
        !capacity_is_in_range(capacity),
        refusal::CAPACITY_OUT_OF_RANGE,
    )?;
    let (header, blocks) = lent_parts(store, capacity)?;
    blocks.as_flattened_mut().fill(0);
    blocks[0][ROW_AT] = 1;
    begin_header(header, capacity, false, 1);
    put_common_field(header, 0, 0, 1);
    Ok(0)
}

/// The parts of a buffer in which a store of this capacity is to be written, or refusal 19.
pub(super) fn lent_parts(
    store: &mut [u8],
    capacity: usize,
) -> Result<(&mut Header, &mut [Block]), u32> {
    let parts = store.split_first_chunk_mut().and_then(|(header, rest)| {
        let blocks = rest.as_chunks_mut().0.get_mut(..capacity)?;
        Some((header, blocks))
    });
    parts.ok_or(refusal::BUFFER_TOO_SHORT)
}

pub(super) fn begin_header(header: &mut Header, capacity: usize, hub: bool, count: usize) {
    header.fill(0);
    put_number(header, CAPACITY_AT, capacity);
    put_number(header, HUB_AT, hub.into());
    put_number(header, COUNT_AT, count);
}

pub(super) fn refuse_high_console(console: usize) -> Result<(), u32> {
    refuse_if(console >= CONSOLES, refusal::CONSOLE_TOO_HIGH)
}

pub(super) fn copy_board(store: &[u8], console: usize, board: &mut [u8]) -> Result<usize, u32> {
    refuse_high_console(console)?;
    let (_, shown) = board_part(store, console)?;
    let front = board.get_mut(..shown.len());
    front
        .ok_or(refusal::BUFFER_TOO_SHORT)?
        .copy_from_slice(shown);
    Ok(shown.len())
}

/// The bits of a strip that a student sees: level, heading and, in the low byte of the marks, marks 0 to 7.
const SEEN_BY_STUDENT: [u8; STRIP_BYTES] = [0xFF, 0xFF, 0xFF, 0xFF, 0, 0xFF, 0, 0, 0, 0, 0, 0];

/// Copies the board and clears there what a student does not see: a refused copy has written nothing.
pub(super) fn copy_student_pane(
    store: &[u8],
    console: usize,
    pane: &mut [u8],
) -> Result<usize, u32> {
    let length = copy_board(store, console, pane)?;
    let (strips, _) = pane[..length].as_chunks_mut::<STRIP_BYTES>();
    for strip in strips {
        *strip = array::from_fn(|place| strip[place] & SEEN_BY_STUDENT[place]);
    }
    Ok(length)
}

/// The place of a console's board in a sound store, and the board there, or refusal 11 or 12.
fn board_part(store: &[u8], console: usize) -> Result<(usize, &[u8]), u32> {
    let (header, blocks) = sound_parts(store)?;
    let head = head_of(header, console)?;
    let place = size_of::<Header>() + size_of::<Block>() * head + BOARD_AT;
    Ok((place, &blocks[head][BOARD_AT..]))
}

/// The same in the store chosen; nothing is read of the other one.
pub(super) fn find_view<'a>(
    live: &'a [u8],
    frozen: &'a [u8],
    console: usize,
    choice: usize,
) -> Result<(usize, &'a [u8]), u32> {
    refuse_high_console(console)?;
    let chosen = [live, frozen].get(choice).copied();
    board_part(chosen.ok_or(refusal::OPERAND_TOO_HIGH)?, console)
}

pub(super) fn count_heard(store: &[u8], console: usize) -> Result<usize, u32> {
    refuse_high_console(console)?;
    let (header, blocks) = sound_parts(store)?;
    let row = row_of(&blocks[head_of(header, console)?]);
    let heard = both(&row, &row_at(header, ENTRY_ROW_AT));
    Ok(ones(&heard))
}

pub(super) fn find_common(store: &[u8], first: usize, second: usize) -> Result<usize, u32> {
    refuse_high_console(first)?;
    refuse_high_console(second)?;
    let (header, _) = sound_parts(store)?;
    let field = common_field(header, first, second);
    field.checked_sub(1).ok_or(refusal::CONSOLE_ABSENT)
}

pub(super) fn find_origin(
    store: &[u8],
    console: usize,
    strip: usize,
    cell: usize,
) -> Result<usize, u32> {
    refuse_high_console(console)?;
    refuse_if(strip >= STRIPS.into(), refusal::STRIP_TOO_HIGH)?;
    refuse_if(cell > 1, refusal::OPERAND_TOO_HIGH)?;
    let (header, blocks) = sound_parts(store)?;
    let head = head_of(header, console)?;
    Ok(origin_behind(blocks, head, strip, cell))
}

/// Goes back along versions that show what the head shows, to an entry that wrote the cell or to version 0. A merge shows the value of
/// its receiver or its giver, so the walk goes to the giver exactly where the receiver shows something else: where the receiver
/// shows the same, either it had changed the cell or all three values are the same. No base is looked at.
fn origin_behind(blocks: &[Block], head: usize, strip: usize, cell: usize) -> usize {
    let place = BOARD_AT + STRIP_BYTES * strip + 2 * cell;
    let value = |version: usize| [blocks[version][place], blocks[version][place + 1]];
    let shown = value(head);
    let writing_node = [0x02 + cell as u8, strip as u8];
    let mut version = head;
    while version != 0 && blocks[version][..2] != writing_node {
        let block = &blocks[version];
        let parent = number(block, PARENT_AT);
        let is_given = block[0] == MERGE_CODE && value(parent) != shown;
        version = if is_given {
            number(block, GIVER_AT)
        } else {
            parent
        };
    }
    version
}
