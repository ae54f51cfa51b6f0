// Versions: as their blocks name them, and written.

use super::boards::{changed_strip, strips_mut, Sides};
use super::fields::{
    put_number, Block, BASE_AT, BOARD_AT, GIVER_AT, MERGE_CODE, PARENT_AT, ROW_AT, STRIPS,
};
use super::rows::{either, put_row, row_of, with_bit};

#[derive(Clone, Copy)]
pub(super) struct Entry {
    pub(super) parent: usize,
    pub(super) code: u8,
    pub(super) strip: u8,
    pub(super) operand: u16,
}

#[derive(Clone, Copy)]
pub(super) enum Node {
    Entry(Entry),
    Merge { receiver: usize, giver: usize },
}

impl Entry {
    pub(super) fn is_in_range(&self) -> bool {
        let highest = match self.code {
            0x02 => 600,
            0x03 => 360,
            0x04 | 0x05 => 15,
            0x06..=0x08 => 0,
            _ => return false,
        };
        self.strip < STRIPS && self.operand <= highest
    }
}

/// The blocks before a version and its own, with the place of its node cleared.
pub(super) fn begin_block(blocks: &mut [Block], version: usize) -> (&[Block], &mut Block) {
    let (earlier, rest) = blocks.split_at_mut(version);
    let block = &mut rest[0];
    block[..ROW_AT].fill(0);
    (earlier, block)
}

pub(super) fn write_entry(blocks: &mut [Block], version: usize, entry: &Entry) {
    let (earlier, block) = begin_block(blocks, version);
    let parent = &earlier[entry.parent];
    put_row(block, ROW_AT, &with_bit(row_of(parent), version));
    fill_entry(parent, block, entry);
}

/// Node and board of an entry, in a block that begins with zeros.
pub(super) fn fill_entry(parent: &Block, block: &mut Block, entry: &Entry) {
    block[0] = entry.code;
    block[1] = entry.strip;
    put_number(block, 2, entry.operand.into());
    put_number(block, PARENT_AT, entry.parent);
    block[BOARD_AT..].copy_from_slice(&parent[BOARD_AT..]);
    let strip = &mut strips_mut(block)[usize::from(entry.strip)];
    *strip = changed_strip(*strip, entry.code, entry.operand);
}

pub(super) fn write_merge(
    blocks: &mut [Block],
    version: usize,
    parents: (usize, usize),
    base: usize,
) -> usize {
    let (earlier, block) = begin_block(blocks, version);
    let grown = either(&row_of(&earlier[parents.0]), &row_of(&earlier[parents.1]));
    put_row(block, ROW_AT, &with_bit(grown, version));
    fill_merge(earlier, block, parents, base)
}

/// Node and board of a merge, in a block that begins with zeros; the number of clashes. Inlined, so that resume, which lets the number
/// go, doesn't work it out.
#[inline(always)]
pub(super) fn fill_merge(
    earlier: &[Block],
    block: &mut Block,
    (receiver, giver): (usize, usize),
    base: usize,
) -> usize {
    block[0] = MERGE_CODE;
    put_number(block, PARENT_AT, receiver);
    put_number(block, GIVER_AT, giver);
    put_number(block, BASE_AT, base);
    let sides = Sides::of(&earlier[base], &earlier[receiver], &earlier[giver]);
    let (cells, _) = block[BOARD_AT..].as_chunks_mut();
    let mut clashes = 0;
    for (place, cell) in cells.iter_mut().enumerate() {
        let merged = sides.merged(place);
        *cell = merged.value.to_be_bytes();
        clashes += merged.clash;
    }
    clashes.into()
}
