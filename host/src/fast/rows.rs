// Bit rows, as words of 64 bits.

use super::fields::{Block, ROW_AT};
use std::array;

pub(super) type Row = [u64; 16];

pub(super) fn row_at(bytes: &[u8], place: usize) -> Row {
    let (words, _) = bytes[place..place + 128].as_chunks::<8>();
    array::from_fn(|word| u64::from_le_bytes(words[word]))
}

pub(super) fn row_of(block: &Block) -> Row {
    row_at(block, ROW_AT)
}

pub(super) fn put_row<const W: usize>(bytes: &mut [u8], place: usize, row: &[u64; W]) {
    let (words, _) = bytes[place..place + 8 * W].as_chunks_mut::<8>();
    for (bytes, word) in words.iter_mut().zip(row) {
        *bytes = word.to_le_bytes();
    }
}

pub(super) fn same<const W: usize>(one: &[u64; W], other: &[u64; W]) -> bool {
    let differences = one.iter().zip(other).map(|(one, other)| one ^ other);
    differences.fold(0, |all, word| all | word) == 0
}

pub(super) fn both<const W: usize>(one: &[u64; W], other: &[u64; W]) -> [u64; W] {
    array::from_fn(|word| one[word] & other[word])
}

pub(super) fn either<const W: usize>(one: &[u64; W], other: &[u64; W]) -> [u64; W] {
    array::from_fn(|word| one[word] | other[word])
}

pub(super) fn with_bit<const W: usize>(mut row: [u64; W], version: usize) -> [u64; W] {
    row[version / 64] |= 1 << (version % 64);
    row
}

pub(super) fn has_bit(block: &Block, version: usize) -> bool {
    block[ROW_AT + version / 8] >> (version % 8) & 1 == 1
}

pub(super) fn ones(row: &Row) -> usize {
    row.iter().map(|word| word.count_ones() as usize).sum()
}

/// The bits below the number.
pub(super) fn bits_below(count: usize) -> Row {
    array::from_fn(|word| match count.saturating_sub(64 * word) {
        bits @ 0..64 => (1 << bits) - 1,
        _ => u64::MAX,
    })
}
