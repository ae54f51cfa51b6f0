// Stores with something changed, and bytes that are none.

use super::commands::set_byte;
use super::damaged_tapes::change_bits;
use crate::layout::{self, encode_with};
use crate::model::{boards, Ancestry, Room, CONSOLES};
use crate::rng::Rng;

/// A store's bytes with one to three damages, most of them in fields that mean something.
pub fn damaged_store(rng: &mut Rng, store: &[u8]) -> Vec<u8> {
    let mut damaged = store.to_vec();
    for _ in 0..rng.between(1, 3) {
        damage_store_once(rng, &mut damaged);
    }
    damaged
}

fn damage_store_once(rng: &mut Rng, store: &mut Vec<u8>) {
    let anywhere = rng.below(store.len());
    match rng.below(10) {
        0 => store.truncate(anywhere),
        1 => change_bits(rng, store, anywhere),
        2..=5 => damage_header(rng, store),
        _ => damage_block(rng, store),
    }
}

fn damage_header(rng: &mut Rng, store: &mut [u8]) {
    let zero = rng.below(layout::HEADER_BYTES);
    let entry_row = layout::ENTRY_ROW_AT + rng.below(128);
    let common = layout::common_at(rng.below(CONSOLES), rng.below(CONSOLES));
    match rng.below(6) {
        0 => set_byte(store, zero, rng.byte()),
        1 => change_bits(rng, store, entry_row),
        2 => set_field(rng, store, layout::CAPACITY_AT),
        3 => set_field(rng, store, layout::VERSION_COUNT_AT),
        4 => set_field(rng, store, layout::HUB_AT),
        _ => set_field(rng, store, common),
    }
}

fn damage_block(rng: &mut Rng, store: &mut [u8]) {
    let block = some_block(rng, store);
    let node_field = block + 2 * rng.below(6);
    let node_byte = block + rng.below(layout::ANCESTRY_ROW_AT);
    let ancestry = block + layout::ANCESTRY_ROW_AT + rng.below(128);
    let board = block + layout::BOARD_AT + rng.below(layout::BOARD_BYTES);
    match rng.below(4) {
        0 => set_field(rng, store, node_field),
        1 => set_byte(store, node_byte, rng.below(12) as u8),
        2 => change_bits(rng, store, ancestry),
        _ => change_bits(rng, store, board),
    }
}

/// Where some block starts, mostly one of a version that the store holds.
fn some_block(rng: &mut Rng, store: &[u8]) -> usize {
    let count = layout::version_count(store).unwrap_or(1);
    layout::block_at(rng.below(count.min(1024) + 1))
}

/// Sets a 16-bit field to a small number, an edge, or one next to what it was.
pub(super) fn set_field(rng: &mut Rng, bytes: &mut [u8], place: usize) {
    let Some(&[high, low]) = bytes.get(place..place + 2) else {
        return;
    };
    let now = u16::from_be_bytes([high, low]);
    let edges = [0, 1, 2, 1023, 1024, 1025, 0xFFFF];
    let value = match rng.below(4) {
        0 => rng.pick(&edges).unwrap_or(0),
        1 => now.wrapping_add(1),
        2 => now.wrapping_sub(1),
        _ => rng.below(70) as u16,
    };
    bytes[place..place + 2].copy_from_slice(&value.to_be_bytes());
}

/// The bytes of a room that may be unsound, complete in every field, with the highest-numbered common version as
/// base and as common of two heads: what a unit without the test of all others would take for a store.
pub fn plausible_store(room: &Room) -> Vec<u8> {
    let ancestry = Ancestry::new(room);
    let highest = |one: usize, other: usize| {
        let common = ancestry.common_ancestors(one, other);
        common.first().copied().unwrap_or(0)
    };
    encode_with(room, &ancestry, &highest, &boards(room, &highest))
}

/// So many bytes or fewer, of any content or all zero, half the time with a header that begins like a store's.
pub fn garbage(rng: &mut Rng, longest: usize) -> Vec<u8> {
    let length = rng.below(longest + 1);
    let all_zero = rng.chance(20);
    let mut bytes: Vec<u8> = (0..length)
        .map(|_| if all_zero { 0 } else { rng.byte() })
        .collect();
    if rng.chance(50) {
        let (capacity, hub, count) = (rng.between(1, 20), rng.below(2), rng.between(1, 20));
        let header = [0, capacity as u8, 0, hub as u8, 0, count as u8];
        let places = bytes.iter_mut().zip(header);
        places.for_each(|(place, byte)| *place = byte);
    }
    bytes
}

/// Bytes that are lent beside a store for a view: mostly an earlier store as it is, else a damaged or cut one, garbage, or none.
pub fn store_beside(rng: &mut Rng, earlier: &[u8]) -> Vec<u8> {
    match rng.below(10) {
        0 => Vec::new(),
        1 => garbage(rng, 8000),
        2 => earlier[..rng.below(earlier.len() + 1)].to_vec(),
        3 => damaged_store(rng, earlier),
        _ => earlier.to_vec(),
    }
}
