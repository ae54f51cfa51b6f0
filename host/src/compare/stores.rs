// Stores damaged, cut and grown, and the field of the hub.

use super::buffers::Pair;
use super::call::Call;
use super::comparison::Comparison;
use super::tapes::rooms_for_a_hub;
use super::Outcome;
use crate::gen;
use crate::layout::{self, store_bytes};
use crate::model::code;
use crate::rng::Rng;

/// Damaged, truncated and plausible stores, each with every call that reads a store.
pub(super) fn compare_stores(
    comparison: &mut Comparison,
    rng: &mut Rng,
    count: usize,
) -> Outcome<()> {
    for _ in 0..count {
        let store = some_store(rng);
        comparison.all_calls(rng, &mut Pair::of_store(&store))?;
    }
    Ok(())
}

/// Bytes that may look like a store and mostly are none.
fn some_store(rng: &mut Rng) -> Vec<u8> {
    let (capacity, length) = (rng.between(1, 20), rng.below(60));
    match rng.below(5) {
        0 => gen::plausible_store(&gen::random_graph(rng, capacity)),
        1 => {
            let reached = gen::some_room(rng, capacity, length);
            let mut near = gen::near_miss(rng, &reached);
            near.capacity = near.capacity.max(near.versions.len());
            gen::plausible_store(&near)
        }
        2 => gen::garbage(rng, 8000),
        _ => {
            let reached = gen::some_room(rng, capacity, length);
            gen::damaged_store(rng, &layout::encode(&reached))
        }
    }
}

/// Every byte of a store changed, one at a time, and the store cut at places of every kind.
pub(super) fn compare_every_byte(
    comparison: &mut Comparison,
    rng: &mut Rng,
    capacity: usize,
) -> Outcome<()> {
    let room = gen::some_room(rng, capacity, 5 * capacity);
    let store = layout::encode(&room);
    let mut pair = Pair::of_stores(&store, &store);
    for place in 0..store.len() {
        let bits = if rng.chance(50) {
            1 << rng.below(8)
        } else {
            rng.byte()
        };
        pair.change_store(place, bits);
        comparison.call(Call::Heard { console: 0 }, &mut pair)?;
        comparison.call(Call::Mergeable, &mut pair)?;
        comparison.look(&mut pair, 0)?;
        pair.change_store(place, bits);
    }
    compare_cut_store(comparison, &store)
}

fn compare_cut_store(comparison: &mut Comparison, store: &[u8]) -> Outcome<()> {
    for length in (0..store.len()).step_by(37).chain([store.len() - 1]) {
        let mut cut = Pair::of_stores(&store[..length], store);
        comparison.call(Call::Heard { console: 0 }, &mut cut)?;
        comparison.call(Call::Mergeable, &mut cut)?;
        comparison.look(&mut cut, 0)?;
    }
    Ok(())
}

const EDGE_HUBS: [u16; 8] = [0, 1, 2, 255, 256, 257, 0x8000, 0xFFFF];

/// Stores with other values of the hub's field.
pub(super) fn compare_hub_fields(comparison: &mut Comparison, rng: &mut Rng) -> Outcome<()> {
    for room in rooms_for_a_hub(rng) {
        let mut store = layout::encode(&room);
        for hub in EDGE_HUBS {
            store[layout::HUB_AT..layout::HUB_AT + 2].copy_from_slice(&hub.to_be_bytes());
            comparison.all_calls(rng, &mut Pair::of_store(&store))?;
            comparison.command(&mut Pair::of_store(&store), &[code::MAKE_HUB])?;
        }
    }
    Ok(())
}

/// A store whose capacity field says more than it was made with, in a buffer that is long enough for it, up to 1,100: sound with
/// zeros behind the store and a capacity in range.
pub(super) fn compare_grown_store(
    comparison: &mut Comparison,
    rng: &mut Rng,
    capacity: usize,
) -> Outcome<()> {
    let store = layout::encode(&gen::some_room(rng, capacity, 20));
    for (grown, behind) in [(1, 0), (1, rng.byte()), (2, 0), (64_000, 0)] {
        let mut longer = store.clone();
        longer.resize(store_bytes((capacity + grown).min(1100)), behind);
        longer[..2].copy_from_slice(&((capacity + grown) as u16).to_be_bytes());
        comparison.all_calls(rng, &mut Pair::of_store(&longer))?;
    }
    Ok(())
}
