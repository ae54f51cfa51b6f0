// Numbers at the edges of their ranges in every call that takes some.

use super::buffers::Pair;
use super::call::{Call, ViewNumbers};
use super::comparison::Comparison;
use super::drawn::pairs;
use super::Outcome;
use crate::gen;
use crate::layout::{self, store_bytes, BOARD_BYTES};
use crate::rng::Rng;

/// Numbers at and beyond the ends of the ranges of capacities, consoles, strips, cells and choices, and of 8, 16 and 32 bits.
const EDGE_NUMBERS: [u32; 20] = [
    0,
    1,
    2,
    15,
    16,
    17,
    31,
    32,
    255,
    256,
    257,
    1023,
    1024,
    1025,
    65_535,
    65_536,
    65_537,
    66_560,
    1 << 31,
    u32::MAX,
];

pub(super) fn compare_numbers(comparison: &mut Comparison, rng: &mut Rng) -> Outcome<()> {
    compare_capacities(comparison, rng)?;
    let running = layout::encode(&gen::random_room(rng, 8, 20));
    for store in [&running[..], &[0; 5000]] {
        compare_consoles(comparison, rng, store)?;
        let pair = &mut Pair::of_store(store);
        comparison.origins(pair, &EDGE_NUMBERS, &EDGE_NUMBERS, &EDGE_NUMBERS)?;
        compare_views(comparison, &mut Pair::of_stores(store, &running))?;
        compare_views(comparison, &mut Pair::of_stores(&running, store))?;
    }
    Ok(())
}

/// The views of these stores with every two of the edge numbers as console and choice, and with one store as both.
fn compare_views(comparison: &mut Comparison, pair: &mut Pair) -> Outcome<()> {
    let numbers = pairs(&EDGE_NUMBERS, &EDGE_NUMBERS);
    let mut operands = pairs(&numbers, &[false, true]).into_iter();
    operands.try_for_each(|((console, choice), is_of_one_store)| {
        let view = ViewNumbers {
            console,
            choice,
            is_of_one_store,
        };
        comparison.view(view, pair).map(|_| ())
    })
}

fn compare_capacities(comparison: &mut Comparison, rng: &mut Rng) -> Outcome<()> {
    let lengths = |capacity: u32| {
        let needed = store_bytes((capacity as usize).min(1100));
        [needed, needed - 1, needed + 9, 0, 4096].map(|length| (capacity, length))
    };
    for (capacity, length) in EDGE_NUMBERS.into_iter().flat_map(lengths) {
        comparison.opened(rng, capacity, length)?;
    }
    Ok(())
}

/// The questions to these bytes, with each of the edge numbers as a console, and with every two of them.
fn compare_consoles(comparison: &mut Comparison, rng: &mut Rng, store: &[u8]) -> Outcome<()> {
    let pair = &mut Pair::of_store(store);
    for first in EDGE_NUMBERS {
        comparison.call(Call::Heard { console: first }, pair)?;
        comparison.show(rng, pair, first, BOARD_BYTES)?;
        comparison.show(rng, pair, first, BOARD_BYTES - 1)?;
        EDGE_NUMBERS.into_iter().try_for_each(|second| {
            let asked = comparison.call(Call::Common { first, second }, pair);
            asked.map(|_| ())
        })?;
    }
    Ok(())
}
