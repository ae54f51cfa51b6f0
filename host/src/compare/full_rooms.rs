// The largest rooms: the longest walks, the most pairs, the highest boards.

use super::buffers::Pair;
use super::call::CELLS;
use super::comparison::Comparison;
use super::Outcome;
use crate::gen;
use crate::layout::{self, BOARD_BYTES};
use crate::rng::Rng;

/// The origins at the end of the longest walks: on strip 1 the first entries, on strip 2 none.
pub(super) fn compare_long_walks(comparison: &mut Comparison) -> Outcome<()> {
    for room in [gen::chain_of_entries(1024), gen::chain_of_merges(1024)] {
        let pair = &mut Pair::of_store(&layout::encode(&room));
        comparison.origins(pair, &[0, 1], &[1, 2], &CELLS)?;
    }
    Ok(())
}

/// Which two can meet in the largest rooms in which no two can.
pub(super) fn compare_full_verdicts(comparison: &mut Comparison) -> Outcome<()> {
    let rooms = [
        gen::agreeing_room(1024),
        gen::stuck_room(1024),
        gen::stuck_apart_room(1024),
    ];
    for room in rooms {
        comparison.verdict(&mut Pair::of_store(&layout::encode(&room)))?;
    }
    Ok(())
}

/// The boards of the highest versions, in the last bytes of full stores, side by side.
pub(super) fn compare_full_views(comparison: &mut Comparison) -> Outcome<()> {
    let live = layout::encode(&gen::chain_of_entries(1024));
    let frozen = layout::encode(&gen::chain_of_merges(1024));
    let both = &mut Pair::of_stores(&live, &frozen);
    (0..3).try_for_each(|console| comparison.look(both, console))
}

/// What the consoles of the longest chains show: there are calls in both bytes of their count.
pub(super) fn compare_full_panes(comparison: &mut Comparison, rng: &mut Rng) -> Outcome<()> {
    for room in [gen::chain_of_entries(1024), gen::chain_of_merges(1024)] {
        let pair = &mut Pair::of_store(&layout::encode(&room));
        (0..3).try_for_each(|console| comparison.show(rng, pair, console, BOARD_BYTES))?;
    }
    Ok(())
}
