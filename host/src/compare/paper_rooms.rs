// The paper's rooms, and every next command in them.

use super::buffers::Pair;
use super::comparison::Comparison;
use super::drawn::pairs;
use super::Outcome;
use crate::layout::store_bytes;
use crate::model::code;
use crate::rng::Rng;

/// The paper's rooms as commands, and one that can have a hub in the end, each with its capacity; commands in them meet the rare refusals.
const PAPER_ROOMS: [(u32, &[&[u8]]); 5] = [
    (
        64,
        &[
            &[0x01, 1, 0],
            &[0x02, 0, 5, 0, 100],
            &[0x06, 1, 5],
            &[0x09, 0, 1],
            &[0x0A, 1, 0],
            &[0x09, 0, 1],
        ],
    ),
    (1, &[&[0x06, 0, 0], &[0x01, 1, 0], &[0x01, 1, 0]]),
    (
        6,
        &[
            &[0x01, 1, 0],
            &[0x01, 2, 0],
            &[0x06, 0, 0],
            &[0x06, 1, 0],
            &[0x06, 2, 0],
            &[0x09, 2, 0],
            &[0x09, 2, 1],
        ],
    ),
    (
        7,
        &[
            &[0x01, 1, 0],
            &[0x01, 2, 0],
            &[0x01, 3, 0],
            &[0x06, 2, 0],
            &[0x0A, 3, 2],
            &[0x06, 0, 0],
            &[0x09, 2, 0],
            &[0x06, 1, 0],
            &[0x09, 3, 1],
            &[0x09, 0, 1],
            &[0x0A, 1, 0],
        ],
    ),
    (
        4,
        &[
            &[0x01, 1, 0],
            &[0x06, 1, 0],
            &[0x01, 2, 1],
            &[0x0C],
            &[0x0A, 0, 1],
            &[0x06, 1, 0],
        ],
    ),
];

pub(super) fn compare_paper_rooms(comparison: &mut Comparison, rng: &mut Rng) -> Outcome<()> {
    for (capacity, commands) in PAPER_ROOMS {
        let mut pair = comparison.opened(rng, capacity, store_bytes(capacity as usize))?;
        comparison.commands(&mut pair, commands)?;
        compare_next_commands(comparison, &pair)?;
        comparison.verdict(&mut pair)?;
        comparison.all_calls(rng, &mut pair)?;
        // With a hub, where the room can have one.
        comparison.commands(&mut pair, &[&[code::MAKE_HUB], &[code::MAKE_HUB]])?;
        compare_next_commands(comparison, &pair)?;
        comparison.verdict(&mut pair)?;
    }
    Ok(())
}

/// Every fork, merge and fast-forward of two of the first five consoles, and each of them leaving.
fn compare_next_commands(comparison: &mut Comparison, pair: &Pair) -> Outcome<()> {
    let consoles = [0, 1, 2, 3, 4];
    let codes = [code::FORK, code::MERGE, code::FAST_FORWARD];
    for ((first, second), code) in pairs(&pairs(&consoles, &consoles), &codes) {
        comparison.command(&mut pair.clone(), &[code, first, second])?;
    }
    for console in consoles {
        comparison.command(&mut pair.clone(), &[code::LEAVE, console])?;
    }
    Ok(())
}
