// Bytes, lengths and numbers drawn for calls, most of them such that the call is accepted.

use super::call::{Call, ViewNumbers, CELLS, CHOICES};
use crate::gen;
use crate::model::{CONSOLES, STRIPS};
use crate::rng::Rng;

/// Every pair of one of the first and one of the second, in which the second changes faster.
pub(super) fn pairs<A: Copy, B: Copy>(first: &[A], second: &[B]) -> Vec<(A, B)> {
    first
        .iter()
        .flat_map(|&one| second.iter().map(move |&other| (one, other)))
        .collect()
}

pub(super) fn bytes_of_length(rng: &mut Rng, length: usize) -> Vec<u8> {
    let content = rng.byte();
    let mut bytes = vec![content; length];
    bytes.iter_mut().step_by(7).for_each(|b| *b = rng.byte());
    bytes
}

/// A length for bytes that need so many: mostly enough, exact or longer, now and then short.
pub(super) fn output_length(rng: &mut Rng, needed: usize) -> usize {
    match rng.below(10) {
        0 => needed.saturating_sub(1),
        1 => rng.below(needed + 1),
        2..=5 => needed,
        _ => needed + rng.below(50),
    }
}

/// The number, or now and then one from the bound on: next to it, or such that its low 8 or 16 bits are in range again.
fn or_too_high(rng: &mut Rng, number: usize, bound: usize) -> u32 {
    let bound = bound as u32;
    let next = [bound, bound + 1, 2 * bound - 1];
    let far = [255, 256, 257, 65_536, 65_537, 1 << 31, u32::MAX];
    if rng.chance(92) {
        number as u32
    } else {
        rng.pick(&[&next[..], &far].concat()).unwrap_or(bound)
    }
}

/// A console number, mostly one below 16.
pub(super) fn some_console(rng: &mut Rng) -> u32 {
    let console = rng.below(CONSOLES);
    or_too_high(rng, console, CONSOLES)
}

/// A question for an origin, mostly with all its numbers in range.
pub(super) fn some_origin(rng: &mut Rng) -> Call {
    let (strip, cell) = (gen::some_strip(rng).into(), rng.below(CELLS.len()));
    Call::Origin {
        console: some_console(rng),
        strip: or_too_high(rng, strip, STRIPS),
        cell: or_too_high(rng, cell, CELLS.len()),
    }
}

/// A view, mostly with its numbers in range; now and then one store is lent as both.
pub(super) fn some_view(rng: &mut Rng) -> ViewNumbers {
    let choice = rng.below(CHOICES.len());
    ViewNumbers {
        console: some_console(rng),
        choice: or_too_high(rng, choice, CHOICES.len()),
        is_of_one_store: rng.chance(20),
    }
}
