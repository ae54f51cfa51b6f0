// The lent buffers of a call, once for the model and once for the implementation under test, each between guard bytes.

use super::call::{Call, ViewNumbers};
use crate::calls::Reply;
use crate::implementations::Calls;
use crate::rng::Rng;
use crate::views::Asked;

/// Guard bytes before and behind each lent buffer. The number is odd, so that no buffer is aligned.
const GUARD_BYTES: usize = 33;
const GUARD: u8 = 0xA5;

#[derive(Clone)]
pub(super) struct Buffer {
    with_guards: Vec<u8>,
}

impl Buffer {
    fn of(bytes: &[u8]) -> Buffer {
        let guard = [GUARD; GUARD_BYTES];
        Buffer {
            with_guards: [&guard, bytes, &guard].concat(),
        }
    }

    pub(super) fn lent(&self) -> &[u8] {
        let end = self.with_guards.len() - GUARD_BYTES;
        &self.with_guards[GUARD_BYTES..end]
    }

    fn lent_mut(&mut self) -> &mut [u8] {
        let end = self.with_guards.len() - GUARD_BYTES;
        &mut self.with_guards[GUARD_BYTES..end]
    }
}

/// The buffers of a call: the store, a command, a tape or the frozen store of a view to be read, and a tape, board or pane to be written.
#[derive(Clone)]
pub(super) struct Lent {
    pub(super) store: Buffer,
    pub(super) input: Buffer,
    output: Buffer,
}

impl Lent {
    pub(super) fn make(&mut self, call: Call, calls: &Calls) -> Reply {
        let store = self.store.lent_mut();
        call.make(calls, store, self.input.lent(), self.output.lent_mut())
    }

    pub(super) fn asked(&self, view: ViewNumbers) -> Asked<'_> {
        view.asked(self.store.lent(), self.input.lent())
    }
}

/// Equal buffers for the model and for the implementation under test.
#[derive(Clone)]
pub(super) struct Pair {
    pub(super) model: Lent,
    pub(super) tested: Lent,
}

impl Pair {
    pub(super) fn of_store(store: &[u8]) -> Pair {
        let lent = Lent {
            store: Buffer::of(store),
            input: Buffer::of(&[]),
            output: Buffer::of(&[]),
        };
        Pair {
            model: lent.clone(),
            tested: lent,
        }
    }

    /// The two stores of a view.
    pub(super) fn of_stores(live: &[u8], frozen: &[u8]) -> Pair {
        let mut pair = Pair::of_store(live);
        pair.lend_input(frozen);
        pair
    }

    /// The same, with either of them as the live one.
    pub(super) fn in_any_order(rng: &mut Rng, one: &[u8], other: &[u8]) -> Pair {
        if rng.chance(50) {
            Pair::of_stores(one, other)
        } else {
            Pair::of_stores(other, one)
        }
    }

    pub(super) fn store(&self) -> &[u8] {
        self.model.store.lent()
    }

    pub(super) fn output(&self) -> &[u8] {
        self.model.output.lent()
    }

    pub(super) fn lend_input(&mut self, bytes: &[u8]) {
        self.model.input = Buffer::of(bytes);
        self.tested.input = Buffer::of(bytes);
    }

    pub(super) fn lend_output(&mut self, bytes: &[u8]) {
        self.model.output = Buffer::of(bytes);
        self.tested.output = Buffer::of(bytes);
    }

    /// Changes bits of a byte of the store; the same once more changes them back.
    pub(super) fn change_store(&mut self, place: usize, bits: u8) {
        self.model.store.lent_mut()[place] ^= bits;
        self.tested.store.lent_mut()[place] ^= bits;
    }

    /// Where the buffers of the two sides first differ.
    pub(super) fn difference(&self) -> Option<String> {
        let sides = [
            ("store", &self.model.store, &self.tested.store),
            ("input", &self.model.input, &self.tested.input),
            ("output", &self.model.output, &self.tested.output),
        ];
        sides.into_iter().find_map(|(name, model, tested)| {
            if model.with_guards == tested.with_guards {
                return None;
            }
            let bytes = model.with_guards.iter().zip(&tested.with_guards);
            let place = bytes.take_while(|(model, tested)| model == tested).count();
            Some(format!(
                "{name} differs at byte {} of {}",
                place as isize - GUARD_BYTES as isize,
                model.lent().len()
            ))
        })
    }
}
