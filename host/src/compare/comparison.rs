// One call at a time on both sides: replies and buffers must agree, and what follows from a question must hold.

use super::buffers::Pair;
use super::call::{Call, Seen, ViewNumbers, CELLS};
use super::drawn::{bytes_of_length, output_length, pairs, some_console, some_origin, some_view};
use super::tally::Tally;
use super::Outcome;
use crate::calls::Reply;
use crate::implementations::{Calls, MODEL};
use crate::layout::{self, BOARD_BYTES};
use crate::model::{choice, refusal, Verdict};
use crate::rng::Rng;
use crate::{gen, panes, verdicts, views};

pub(super) struct Comparison {
    pub(super) tested: Calls,
    pub(super) round: String,
    pub(super) tally: Tally,
    /// With ROOM_TRACE in the environment each call is told before it is made, for an implementation that doesn't come back.
    is_traced: bool,
}

impl Comparison {
    pub(super) fn new(tested: Calls, round: String) -> Comparison {
        Comparison {
            tested,
            round,
            tally: Tally::default(),
            is_traced: std::env::var_os("ROOM_TRACE").is_some(),
        }
    }

    /// Makes the call on both sides; the reply, where reply and buffers agree.
    pub(super) fn call(&mut self, call: Call, pair: &mut Pair) -> Outcome<Reply> {
        if self.is_traced {
            eprintln!("{}", self.story(call, pair, "to be made"));
        }
        let model = pair.model.make(call, &MODEL);
        let tested = pair.tested.make(call, &self.tested);
        let difference = if model == tested {
            pair.difference()
        } else {
            Some(format!("replies differ: {model:?} and {tested:?}"))
        };
        if let Some(difference) = difference {
            return Err(self.story(call, pair, &difference));
        }
        self.tally.note(call, model);
        Ok(model)
    }

    fn story(&self, call: Call, pair: &Pair, difference: &str) -> String {
        let input = pair.model.input.lent();
        let shown = &input[..input.len().min(400)];
        format!(
            "model and {}, {}, call {}: {call:?}: {difference}\ninput ({} bytes): {shown:02X?}\nstore of {} bytes, output of {} bytes",
            self.tested.name,
            self.round,
            self.tally.calls() + 1,
            input.len(),
            pair.store().len(),
            pair.output().len(),
        )
    }

    pub(super) fn command(&mut self, pair: &mut Pair, bytes: &[u8]) -> Outcome<Reply> {
        pair.lend_input(bytes);
        let had_hub = layout::has_hub(pair.store());
        let reply = self.call(Call::Command, pair)?;
        if had_hub && reply.answer == refusal::COMMONS_APART {
            return Err(self.story(Call::Command, pair, "17, though there is a hub"));
        }
        self.tally.note_command(bytes, reply, had_hub);
        Ok(reply)
    }

    pub(super) fn commands(&mut self, pair: &mut Pair, commands: &[&[u8]]) -> Outcome<()> {
        for command in commands {
            self.command(pair, command)?;
        }
        Ok(())
    }

    pub(super) fn resume(&mut self, pair: &mut Pair, tape: &[u8]) -> Outcome<Reply> {
        pair.lend_input(tape);
        let reply = self.call(Call::Resume, pair)?;
        self.tally.note_resume(tape, reply, pair.store());
        Ok(reply)
    }

    /// Open with this capacity in a buffer of so many bytes of any content.
    pub(super) fn opened(&mut self, rng: &mut Rng, capacity: u32, length: usize) -> Outcome<Pair> {
        let mut pair = Pair::of_store(&bytes_of_length(rng, length));
        self.call(Call::Open { capacity }, &mut pair)?;
        Ok(pair)
    }

    /// One call of any kind but opening and resume.
    pub(super) fn any_call(&mut self, rng: &mut Rng, pair: &mut Pair) -> Outcome<Reply> {
        match rng.below(12) {
            0 => {
                let needed = 3 + 7 * rng.below(20);
                let length = output_length(rng, needed);
                self.output_call(rng, Call::Pause, pair, length)
            }
            copy @ 1..=3 => {
                let (console, length) = (some_console(rng), output_length(rng, BOARD_BYTES));
                self.output_call(rng, Call::copying(console)[copy - 1], pair, length)
            }
            4 => {
                let console = some_console(rng);
                self.call(Call::Heard { console }, pair)
            }
            5 => {
                let (first, second) = (some_console(rng), some_console(rng));
                self.call(Call::Common { first, second }, pair)
            }
            6 => self.call(some_origin(rng), pair),
            7 => self.call(Call::Mergeable, pair),
            _ => self.command(pair, &gen::any_command(rng)),
        }
    }

    pub(super) fn output_call(
        &mut self,
        rng: &mut Rng,
        call: Call,
        pair: &mut Pair,
        length: usize,
    ) -> Outcome<Reply> {
        pair.lend_output(&bytes_of_length(rng, length));
        self.call(call, pair)
    }

    /// What a console shows, its board and both panes, in outputs of one length, and that the panes fit the board.
    pub(super) fn show(
        &mut self,
        rng: &mut Rng,
        pair: &mut Pair,
        console: u32,
        length: usize,
    ) -> Outcome<()> {
        for call in Call::copying(console) {
            self.output_call(rng, call, pair, length)?;
        }
        let store = pair.tested.store.lent();
        let panes = panes::check(&self.tested, store, console, length)
            .map_err(|difference| self.story(Call::StudentPane { console }, pair, &difference))?;
        self.tally.note_panes(panes);
        Ok(())
    }

    /// The origins with each of these consoles, strips and cells.
    pub(super) fn origins(
        &mut self,
        pair: &mut Pair,
        consoles: &[u32],
        strips: &[u32],
        cells: &[u32],
    ) -> Outcome<()> {
        for ((console, strip), cell) in pairs(&pairs(consoles, strips), cells) {
            let origin = Call::Origin {
                console,
                strip,
                cell,
            };
            self.call(origin, pair)?;
        }
        Ok(())
    }

    /// Which two can meet in a sound store, and that the commands bear it out.
    pub(super) fn verdict(&mut self, pair: &mut Pair) -> Outcome<Verdict> {
        self.call(Call::Mergeable, pair)?;
        let store = pair.tested.store.lent();
        let verdict = verdicts::check(&self.tested, store)
            .map_err(|difference| self.story(Call::Mergeable, pair, &difference))?;
        self.tally.note_verdict(verdict, layout::is_full(store));
        Ok(verdict)
    }

    /// A view on both sides: its refusal, its place and its part, and that these fit the store chosen and the board copied out of it.
    pub(super) fn view(&mut self, view: ViewNumbers, pair: &mut Pair) -> Outcome<Seen> {
        self.call(Call::ViewRefusal(view), pair)?;
        self.call(Call::ViewAt(view), pair)?;
        let seen = self
            .seen(view, pair)
            .map_err(|difference| self.story(Call::ViewAt(view), pair, &difference))?;
        if seen.is_ok() {
            self.tally.note_view(view);
        }
        Ok(seen)
    }

    /// What a view shows, where the tested side's calls fit, the model shows the same bytes, and no lent byte has changed.
    fn seen(&self, view: ViewNumbers, pair: &Pair) -> Outcome<Seen> {
        let tested = views::check(&self.tested, pair.tested.asked(view))?;
        let model = pair.model.asked(view).part(&MODEL);
        if tested.unwrap_or_default() != model {
            return Err("view differs: another part".to_string());
        }
        let difference = pair.difference();
        difference.map_or(Ok(tested.map(<[u8]>::to_vec)), Err)
    }

    /// Views of one console, with either choice, in two lent stores.
    pub(super) fn look(&mut self, pair: &mut Pair, console: u32) -> Outcome<()> {
        let view = |choice: u32| ViewNumbers {
            console,
            choice,
            is_of_one_store: false,
        };
        let live = self.view(view(choice::LIVE), pair)?;
        let frozen = self.view(view(choice::FROZEN), pair)?;
        self.tally.note_look(live, frozen);
        Ok(())
    }

    /// Each call that reads a store, on bytes that may hold none.
    pub(super) fn all_calls(&mut self, rng: &mut Rng, pair: &mut Pair) -> Outcome<()> {
        let console = rng.below(3) as u32;
        self.command(pair, &gen::entry_command(rng, console as usize))?;
        self.output_call(rng, Call::Pause, pair, 9000)?;
        self.show(rng, pair, console, BOARD_BYTES)?;
        self.call(Call::Heard { console }, pair)?;
        let (first, second) = (0, console);
        self.call(Call::Common { first, second }, pair)?;
        self.call(Call::Mergeable, pair)?;
        let strip = gen::some_strip(rng).into();
        self.origins(pair, &[console], &[strip], &CELLS)?;
        // Beside a store that is sound.
        let sound = layout::encode(&gen::some_room(rng, 4, 8));
        let both = &mut Pair::in_any_order(rng, pair.store(), &sound);
        self.look(both, console)?;
        self.view(some_view(rng), both).map(|_| ())
    }
}
