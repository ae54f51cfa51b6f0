// Running rooms: steps of every kind, with the book of demand 3, turnover and gatherings.

use super::buffers::Pair;
use super::call::{Call, CELLS};
use super::comparison::Comparison;
use super::drawn::{bytes_of_length, output_length, some_console, some_origin, some_view};
use super::figures::Figure;
use super::Outcome;
use crate::book::Book;
use crate::calls::{reply_of, Reply};
use crate::gen;
use crate::layout::{store_bytes, BOARD_BYTES};
use crate::model::{code, decode, refusal, step, tape_of, Room, Verdict, CONSOLES};
use crate::rng::Rng;
use std::collections::BTreeSet;
use std::mem::take;

/// A running room: its buffers, the room that the model's rules give, from which commands are chosen, the book of its calls, which
/// consoles have left and not come back, and a store of the room as it was at some pause, empty before the first.
pub(super) struct Session<'a> {
    comparison: &'a mut Comparison,
    rng: Rng,
    pair: Pair,
    room: Room,
    book: Book,
    has_left: [bool; CONSOLES],
    frozen: Vec<u8>,
}

/// The steps of a session with turnover from one look at the book to the next.
const STEPS_TO_THE_BOOK: usize = 30;

/// The steps of a session after the merge of a room that clashes.
const STEPS_AFTER_CLASHES: usize = 8;

impl<'a> Session<'a> {
    fn new(
        comparison: &'a mut Comparison,
        rng: &mut Rng,
        pair: Pair,
        room: Room,
        book: Book,
    ) -> Session<'a> {
        Session {
            comparison,
            rng: Rng::new(rng.number()),
            pair,
            room,
            book,
            has_left: [false; CONSOLES],
            frozen: Vec::new(),
        }
    }

    pub(super) fn run(&mut self, steps: usize) -> Outcome<()> {
        (0..steps).try_for_each(|_| self.step())
    }

    /// Steps in most of which consoles come and go.
    pub(super) fn run_turnover(&mut self, steps: usize) -> Outcome<()> {
        self.run_with_book(steps, Session::turnover_step)
    }

    /// Steps in a room that is to have a hub, and in the end, where it has one, a gathering.
    pub(super) fn run_hub(&mut self, steps: usize) -> Outcome<()> {
        self.run_with_book(steps, Session::hub_step)?;
        self.gather()?;
        self.check_book()
    }

    /// Steps of one kind; now and then, and at the end, the store is compared with the book.
    fn run_with_book(
        &mut self,
        steps: usize,
        take_step: fn(&mut Self, usize) -> Outcome<()>,
    ) -> Outcome<()> {
        for step in 0..steps {
            if step % STEPS_TO_THE_BOOK == 0 {
                self.check_book()?;
            }
            take_step(self, step)?;
        }
        self.check_book()
    }

    /// Asks which two can meet, at once and after each of so many steps.
    pub(super) fn run_verdicts(&mut self, steps: usize) -> Outcome<()> {
        self.comparison.verdict(&mut self.pair)?;
        for _ in 0..steps {
            self.step()?;
            self.comparison.verdict(&mut self.pair)?;
        }
        Ok(())
    }

    fn turnover_step(&mut self, step: usize) -> Outcome<()> {
        match self.rng.below(100) {
            0..=79 => {
                let bytes = gen::turnover_command(&mut self.rng, &self.room, step);
                self.command(&bytes).map(|_| ())
            }
            80..=85 => self.come_back(),
            _ => self.step(),
        }
    }

    fn hub_step(&mut self, step: usize) -> Outcome<()> {
        match self.rng.below(100) {
            0..=59 => {
                let bytes = gen::hub_command(&mut self.rng, &self.room);
                self.command(&bytes).map(|_| ())
            }
            60..=64 => self.comparison.verdict(&mut self.pair).map(|_| ()),
            65..=67 => self.gather(),
            _ => self.turnover_step(step),
        }
    }

    /// Brings all consoles of a room with a hub to one head. That must come out where each console but the hub has a version free, and
    /// else nothing but a missing version may be in the way.
    fn gather(&mut self) -> Outcome<()> {
        if !self.room.hub {
            return Ok(());
        }
        let others = self.room.present().len() - 1;
        let free = self.room.capacity - self.room.versions.len();
        let commands = gen::gathering(&self.room);
        let mut answers = BTreeSet::new();
        for command in &commands {
            answers.insert(self.command(command)?.answer);
        }
        answers.remove(&0);
        let verdict = self.comparison.verdict(&mut self.pair)?;
        let is_short = commands.len() <= 2 * others;
        let figure = if answers.is_empty() && verdict == Verdict::AllAgree && is_short {
            Figure::Gathered
        } else if free < others && answers == BTreeSet::from([refusal::NO_VERSION_LEFT]) {
            Figure::GatheredTooFull
        } else {
            let round = &self.comparison.round;
            return Err(format!(
                "{round}: {others} consoles and {free} versions: {verdict:?} and {answers:?} after {commands:02X?}"
            ));
        };
        // Where nothing was to be done, nothing is counted.
        let is_counted = !commands.is_empty();
        self.comparison.tally.count(figure, is_counted.into());
        Ok(())
    }

    fn step(&mut self) -> Outcome<()> {
        match self.rng.below(100) {
            0..=44 => {
                let bytes = gen::likely_command(&mut self.rng, &self.room);
                self.command(&bytes).map(|_| ())
            }
            45..=54 => {
                let bytes = gen::any_command(&mut self.rng);
                self.command(&bytes).map(|_| ())
            }
            55..=70 => self.ask(),
            71..=77 => self.freeze(),
            78..=82 => self.come_back(),
            83..=86 => self.resume_elsewhere(),
            87..=88 => self.open_elsewhere(),
            _ => self.damage(),
        }
    }

    fn command(&mut self, bytes: &[u8]) -> Outcome<Reply> {
        let reply = self.comparison.command(&mut self.pair, bytes)?;
        if reply.answer == 0 {
            let next = decode(bytes).and_then(|command| step(&self.room, &command));
            self.room = next.map_err(|refusal| format!("the model accepted {refusal}"))?;
            self.check_count(bytes, reply.count)?;
            self.book.note(bytes);
            self.note_turnover(bytes);
        }
        Ok(reply)
    }

    /// An accepted command, not noted in the book yet, counts no more than the book allows.
    fn check_count(&self, command: &[u8], count: u32) -> Outcome<()> {
        let most = self.book.most_clashes(command);
        if count as usize <= most {
            return Ok(());
        }
        let round = &self.comparison.round;
        Err(format!(
            "book and model, {round}: {command:02X?} counts {count}, at most {most} is due"
        ))
    }

    /// Counts an accepted leave, and an accepted fork of a number that has left before; those where there is a hub once more.
    fn note_turnover(&mut self, command: &[u8]) {
        let (tally, has_hub) = (&mut self.comparison.tally, self.room.hub);
        match *command {
            [code::LEAVE, console] => {
                self.has_left[usize::from(console)] = true;
                tally.count(Figure::Leave, 1);
                tally.count(Figure::LeaveWithHub, has_hub.into());
            }
            [code::FORK, new, _] => {
                let is_back = take(&mut self.has_left[usize::from(new)]);
                tally.count(Figure::ForkedAgain, is_back.into());
                tally.count(Figure::ForkedAgainWithHub, (is_back && has_hub).into());
            }
            _ => {}
        }
    }

    /// Compares what the implementation under test says of its store with the book.
    fn check_book(&mut self) -> Outcome<()> {
        let (tested, store) = (self.comparison.tested, self.pair.tested.store.lent());
        let alike = self.book.check(&tested, store).map_err(|difference| {
            let round = &self.comparison.round;
            format!("book and {}, {round}: {difference}", tested.name)
        })?;
        self.comparison.tally.count(Figure::HeardTheSame, alike);
        Ok(())
    }

    fn ask(&mut self) -> Outcome<()> {
        let (first, second) = (some_console(&mut self.rng), some_console(&mut self.rng));
        let length = output_length(&mut self.rng, BOARD_BYTES);
        let shown = self.likely_console().unwrap_or(first);
        let pair = &mut self.pair;
        self.comparison.show(&mut self.rng, pair, shown, length)?;
        self.comparison.call(Call::Heard { console: first }, pair)?;
        self.comparison.call(Call::Common { first, second }, pair)?;
        self.comparison.call(some_origin(&mut self.rng), pair)?;
        self.comparison.verdict(pair)?;
        self.ask_origins()?;
        self.look()
    }

    /// A present console, half the time.
    fn likely_console(&mut self) -> Option<u32> {
        let present = self.rng.pick(&self.room.present());
        let likely = present.filter(|_| self.rng.chance(50));
        likely.map(|console| console as u32)
    }

    /// The origins of a strip's cells with a present console.
    fn ask_origins(&mut self) -> Outcome<()> {
        let console = self.rng.pick(&self.room.present()).unwrap_or(0) as u32;
        let strip = gen::some_strip(&mut self.rng).into();
        let pair = &mut self.pair;
        self.comparison.origins(pair, &[console], &[strip], &CELLS)
    }

    /// Views of the running room and of the frozen one, or of what else may be lent with it.
    fn look(&mut self) -> Outcome<()> {
        let likely = self.likely_console();
        let rng = &mut self.rng;
        let beside = gen::store_beside(rng, &self.frozen);
        let both = &mut Pair::in_any_order(rng, self.pair.store(), &beside);
        let any = rng.below(CONSOLES) as u32;
        self.comparison.look(both, likely.unwrap_or(any))?;
        self.comparison.view(some_view(rng), both).map(|_| ())
    }

    /// Pauses, and resumes beside the running room, which goes on.
    fn freeze(&mut self) -> Outcome<()> {
        let Some(tape) = self.pause()? else {
            return Ok(());
        };
        let length = store_length(&mut self.rng, self.room.capacity);
        let mut pair = Pair::of_store(&bytes_of_length(&mut self.rng, length));
        self.comparison.resume(&mut pair, &tape)?;
        self.frozen = pair.store().to_vec();
        Ok(())
    }

    /// Pauses into an output of some length; the tape, where it was long enough.
    fn pause(&mut self) -> Outcome<Option<Vec<u8>>> {
        let needed = tape_of(&self.room).len();
        let length = output_length(&mut self.rng, needed);
        self.pair
            .lend_output(&bytes_of_length(&mut self.rng, length));
        let reply = self.comparison.call(Call::Pause, &mut self.pair)?;
        let written = &self.pair.output()[..reply.count as usize];
        Ok((reply.answer == 0).then(|| written.to_vec()))
    }

    /// Pauses and resumes in the same buffer, over the running room or over its damaged bytes.
    fn come_back(&mut self) -> Outcome<()> {
        let Some(tape) = self.pause()? else {
            return Ok(());
        };
        if self.rng.chance(50) {
            let damaged = bytes_of_length(&mut self.rng, self.pair.store().len());
            self.pair = Pair::of_store(&damaged);
        }
        self.comparison.resume(&mut self.pair, &tape)?;
        self.comparison.call(Call::Mergeable, &mut self.pair)?;
        self.book = Book::of_tape(&tape);
        let has_one_left = self.has_left.contains(&true);
        let tally = &mut self.comparison.tally;
        tally.count(Figure::ResumedAfterLeave, has_one_left.into());
        Ok(())
    }

    /// Resumes a damaged tape of this room in a buffer of its own.
    fn resume_elsewhere(&mut self) -> Outcome<()> {
        let tape = gen::damaged_tape(&mut self.rng, &tape_of(&self.room));
        let length = output_length(&mut self.rng, self.pair.store().len());
        let mut pair = Pair::of_store(&bytes_of_length(&mut self.rng, length));
        self.comparison.resume(&mut pair, &tape)?;
        Ok(())
    }

    fn open_elsewhere(&mut self) -> Outcome<()> {
        let capacity = self.rng.between(1, 40) as u32;
        let mut pair = self.pair.clone();
        self.comparison.call(Call::Open { capacity }, &mut pair)?;
        self.comparison.any_call(&mut self.rng, &mut pair)?;
        Ok(())
    }

    /// One call on a damaged copy of the store.
    fn damage(&mut self) -> Outcome<()> {
        let damaged = gen::damaged_store(&mut self.rng, self.pair.store());
        let mut pair = Pair::of_store(&damaged);
        self.comparison.any_call(&mut self.rng, &mut pair)?;
        Ok(())
    }
}

/// A length for the buffer of a running store: exact or longer.
fn store_length(rng: &mut Rng, capacity: usize) -> usize {
    let longer = [0, 0, 1, 7, 543, 544, 5000];
    store_bytes(capacity) + rng.pick(&longer).unwrap_or(0)
}

/// A session from opening on.
pub(super) fn opened_session<'a>(
    comparison: &'a mut Comparison,
    rng: &mut Rng,
    capacity: usize,
) -> Outcome<Session<'a>> {
    let length = store_length(rng, capacity);
    let pair = comparison.opened(rng, capacity as u32, length)?;
    let (room, book) = (Room::opened(capacity), Book::opened());
    Ok(Session::new(comparison, rng, pair, room, book))
}

/// A session that goes on from a room's tape.
pub(super) fn resumed_session<'a>(
    comparison: &'a mut Comparison,
    rng: &mut Rng,
    room: Room,
) -> Outcome<Session<'a>> {
    let length = store_length(rng, room.capacity);
    let mut pair = Pair::of_store(&bytes_of_length(rng, length));
    let tape = tape_of(&room);
    comparison.resume(&mut pair, &tape)?;
    let book = Book::of_tape(&tape);
    Ok(Session::new(comparison, rng, pair, room, book))
}

/// A room whose next merge has so many clashes, whichever console takes from the other, and what comes after it.
pub(super) fn compare_clashes(
    comparison: &mut Comparison,
    rng: &mut Rng,
    clashes: usize,
) -> Outcome<()> {
    let room = gen::clashing_room(rng, clashes);
    for merge in [[code::MERGE, 0, 1], [code::MERGE, 1, 0]] {
        let mut session = resumed_session(comparison, rng, room.clone())?;
        let reply = session.command(&merge)?;
        if reply != reply_of(Ok(clashes)) {
            let round = &comparison.round;
            let made = format!("a room made for {clashes} clashes");
            return Err(format!(
                "{round}: {made}: {reply:?} to {merge:02X?}: {room:?}"
            ));
        }
        session.run(STEPS_AFTER_CLASHES)?;
    }
    Ok(())
}
