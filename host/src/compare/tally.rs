// How often each call gave each answer, and what else a run has met.

use super::call::{Call, Seen, ViewNumbers, LISTED};
use super::figures::{Figure, FIGURES, HIDING};
use crate::calls::Reply;
use crate::model::{choice, code, record, refusal, room_of_tape, Verdict};
use crate::panes::Hidden;
use crate::{gen, layout};
use std::collections::BTreeMap;
use std::fmt;
use std::ops::AddAssign;

const HIGHEST_REFUSAL: usize = refusal::CANNOT_MAKE_HUB as usize;

/// From this console on a receiver is high: many pairs come before it.
const HIGH_RECEIVER: usize = 8;

/// How often each call gave each answer, the figures, and how many merges counted each number of clashes.
#[derive(Clone)]
pub struct Tally {
    answers: [[u64; HIGHEST_REFUSAL + 1]; LISTED.len()],
    figures: [u64; FIGURES.len()],
    merges: BTreeMap<u32, u64>,
}

// Written out, as arrays of more than 32 have no default.
impl Default for Tally {
    fn default() -> Tally {
        Tally {
            answers: [[0; HIGHEST_REFUSAL + 1]; LISTED.len()],
            figures: [0; FIGURES.len()],
            merges: BTreeMap::new(),
        }
    }
}

impl Tally {
    /// Counts a reply that both sides gave.
    pub(super) fn note(&mut self, call: Call, reply: Reply) {
        self.answers[call.place()][reply.answer as usize] += 1;
        if matches!(call, Call::Origin { .. }) && reply.answer == 0 {
            let figure = if reply.count == 0 {
                Figure::OriginOfNoEntry
            } else {
                Figure::OriginOfAnEntry
            };
            self.count(figure, 1);
        }
    }

    /// Counts an answer which two can meet, in a room that is full or not.
    pub(super) fn note_verdict(&mut self, verdict: Verdict, is_full: bool) {
        let figure = match verdict {
            Verdict::AllAgree => Figure::AllAgree,
            Verdict::Stuck => Figure::Stuck,
            Verdict::Merge { receiver, .. } => {
                self.note_receiver(receiver);
                self.count(Figure::MergeNamedInFullRoom, is_full.into());
                Figure::MergeNamed
            }
            Verdict::FastForward { receiver, .. } => {
                self.note_receiver(receiver);
                Figure::FastForwardNamed
            }
        };
        self.count(figure, 1);
    }

    fn note_receiver(&mut self, receiver: usize) {
        let is_high = receiver >= HIGH_RECEIVER;
        self.count(Figure::HighReceiverNamed, is_high.into());
    }

    /// Counts an accepted command of the kinds that have figures, or one that is refused for a hub; `had_hub` says that there was one.
    pub(super) fn note_command(&mut self, command: &[u8], reply: Reply, had_hub: bool) {
        let code = command.first().copied().unwrap_or_default();
        let figure = match (code, reply.answer) {
            (code::MERGE, 0) => return self.note_merge(reply.count),
            (code::MAKE_HUB, 0) if had_hub => Figure::HubMadeAgain,
            (code::MAKE_HUB, 0) => Figure::HubMade,
            (code::FORK, refusal::NOT_THROUGH_HUB) => Figure::ForkPastHub,
            (_, refusal::NOT_THROUGH_HUB) => Figure::JoinPastHub,
            (_, refusal::CANNOT_MAKE_HUB) => Figure::HubRefused,
            _ => return,
        };
        self.count(figure, 1);
    }

    /// Counts a resumed tape with a hub, or one that only its hub stands against; the store is as the resume has left it.
    pub(super) fn note_resume(&mut self, tape: &[u8], reply: Reply, store: &[u8]) {
        let figure = match reply.answer {
            0 if layout::has_hub(store) => Figure::HubResumed,
            refusal::TAPE_NOT_SOUND if is_sound_without_hub(tape) => Figure::HubTapeRefused,
            _ => return,
        };
        self.count(figure, 1);
    }

    /// Counts a view that both sides accepted.
    pub(super) fn note_view(&mut self, view: ViewNumbers) {
        let figure = if view.choice == choice::LIVE {
            Figure::ViewOfLive
        } else {
            Figure::ViewOfFrozen
        };
        self.count(figure, 1);
        self.count(Figure::ViewOfOneStore, view.is_of_one_store.into());
    }

    /// Counts what the two stores of a view showed of one console.
    pub(super) fn note_look(&mut self, live: Seen, frozen: Seen) {
        let figure = match (live, frozen) {
            (Ok(_), Err(refusal::NO_SOUND_STORE)) => Figure::LiveBesideUnsound,
            (Err(refusal::NO_SOUND_STORE), Ok(_)) => Figure::FrozenBesideUnsound,
            (Ok(_), Err(refusal::CONSOLE_ABSENT)) => Figure::LiveAlone,
            (Err(refusal::CONSOLE_ABSENT), Ok(_)) => Figure::FrozenAlone,
            (Ok(live), Ok(frozen)) if live != frozen => Figure::BoardsDiffer,
            _ => return,
        };
        self.count(figure, 1);
    }

    /// Counts what a student's pane hid, or that a console's panes were refused.
    pub(super) fn note_panes(&mut self, panes: Result<Hidden, u32>) {
        let Ok(hidden) = panes else {
            return self.count(Figure::PanesRefused, 1);
        };
        for (figure, is_hidden) in HIDING.into_iter().zip(hidden) {
            self.count(figure, is_hidden.into());
        }
        let hides_nothing = !hidden.contains(&true);
        self.count(Figure::NothingHidden, hides_nothing.into());
    }

    /// Counts an accepted merge with so many clashes.
    fn note_merge(&mut self, clashes: u32) {
        *self.merges.entry(clashes).or_default() += 1;
        let figure = if clashes == 0 {
            Figure::MergeWithoutClash
        } else {
            Figure::MergeWithClashes
        };
        self.count(figure, 1);
        self.count(Figure::Clash, clashes as usize);
    }

    pub(super) fn count(&mut self, figure: Figure, more: usize) {
        self.figures[figure as usize] += more as u64;
    }

    pub fn calls(&self) -> u64 {
        self.answers.as_flattened().iter().sum()
    }

    fn of_answer(&self, answer: usize) -> u64 {
        self.answers.iter().map(|answers| answers[answer]).sum()
    }

    /// Each listed pair of a call and an answer, and how often it was met.
    fn pairs(&self) -> impl Iterator<Item = (&'static str, usize, u64)> + '_ {
        LISTED
            .iter()
            .zip(&self.answers)
            .flat_map(|(&(name, listed), met)| listed.iter().map(move |&a| (name, a, met[a])))
    }

    /// How many of the listed pairs were met.
    pub fn pairs_met(&self) -> usize {
        self.pairs().filter(|&(_, _, met)| met > 0).count()
    }

    /// The figures: what, how often it was met, and how often a round must meet it.
    fn figures(&self) -> impl Iterator<Item = (&'static str, u64, u64)> + '_ {
        FIGURES
            .into_iter()
            .map(|(figure, name, least)| (name, self.figures[figure as usize], least))
    }

    /// Each number of clashes that a merge can have, and how many merges counted it.
    fn numbers_of_clashes(&self) -> impl Iterator<Item = (u32, u64)> + '_ {
        let met = |number: u32| self.merges.get(&number).copied().unwrap_or(0);
        (0..=gen::VALUES as u32).map(move |number| (number, met(number)))
    }

    /// The listed pairs and the numbers of clashes that were never met, and the figures that are too low for so many rounds.
    pub(super) fn missing(&self, rounds: usize) -> Vec<String> {
        let pairs = self
            .pairs()
            .map(|(name, answer, met)| (format!("{name} {answer}"), met, 1));
        let figures = self
            .figures()
            .map(|(name, met, least)| (name.to_string(), met, least * rounds as u64));
        let clashes = self
            .numbers_of_clashes()
            .map(|(number, met)| (format!("merges that counted {number}"), met, 1));
        pairs
            .chain(figures)
            .chain(clashes)
            .filter(|&(_, met, least)| met < least)
            .map(|(what, met, least)| format!("{what}: {met} of {least}"))
            .collect()
    }
}

/// Whether a tape ends with a hub and would be accepted without it.
fn is_sound_without_hub(tape: &[u8]) -> bool {
    let [without @ .., record::HUB, record::END] = tape else {
        return false;
    };
    room_of_tape(&[without, &[record::END]].concat()).is_ok()
}

impl AddAssign<&Tally> for Tally {
    fn add_assign(&mut self, other: &Tally) {
        let others = other.answers.as_flattened().iter().chain(&other.figures);
        let answers = self.answers.as_flattened_mut().iter_mut();
        let sums = answers.chain(&mut self.figures);
        sums.zip(others).for_each(|(sum, other)| *sum += other);
        for (clashes, merges) in &other.merges {
            *self.merges.entry(*clashes).or_default() += merges;
        }
    }
}

impl fmt::Display for Tally {
    fn fmt(&self, out: &mut fmt::Formatter) -> fmt::Result {
        write_row(out, "answer", LISTED.map(|(name, _)| name), "all")?;
        (0..=HIGHEST_REFUSAL).try_for_each(|answer| {
            let met = self.answers.map(|answers| answers[answer]);
            write_row(out, answer, met, self.of_answer(answer))
        })?;
        self.figures()
            .try_for_each(|(name, met, _)| writeln!(out, "{name}: {met}"))?;
        let met = self.numbers_of_clashes().filter(|&(_, met)| met > 0);
        writeln!(out, "numbers of clashes met: {}", met.count())
    }
}

/// A row of the printed table, with a column for each call.
fn write_row(
    out: &mut fmt::Formatter,
    first: impl fmt::Display,
    columns: [impl fmt::Display; LISTED.len()],
    last: impl fmt::Display,
) -> fmt::Result {
    write!(out, "{first:>6}")?;
    for (column, (name, _)) in columns.into_iter().zip(LISTED) {
        write!(out, " {column:>width$}", width = name.len().max(9))?;
    }
    writeln!(out, " {last:>9}")
}
