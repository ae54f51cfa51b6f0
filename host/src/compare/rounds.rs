// What a run compares: rounds at small capacities, cases that are the same for every seed, sessions at the highest capacity.

use super::comparison::Comparison;
use super::full_rooms::{
    compare_full_panes, compare_full_verdicts, compare_full_views, compare_long_walks,
};
use super::numbers::compare_numbers;
use super::paper_rooms::compare_paper_rooms;
use super::session::{compare_clashes, opened_session, resumed_session};
use super::stores::{compare_every_byte, compare_grown_store, compare_hub_fields, compare_stores};
use super::tally::Tally;
use super::tapes::{
    compare_cut_tapes, compare_edges, compare_garbage, compare_hub_tapes, compare_long_tapes,
    compare_tapes,
};
use super::Outcome;
use crate::gen;
use crate::implementations::Calls;
use crate::rng::Rng;
use std::iter::repeat_n;

const DEFAULT_SEED: u64 = 20_261_115;

/// The seed of a run: the environment's ROOM_SEED, or the fixed one.
pub fn seed() -> u64 {
    let given = std::env::var("ROOM_SEED").ok();
    given
        .and_then(|text| text.parse().ok())
        .unwrap_or(DEFAULT_SEED)
}

/// How much a run compares.
#[derive(Clone, Copy)]
pub struct Effort {
    /// Rounds at small capacities, of some thousands of calls each.
    pub rounds: usize,
    /// Steps at capacity 1,024, where the model takes milliseconds for a call.
    pub steps_at_1024: usize,
}

/// Compares the implementation with the model on all cases of the seed; each call gives each answer listed for it, and no figure is
/// too low, or the run has failed.
pub fn compare(tested: Calls, seed: u64, effort: Effort) -> Outcome<Tally> {
    let mut tally = Tally::default();
    for round in 0..effort.rounds {
        let mut comparison = Comparison::new(tested, format!("seed {seed}, round {round}"));
        let round_seed = Rng::new(seed.wrapping_add(round as u64)).number();
        small_round(&mut comparison, &mut Rng::new(round_seed))?;
        tally += &comparison.tally;
    }
    let mut comparison = Comparison::new(tested, format!("seed {seed}, after the rounds"));
    let rng = &mut Rng::new(seed);
    fixed_cases(&mut comparison, rng)?;
    large_sessions(&mut comparison, rng, effort.steps_at_1024)?;
    tally += &comparison.tally;
    match tally.missing(effort.rounds)[..] {
        [] => Ok(tally),
        ref missing => Err(format!("seed {seed}: met too rarely: {missing:?}")),
    }
}

/// Capacities, how many sessions of each in a round, and their steps: enough to fill the room and go on for a while.
const SMALL_SESSIONS: [(usize, usize, usize); 5] = [
    (1, 2, 20),
    (2, 4, 30),
    (3, 8, 40),
    (16, 30, 70),
    (64, 8, 250),
];

/// Capacities of the sessions in which consoles come and go, one of each in a round, and their steps. The first room is soon full: then
/// consoles still fork, fast-forward and leave.
const TURNOVER_SESSIONS: [(usize, usize); 2] = [(12, 240), (96, 640)];

/// Capacities of the sessions in rooms with a hub, one of each in a round, and their steps before the hub may be made and from then on. In
/// the first it is made soon and the room is soon full, in the last it is made late, if at all.
const HUB_SESSIONS: [(usize, usize, usize); 3] = [(14, 0, 100), (96, 0, 200), (96, 120, 150)];

fn small_round(comparison: &mut Comparison, rng: &mut Rng) -> Outcome<()> {
    small_sessions(comparison, rng)?;
    turnover_sessions(comparison, rng)?;
    hub_sessions(comparison, rng)?;
    sessions_from_full_rooms(comparison, rng, 16)?;
    sessions_from_full_rooms(comparison, rng, 64)?;
    sessions_that_clash(comparison, rng)?;
    sessions_from_stuck_rooms(comparison, rng)?;
    compare_garbage(comparison, rng, 250)?;
    compare_tapes(comparison, rng, 500)?;
    compare_cut_tapes(comparison, rng)?;
    compare_hub_tapes(comparison, rng)?;
    compare_hub_fields(comparison, rng)?;
    compare_stores(comparison, rng, 150)?;
    compare_grown_store(comparison, rng, 6)?;
    if rng.chance(30) {
        let capacity = rng.between(1, 5);
        compare_every_byte(comparison, rng, capacity)?;
    }
    Ok(())
}

fn small_sessions(comparison: &mut Comparison, rng: &mut Rng) -> Outcome<()> {
    let all = SMALL_SESSIONS
        .into_iter()
        .flat_map(|(capacity, sessions, steps)| repeat_n((capacity, steps), sessions));
    for (capacity, steps) in all {
        opened_session(comparison, rng, capacity)?.run(steps)?;
    }
    Ok(())
}

fn turnover_sessions(comparison: &mut Comparison, rng: &mut Rng) -> Outcome<()> {
    for (capacity, steps) in TURNOVER_SESSIONS {
        opened_session(comparison, rng, capacity)?.run_turnover(steps)?;
    }
    Ok(())
}

fn hub_sessions(comparison: &mut Comparison, rng: &mut Rng) -> Outcome<()> {
    for (capacity, before, steps) in HUB_SESSIONS {
        let mut session = opened_session(comparison, rng, capacity)?;
        session.run_turnover(before)?;
        session.run_hub(steps)?;
    }
    Ok(())
}

fn sessions_from_full_rooms(
    comparison: &mut Comparison,
    rng: &mut Rng,
    capacity: usize,
) -> Outcome<()> {
    let entries = gen::full_of_entries(rng, capacity);
    resumed_session(comparison, rng, entries)?.run(40)?;
    let merges = gen::full_of_merges(rng, capacity);
    resumed_session(comparison, rng, merges)?.run(40)?;
    let through_hub = gen::full_through_hub(rng, capacity);
    resumed_session(comparison, rng, through_hub)?.run_hub(40)
}

/// Rooms whose merges have some number of clashes, merged at once and after other steps.
fn sessions_that_clash(comparison: &mut Comparison, rng: &mut Rng) -> Outcome<()> {
    for _ in 0..3 {
        let clashes = rng.below(gen::VALUES + 1);
        compare_clashes(comparison, rng, clashes)?;
        let room = gen::clashing_room(rng, clashes);
        resumed_session(comparison, rng, room)?.run(30)?;
    }
    Ok(())
}

/// Stuck rooms, and what becomes of them.
fn sessions_from_stuck_rooms(comparison: &mut Comparison, rng: &mut Rng) -> Outcome<()> {
    for _ in 0..3 {
        let room = gen::some_stuck_room(rng);
        resumed_session(comparison, rng, room)?.run_verdicts(12)?;
    }
    Ok(())
}

/// The cases that are the same, or nearly so, for every seed.
fn fixed_cases(comparison: &mut Comparison, rng: &mut Rng) -> Outcome<()> {
    compare_paper_rooms(comparison, rng)?;
    compare_numbers(comparison, rng)?;
    compare_edges(comparison, rng)?;
    compare_long_tapes(comparison, rng)?;
    compare_long_walks(comparison)?;
    compare_full_verdicts(comparison)?;
    compare_full_views(comparison)?;
    compare_full_panes(comparison, rng)?;
    for clashes in 0..=gen::VALUES {
        compare_clashes(comparison, rng, clashes)?;
    }
    compare_grown_store(comparison, rng, 1023)?;
    compare_grown_store(comparison, rng, 1024)
}

fn large_sessions(comparison: &mut Comparison, rng: &mut Rng, steps: usize) -> Outcome<()> {
    let mut opened = opened_session(comparison, rng, 1024)?;
    opened.run(steps / 4)?;
    opened.run_turnover(steps / 4)?;
    for (kind, count) in [(0, 900), (1, 900), (0, 1010), (1, 1010)] {
        let mut room = if kind == 0 {
            gen::full_of_entries(rng, count)
        } else {
            gen::full_of_merges(rng, count)
        };
        room.capacity = 1024;
        resumed_session(comparison, rng, room)?.run(steps / 8)?;
    }
    let mut room = gen::full_through_hub(rng, 990);
    room.capacity = 1024;
    resumed_session(comparison, rng, room)?.run_hub(steps / 8)
}
