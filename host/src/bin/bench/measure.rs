// The time of one call, by the unit and beside it of what it is measured against.

use room_host::compare::Call;
use room_host::implementations::{Calls, FAST, UNIT};
use room_host::layout::{self, BOARD_BYTES};
use room_host::limits::{limit_of, Report, MEMCMP, SOUNDNESS};
use room_host::model::{tape_of, Room};
use room_host::unit;
use std::array;
use std::hint::black_box;
use std::iter::repeat_with;
use std::time::Instant;

pub const ROUNDS: usize = 200;
/// Places of the stack at which turns are taken.
const DEPTHS: usize = 4;
/// Runs of one piece of work in a turn; the first brings its buffers back into the cache.
const RUNS: usize = 3;

/// These have no limit, but docs/PERFORMANCE.md tells their ratio to the soundness test.
const TOLD: [&str; 2] = ["mergeable_stuck_few", "mergeable_stuck_apart_few"];

/// A call that is accepted, with its store and input: a command, a tape or a frozen store.
pub struct Work {
    pub what: String,
    pub call: Call,
    pub room: Room,
    pub input: Vec<u8>,
}

/// The shortest times in seconds: a comparison of the whole store with a copy, the unit's soundness test alone, and the call
/// by the unit and by the fast implementation.
struct Times {
    memcmp: f64,
    soundness: f64,
    unit: f64,
    fast: f64,
}

/// The store as it was before the call: what the call can have written is put back. A resume writes the same store again.
fn restore(work: &Work, store: &mut [u8], fresh: &[u8]) {
    let unused = layout::block_at(work.room.versions.len());
    match work.call {
        Call::Open { .. } => store.copy_from_slice(fresh),
        Call::Command => {
            store[..layout::HEADER_BYTES].copy_from_slice(&fresh[..layout::HEADER_BYTES]);
            store[unused..].copy_from_slice(&fresh[unused..]);
        }
        _ => {}
    }
}

pub fn seconds(work: impl FnOnce()) -> f64 {
    let start = Instant::now();
    work();
    start.elapsed().as_secs_f64()
}

fn times_of(work: &Work) -> Times {
    let fresh = layout::encode(&work.room);
    let mut store = fresh.clone();
    let mut output = vec![0; tape_of(&work.room).len().max(BOARD_BYTES)];
    let [memcmp, soundness, unit, fast] = by_turns(|| {
        [
            shortest_of(|| seconds(|| assert!(black_box(&store) == black_box(&fresh)))),
            shortest_of(|| seconds(|| judge(&store))),
            shortest_of(|| call_seconds(work, &UNIT, &mut store, &mut output, &fresh)),
            shortest_of(|| call_seconds(work, &FAST, &mut store, &mut output, &fresh)),
        ]
    });
    Times {
        memcmp,
        soundness,
        unit,
        fast,
    }
}

/// The shortest time of each thing in many turns.
pub fn by_turns<const THINGS: usize>(mut turn: impl FnMut() -> [f64; THINGS]) -> [f64; THINGS] {
    let mut shortest = [f64::MAX; THINGS];
    for round in 0..ROUNDS {
        at_depth(round % DEPTHS, &mut || {
            let times = turn();
            shortest = array::from_fn(|place| times[place].min(shortest[place]));
        });
    }
    shortest
}

/// Does a turn so many small frames further down the stack. The soundness test has boards and quarters of boards there, and took up to a
/// tenth longer at some places than at others, 16 bytes apart; so each work is measured at several.
#[inline(never)]
fn at_depth(depth: usize, turn: &mut dyn FnMut()) {
    let held = black_box([depth; 2]);
    if held[0] == 0 {
        turn();
    } else {
        at_depth(depth - 1, turn);
    }
    black_box(held);
}

/// The shortest time of the runs of one turn.
pub fn shortest_of(run: impl FnMut() -> f64) -> f64 {
    repeat_with(run).take(RUNS).fold(f64::MAX, f64::min)
}

fn call_seconds(
    work: &Work,
    calls: &Calls,
    store: &mut [u8],
    output: &mut [u8],
    fresh: &[u8],
) -> f64 {
    let time = seconds(|| make(work, calls, store, output));
    restore(work, store, fresh);
    time
}

/// The cheapest question: its cost is the soundness test and the reading of one field.
pub fn judge(store: &[u8]) {
    assert_eq!(unit::common(black_box(store), 0, 0).answer, 0);
}

fn make(work: &Work, calls: &Calls, store: &mut [u8], output: &mut [u8]) {
    let reply = work.call.make(calls, black_box(store), &work.input, output);
    assert_eq!(reply.answer, 0, "{} by {}", work.what, calls.name);
}

/// Measures a piece of work, prints its time and its ratios, that against the soundness test only where it has a limit or is told, and
/// gives the unit's time.
pub fn bench(report: &mut Report, work: &Work) -> f64 {
    let what = work.what.as_str();
    let times = times_of(work);
    println!("time {what} {:.1} us", 1e6 * times.unit);
    print_judged(report, what, MEMCMP, times.unit / times.memcmp);
    print_judged(report, what, "fast", times.unit / times.fast);
    if limit_of(what, SOUNDNESS).is_some() || TOLD.contains(&what) {
        print_judged(report, what, SOUNDNESS, times.unit / times.soundness);
    }
    times.unit
}

fn print_ratio(what: &str, against: &str, value: f64) {
    println!("ratio {what} {against} {value:.2}");
}

/// Prints a ratio, and its limit where it has one.
pub fn print_judged(report: &mut Report, what: &str, against: &str, value: f64) {
    print_ratio(what, against, value);
    if let Some(line) = report.judge(what, against, value) {
        println!("{line}");
    }
}

/// How the time grows: the time for each byte or version, against that of the smallest of the sizes.
pub fn print_growth(
    what: &str,
    per: &str,
    sizes: [usize; 3],
    amounts: [usize; 3],
    times: [f64; 3],
) {
    let each = |place: usize| times[place] / amounts[place] as f64;
    for place in 1..sizes.len() {
        print_ratio(
            &format!("{what}_per_{per}_{}", sizes[place]),
            &format!("per_{per}_{}", sizes[0]),
            each(place) / each(0),
        );
    }
}
