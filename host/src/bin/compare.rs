// Compares the unit and the fast implementation with the model, call by call, and the session program with the model's session.
// `compare [unit|fast|session]`; the seed is ROOM_SEED, the program ROOM_SESSION. Ends with 1 at the first difference.

use room_host::compare::{compare, seed, Effort, Outcome};
use room_host::implementations::{Calls, FAST, UNIT};
use room_host::session;
use std::process::ExitCode;
use std::time::Instant;

const EFFORT: Effort = Effort {
    rounds: 24,
    steps_at_1024: 2500,
};
const SESSIONS: usize = 400;
const COMPARED: [&str; 3] = ["unit", "fast", "session"];

fn compare_calls(tested: Calls, seed: u64) -> Outcome<()> {
    let start = Instant::now();
    let tally = compare(tested, seed, EFFORT)?;
    print!("{tally}");
    println!(
        "model and {} agree in {} calls, {} pairs of call and answer met, seed {seed}, {:.1} s",
        tested.name,
        tally.calls(),
        tally.pairs_met(),
        start.elapsed().as_secs_f64()
    );
    Ok(())
}

fn compare_session(seed: u64) -> Outcome<()> {
    let Some(program) = session::program() else {
        return Ok(());
    };
    let compared = session::compare_program(&program, seed, SESSIONS)?;
    println!("model and session program agree in {compared}, seed {seed}");
    Ok(())
}

fn run(wanted: Option<&str>, seed: u64) -> Outcome<()> {
    // A misspelt name must not pass for a comparison without a difference.
    if let Some(unknown) = wanted.filter(|wanted| !COMPARED.contains(wanted)) {
        return Err(format!("{unknown} is none of {COMPARED:?}"));
    }
    let is_wanted = |name: &str| wanted.is_none_or(|wanted| wanted == name);
    for tested in [UNIT, FAST] {
        if is_wanted(tested.name) {
            compare_calls(tested, seed)?;
        }
    }
    if is_wanted("session") {
        compare_session(seed)?;
    }
    Ok(())
}

fn main() -> ExitCode {
    let seed = seed();
    println!("seed {seed}");
    match run(std::env::args().nth(1).as_deref(), seed) {
        Ok(()) => ExitCode::SUCCESS,
        Err(difference) => {
            println!("{difference}");
            ExitCode::FAILURE
        }
    }
}
