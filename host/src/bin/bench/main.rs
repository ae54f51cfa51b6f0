// The benchmark: `print_header` says what its lines mean. It ends with 1 where a ratio is more than one and a half times its limit, and
// the last line names it; less may be noise.

mod busy_room;
mod measure;
mod works;

use measure::ROUNDS;
use room_host::limits::Report;
use std::process::ExitCode;

const SEED: u64 = 20_261_115;

fn print_header() {
    println!(
        "The room unit's speed on this machine. A time is the shortest in {ROUNDS} rounds, which are taken by turns with what it is
measured against, on warm buffers.
  time WHAT T us        what a call takes, in microseconds: for information, as it depends on the machine
  ratio WHAT AGAINST R  that divided by another time of this run: of memcmp_of_the_store, a comparison of the store's bytes with a
                        copy; of fast, the same call by a second implementation; of soundness, the unit's test of the whole store
  limit WHAT AGAINST L  what the ratio above it may be at most; EXCEEDED where it is more
The number at the end of a name is the capacity of a full room or the versions on a tape; few is 7 or 85 versions in a capacity of 1,024,
and no number is 1,000 versions in it. The rooms are those of seed {SEED}."
    );
}

fn print_end(report: &Report) -> ExitCode {
    println!("{}", report.summary());
    if report.failed().is_empty() {
        return ExitCode::SUCCESS;
    }
    println!("failed: {}", report.failed().join(", "));
    ExitCode::FAILURE
}

fn main() -> ExitCode {
    let mut report = Report::default();
    print_header();
    works::bench_soundness(&mut report);
    works::bench_soundness_with_hub(&mut report);
    works::bench_calls(&mut report);
    works::bench_origins(&mut report);
    works::bench_mergeable(&mut report);
    works::bench_tapes(&mut report);
    print_end(&report)
}
