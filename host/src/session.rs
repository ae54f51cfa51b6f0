// Runs the session program on standard inputs of every kind and compares every line that it prints with the model's.

use crate::calls::{self, Told};
use crate::compare::Outcome;
use crate::gen;
use crate::model::{code, decode, refusal, Room};
use crate::rng::Rng;
use std::fmt;
use std::io::{self, Write};
use std::path::{Path, PathBuf};
use std::process::{Command, Stdio};

/// The paper's session, and what it prints.
const PAPER_INPUT: [u8; 20] = [
    0x01, 0x01, 0x00, 0x02, 0x00, 0x05, 0x00, 0x64, 0x06, 0x01, 0x05, 0x09, 0x00, 0x01, 0x0A, 0x01,
    0x00, 0x09, 0x00, 0x01,
];
const PAPER_LINES: &str = "1 0 0\n2 0 1\n3 0 2\n4 0 3\n5 0 3\n6 14 3\nend 4\n";

/// The session program that the environment's ROOM_SESSION names. Without one it is said, past what captures a test's
/// own prints, that the program is left out.
pub fn program() -> Option<PathBuf> {
    let named = std::env::var_os("ROOM_SESSION").map(PathBuf::from);
    if named.is_none() {
        let skipped =
            b"skipped: ROOM_SESSION doesn't name the session program, so it isn't compared\n";
        io::stderr().write_all(skipped).ok();
    }
    named
}

/// What the program prints for an input.
pub fn printed(program: &Path, input: &[u8]) -> io::Result<String> {
    let mut running = Command::new(program)
        .stdin(Stdio::piped())
        .stdout(Stdio::piped())
        .spawn()?;
    if let Some(mut standard_input) = running.stdin.take() {
        // The program may stop reading before the end, after an answer of 1 or 2.
        match standard_input.write_all(input) {
            Err(error) if error.kind() != io::ErrorKind::BrokenPipe => return Err(error),
            _ => {}
        }
    }
    let ended = running.wait_with_output()?;
    let text = String::from_utf8_lossy(&ended.stdout).into_owned();
    Ok(match ended.status.code() {
        Some(_) => text,
        None => text + "(ended by a signal)\n",
    })
}

fn compare_input(program: &Path, input: &[u8], expected: &str) -> Outcome<()> {
    let found = printed(program, input).map_err(|error| format!("{program:?}: {error}"))?;
    if found == expected {
        return Ok(());
    }
    let lines = expected.lines().zip(found.lines());
    let line = lines
        .take_while(|(expected, found)| expected == found)
        .count();
    Err(format!(
        "session program, line {}: expected {:?}, found {:?}\ninput: {input:02X?}",
        line + 1,
        expected.lines().nth(line),
        found.lines().nth(line)
    ))
}

/// Whether a command ends the session: its answer is 1 or 2.
fn ends(command: &[u8]) -> bool {
    let refusal = decode(command).err();
    refusal == Some(refusal::NO_SUCH_COMMAND) || refusal == Some(refusal::WRONG_LENGTH)
}

/// An input: commands of which most are accepted, whole or cut or with a byte changed, or garbage. In a third of them consoles come and go,
/// and a third are for a room with a hub.
fn some_input(rng: &mut Rng) -> Vec<u8> {
    let length = rng.below(120);
    let (mut commands, _) = match rng.below(3) {
        0 => gen::command_sequence(rng, 64, length),
        1 => gen::turnover_from(rng, Room::opened(64), 3 * length),
        _ => gen::hub_sequence(rng, 64, 2 * length),
    };
    commands.retain(|command| !ends(command));
    let mut input = commands.concat();
    match rng.below(6) {
        0 => input.truncate(rng.below(input.len() + 1)),
        1 => input = gen::garbage(rng, 40),
        2 => input = (0..rng.below(60)).map(|_| rng.below(14) as u8).collect(),
        3 => {
            let place = rng.below(input.len());
            if let Some(byte) = input.get_mut(place) {
                *byte = rng.byte();
            }
        }
        _ => {}
    }
    input
}

/// How many inputs and lines were compared; how many accepted leaves and hubs, commands past the hub and refused hubs were among them; and
/// how many inputs had merges that clashed.
#[derive(Default)]
pub struct Compared {
    inputs: usize,
    lines: usize,
    leaves: usize,
    hubs: usize,
    past_hub: usize,
    hubs_refused: usize,
    clashing: usize,
}

impl Compared {
    fn note(&mut self, session: &Told) {
        self.inputs += 1;
        self.lines += session.printed.lines().count();
        self.clashing += usize::from(session.clashes > 0);
        for answered in &session.answers {
            match *answered {
                (code::LEAVE, 0) => self.leaves += 1,
                (code::MAKE_HUB, 0) => self.hubs += 1,
                (_, refusal::NOT_THROUGH_HUB) => self.past_hub += 1,
                (_, refusal::CANNOT_MAKE_HUB) => self.hubs_refused += 1,
                _ => {}
            }
        }
    }

    /// Whether there was enough of everything in so many random inputs.
    fn is_enough(&self, count: usize) -> bool {
        self.leaves >= count
            && self.hubs >= count / 10
            && self.past_hub >= count / 10
            && self.hubs_refused >= count / 30
            && self.clashing >= count / 10
    }
}

impl fmt::Display for Compared {
    fn fmt(&self, out: &mut fmt::Formatter) -> fmt::Result {
        write!(
            out,
            "{} inputs, {} lines, {} accepted leaves, {} accepted hubs, {} commands past the hub, {} hubs refused, {} inputs with clashes",
            self.inputs,
            self.lines,
            self.leaves,
            self.hubs,
            self.past_hub,
            self.hubs_refused,
            self.clashing
        )
    }
}

/// Compares the program with the model on the paper's session, cut at every place, and on so many random inputs, in which there must
/// be enough of what is counted.
pub fn compare_program(program: &Path, seed: u64, count: usize) -> Outcome<Compared> {
    let mut compared = Compared::default();
    compare_input(program, &PAPER_INPUT, PAPER_LINES)?;
    let rng = &mut Rng::new(seed);
    let cut = (0..=PAPER_INPUT.len()).map(|length| PAPER_INPUT[..length].to_vec());
    let random = (0..count).map(|_| some_input(rng));
    for input in cut.chain(random) {
        let expected = calls::session(&input);
        compare_input(program, &input, &expected.printed)?;
        compared.note(&expected);
    }
    if !compared.is_enough(count) {
        return Err(format!("seed {seed}: too little in {compared}"));
    }
    Ok(compared)
}
