// Sessions written out by hand, the paper's among them, as the model and the session program print them; then the program against the
// model. Without ROOM_SESSION there is no program to run.

use room_host::calls::session;
use room_host::compare::seed;
use room_host::gen;
use room_host::rng::Rng;
use room_host::session::{compare_program, printed, program};

/// Inputs and what is printed for them.
const SESSIONS: [(&[u8], &str); 23] = [
    (
        &[
            0x01, 0x01, 0x00, 0x02, 0x00, 0x05, 0x00, 0x64, 0x06, 0x01, 0x05, 0x09, 0x00, 0x01,
            0x0A, 0x01, 0x00, 0x09, 0x00, 0x01,
        ],
        "1 0 0\n2 0 1\n3 0 2\n4 0 3\n5 0 3\n6 14 3\nend 4\n",
    ),
    (&[], "end 1\n"),
    (&[0x06, 0x00], "1 2 0\nend 1\n"),
    (&[0x06], "1 2 -\nend 1\n"),
    (&[0x06, 0x01], "1 2 -\nend 1\n"),
    (&[0x06, 0x10], "1 2 -\nend 1\n"),
    (&[0x0D, 0x00, 0x00], "1 1 -\nend 1\n"),
    (&[0x00], "1 1 -\nend 1\n"),
    (&[0x06, 0x10, 0x00], "1 3 -\nend 1\n"),
    (&[0x06, 0, 32, 0x06, 0, 31], "1 4 0\n2 0 1\nend 2\n"),
    (&[0x01, 0x02, 0x01], "1 12 -\nend 1\n"),
    (&[0x06, 0, 0, 0xFF, 0x06, 0, 0], "1 0 1\n2 1 -\nend 2\n"),
    // Console 0 stays, and 00 is no code.
    (&[0x0B, 0, 0], "1 20 0\n2 1 -\nend 1\n"),
    (&[0x0B], "1 2 -\nend 1\n"),
    (&[0x0B, 0x10], "1 3 -\nend 1\n"),
    (&[0x0B, 0x01], "1 12 -\nend 1\n"),
    // Console 1 may go once console 0 has its entry, is absent then, and comes back.
    (
        &[
            0x01, 1, 0, 0x06, 1, 5, 0x0B, 1, 0x0A, 0, 1, 0x0B, 1, 0x06, 1, 5, 0x0B, 1, 0x01, 1, 0,
            0x06, 1, 5,
        ],
        "1 0 0\n2 0 1\n3 21 1\n4 0 1\n5 0 -\n6 12 -\n7 12 -\n8 0 1\n9 0 2\nend 3\n",
    ),
    // A merge with one clash, whose number isn't shown: levels 0, 100, 200.
    (
        &[
            0x01, 1, 0, 0x02, 0, 5, 0, 100, 0x02, 1, 5, 0, 200, 0x09, 0, 1, 0x09, 0, 1,
        ],
        "1 0 0\n2 0 1\n3 0 2\n4 0 3\n5 14 3\nend 4\n",
    ),
    // The input ends in the middle of a leave.
    (&[0x01, 1, 0, 0x0B], "1 0 0\n2 2 -\nend 1\n"),
    // A hub has no operand; what follows is the next command.
    (&[0x0C], "1 0 -\nend 1\n"),
    (&[0x0C, 0], "1 0 -\n2 1 -\nend 1\n"),
    // With a hub a fork from console 1 is refused, and console 2 stays absent.
    (
        &[0x0C, 0x0C, 0x01, 1, 0, 0x01, 2, 1, 0x01, 2, 0],
        "1 0 -\n2 0 -\n3 0 0\n4 22 -\n5 0 0\nend 1\n",
    ),
    // Consoles 1 and 2 have version 1 in common: a hub only once console 0 has it too, and then they don't merge.
    (
        &[
            0x01, 1, 0, 0x06, 1, 5, 0x01, 2, 1, 0x0C, 0x0A, 0, 1, 0x0C, 0x06, 1, 5, 0x09, 2, 1,
            0x0A, 2, 1,
        ],
        "1 0 0\n2 0 1\n3 0 1\n4 23 -\n5 0 1\n6 0 -\n7 0 2\n8 22 1\n9 22 1\nend 3\n",
    ),
];

fn check_lines(print: impl Fn(&[u8]) -> String) {
    for (input, expected) in SESSIONS {
        assert_eq!(print(input), expected);
    }
    let full = print(&[0x06, 0, 0].repeat(65));
    assert!(full.ends_with("\n63 0 63\n64 18 63\n65 18 63\nend 64\n"));
    let clashing = print(&input_of_31_clashes());
    assert!(clashing.ends_with("\n63 0 62\n64 0 63\nend 64\n"));
}

/// A fork, each console sets the levels of 31 strips, and the merge has a clash on each: more have no room in 64 versions.
fn input_of_31_clashes() -> Vec<u8> {
    let levels =
        |console: u8| (0..31).flat_map(move |strip| [0x02, console, strip, 0, 1 + console]);
    let entries = levels(0).chain(levels(1));
    [0x01, 1, 0]
        .into_iter()
        .chain(entries)
        .chain([0x09, 0, 1])
        .collect()
}

#[test]
fn the_model_prints_these_lines() {
    check_lines(|input| session(input).printed);
}

#[test]
fn the_session_program_prints_these_lines() {
    if let Some(program) = program() {
        check_lines(|input| printed(&program, input).expect("the program runs"));
    }
}

#[test]
fn the_session_program_prints_what_the_model_says() {
    let Some(program) = program() else {
        return;
    };
    match compare_program(&program, seed(), 60) {
        Ok(compared) => println!("{compared} agree"),
        Err(difference) => panic!("{difference}"),
    }
}

#[test]
fn the_model_ends_every_session() {
    let mut rng = Rng::new(13);
    for _ in 0..300 {
        let printed = session(&gen::garbage(&mut rng, 20_000)).printed;
        let last = printed.lines().last().unwrap_or_default();
        assert!(last.starts_with("end "), "{last}");
    }
}
