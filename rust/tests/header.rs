// The crate says what include/room.h says: its version, sizes, codes and the names of refusals; and of each refusal the words of the table.

use room::{Refusal, codes, sizes};

const HEADER: &str = include_str!("../../include/room.h");
const TABLE: &str = include_str!("../../include/room_text.c");

/// What a macro of the header stands for.
fn defined(name: &str) -> &'static str {
    let start = format!("#define ROOM_{name} ");
    let mut found = HEADER.lines().filter_map(|line| line.strip_prefix(&start));
    let rest = found.next().unwrap_or_else(|| panic!("no {start}"));
    rest.split(" /*").next().unwrap_or(rest).trim()
}

fn defined_number(name: &str) -> usize {
    let text = defined(name);
    let number = match text.strip_prefix("0x") {
        Some(digits) => usize::from_str_radix(digits, 16),
        None => text.parse(),
    };
    number.unwrap_or_else(|_| panic!("{name} is {text}"))
}

#[test]
fn the_version() {
    assert_eq!(
        defined("VERSION"),
        format!("{:?}", env!("CARGO_PKG_VERSION"))
    );
}

#[test]
fn the_sizes() {
    let numbers = [
        ("CONSOLES", sizes::CONSOLES),
        ("STRIPS", sizes::STRIPS),
        ("STRIP_BYTES", sizes::STRIP_BYTES),
        ("BOARD_BYTES", sizes::BOARD_BYTES),
        ("MAX_CAPACITY", sizes::MAX_CAPACITY as usize),
        ("MAX_LEVEL", sizes::MAX_LEVEL.into()),
        ("MAX_HEADING", sizes::MAX_HEADING.into()),
        ("MAX_MARK", sizes::MAX_MARK.into()),
        ("MAX_COMMAND_BYTES", sizes::MAX_COMMAND_BYTES),
        ("MAX_CLASHES", sizes::MAX_CLASHES as usize),
        ("STACK", sizes::STACK),
        ("RESUME_STACK", sizes::RESUME_STACK),
        ("ORIGIN_STACK", sizes::ORIGIN_STACK),
        ("MAX_REFUSAL", Refusal::ALL.len()),
    ];
    for (name, number) in numbers {
        assert_eq!(defined_number(name), number, "{name}");
    }
    assert_eq!(
        defined("STORE_BYTES(capacity)"),
        "(4096UL + 544UL * (capacity))"
    );
    assert_eq!(sizes::store_bytes(1024), 4096 + 544 * 1024);
    assert_eq!(defined("TAPE_BYTES(capacity)"), "(7UL * (capacity) + 62UL)");
    assert_eq!(sizes::tape_bytes(1024), 7 * 1024 + 62);
}

#[test]
fn the_codes() {
    let numbers = [
        ("FORK", codes::FORK),
        ("LEVEL", codes::LEVEL),
        ("HEADING", codes::HEADING),
        ("MARK_PUT", codes::MARK_PUT),
        ("MARK_TAKEN", codes::MARK_TAKEN),
        ("CALL", codes::CALL),
        ("ALERT_ON", codes::ALERT_ON),
        ("ALERT_OFF", codes::ALERT_OFF),
        ("MERGE", codes::MERGE),
        ("FAST_FORWARD", codes::FAST_FORWARD),
        ("LEAVE", codes::LEAVE),
        ("HUB", codes::HUB),
        ("TAPE_START", codes::TAPE_START),
        ("TAPE_ENTRY", codes::TAPE_ENTRY),
        ("TAPE_MERGE", codes::TAPE_MERGE),
        ("TAPE_HEAD", codes::TAPE_HEAD),
        ("TAPE_END", codes::TAPE_END),
        ("TAPE_HUB", codes::TAPE_HUB),
    ];
    for (name, code) in numbers {
        assert_eq!(defined_number(name), code.into(), "{name}");
    }
}

/// `ROOM_NO_COMMAND` as the crate would call it: `NoCommand`.
fn variant_of(name: &str) -> String {
    let words = name.split('_').skip(1);
    let capital = |word: &str| word[..1].to_string() + &word[1..].to_lowercase();
    words.map(capital).collect()
}

#[test]
fn the_names_of_refusals() {
    for (refusal, number) in Refusal::ALL.into_iter().zip(1..) {
        assert_eq!(refusal.number(), number);
        let name = refusal.name();
        assert_eq!(variant_of(name), format!("{refusal:?}"));
        let row = format!("{name} = {number}");
        let ends = [",", " "].map(|end| row.clone() + end);
        assert!(ends.iter().any(|row| HEADER.contains(row)), "{row}");
    }
}

#[test]
fn the_words_of_refusals() {
    for refusal in Refusal::ALL {
        let row = format!("ANSWER({}, \"{refusal}\"),", refusal.name());
        assert!(TABLE.contains(&row), "{row}");
    }
}

#[test]
fn a_refusal_is_an_error() {
    let error: Box<dyn std::error::Error> = Refusal::Full.into();
    assert_eq!(error.to_string(), "no version is left: the room is full");
}
