// Rooms in buffers that they borrow: what is written, what stays, and views that read a store where it stands.

use room::sizes::{MAX_CAPACITY, store_bytes, tape_bytes};
use room::{Console, Entry, Refusal, Room, Strip};

const FILLER: u8 = 0xA5;
const BEHIND: usize = 16;
const ZERO: Console = Console(0);

#[test]
fn bytes_behind_a_store_stay() -> Result<(), Refusal> {
    let mut buffer = [FILLER; store_bytes(4) + BEHIND];
    let mut room = Room::open_in(&mut buffer[..], 4)?;
    room.enter(ZERO, Strip(31), Entry::Level(600))?;
    assert!(buffer.ends_with(&[FILLER; BEHIND]));
    assert!(!buffer.ends_with(&[FILLER; BEHIND + 1]));
    Ok(())
}

#[test]
fn a_refused_call_changes_nothing() -> Result<(), Refusal> {
    let mut buffer = [FILLER; store_bytes(1)];
    assert!(Room::open_in(&mut buffer[..], 2).is_err());
    assert_eq!(buffer, [FILLER; store_bytes(1)]);
    let mut room = Room::open_in(&mut buffer[..], 1)?;
    let before = room.pause()?;
    assert!(room.enter(ZERO, Strip(0), Entry::Call).is_err());
    assert_eq!(room.pause()?, before);
    Ok(())
}

#[test]
fn the_room_stays_in_its_buffer() -> Result<(), Refusal> {
    let mut buffer = [FILLER; store_bytes(4)];
    let mut room = Room::open_in(&mut buffer[..], 4)?;
    room.enter(ZERO, Strip(5), Entry::Heading(360))?;
    let only_asked = Room::of(&buffer[..])?;
    assert_eq!(only_asked.view(ZERO)?.strip(Strip(5))?.heading, 360);
    let mut changed = Room::of(&mut buffer[..])?;
    changed.enter(ZERO, Strip(5), Entry::Heading(90))?;
    assert_eq!(Room::of(buffer)?.heard(ZERO), Ok(2));
    Ok(())
}

/// A tape of another room makes the same buffer that room's.
#[test]
fn a_buffer_is_used_again() -> Result<(), Refusal> {
    let mut other = Room::open(2)?;
    other.enter(ZERO, Strip(0), Entry::Level(7))?;
    let mut buffer = Room::open(4)?.into_buffer();
    let room = Room::resume_in(&mut buffer[..], &other.pause()?)?;
    assert_eq!(room.board(ZERO), other.board(ZERO));
    assert_eq!(room.pause(), other.pause());
    Ok(())
}

/// A hub room of 16 consoles with no version left has the longest tape that there is, and comes back in a buffer as long as the first.
#[test]
fn the_largest_room() -> Result<(), Refusal> {
    let mut room = Room::open(MAX_CAPACITY)?;
    room.hub()?;
    (1..16).try_for_each(|console| room.fork(Console(console), ZERO))?;
    for _ in 1..MAX_CAPACITY {
        room.enter(ZERO, Strip(0), Entry::Call)?;
    }
    assert_eq!(room.enter(ZERO, Strip(0), Entry::Call), Err(Refusal::Full));
    let tape = room.pause()?;
    assert_eq!(tape.len(), tape_bytes(MAX_CAPACITY));
    let again = Room::resume(&tape)?;
    assert_eq!(again.board(ZERO)?.strip(Strip(0))?.calls, 1023);
    assert_eq!(again.into_buffer(), room.into_buffer());
    Ok(())
}

/// A room of its own is no longer than its tape says.
#[test]
fn a_small_room_comes_back_small() -> Result<(), Refusal> {
    let tape = Room::open(3)?.pause()?;
    assert_eq!(Room::resume(&tape)?.into_buffer().len(), store_bytes(3));
    Ok(())
}

#[test]
fn a_view_is_a_part_of_the_store() -> Result<(), Refusal> {
    let mut room = Room::open(4)?;
    room.enter(ZERO, Strip(5), Entry::MarkPut(8))?;
    let copy = room.board(ZERO)?;
    let view = room.view(ZERO)?;
    assert_eq!(*view, copy);
    let place = view.bytes().as_ptr() as usize;
    let store = room.into_buffer();
    // The board of version 1: behind the header, the block of version 0 and the first 160 bytes of its own.
    assert_eq!(place - store.as_ptr() as usize, 4096 + 544 + 160);
    Ok(())
}

#[test]
fn a_view_is_refused_as_a_board_is() -> Result<(), Refusal> {
    let room = Room::open(4)?;
    for console in [Console(1), Console(15), Console(16), Console(255)] {
        assert_eq!(room.view(console).err(), room.board(console).err());
        assert!(room.view(console).is_err());
    }
    Ok(())
}

/// Of the student's strip only level, heading and marks 0 to 7 are left.
#[test]
fn a_students_pane() -> Result<(), Refusal> {
    let mut room = Room::open(16)?;
    let entries = [
        Entry::Level(100),
        Entry::Heading(90),
        Entry::MarkPut(7),
        Entry::MarkPut(8),
        Entry::Call,
        Entry::AlertOn,
    ];
    for entry in entries {
        room.enter(ZERO, Strip(5), entry)?;
    }
    let seen = room.student_pane(ZERO)?.strip(Strip(5))?;
    assert_eq!((seen.level, seen.heading, seen.marks), (100, 90, 0x0080));
    assert_eq!((seen.calls, seen.alerts, seen.flag), (0, 0, false));
    let shown = room.instructor_pane(ZERO)?.strip(Strip(5))?;
    assert_eq!(
        (shown.marks, shown.calls, shown.alerts, shown.flag),
        (0x0180, 1, 1, true)
    );
    room.enter(ZERO, Strip(5), Entry::AlertOff)?;
    room.enter(ZERO, Strip(5), Entry::MarkTaken(8))?;
    let shown = room.board(ZERO)?.strip(Strip(5))?;
    assert_eq!((shown.marks, shown.alerts, shown.flag), (0x0080, 1, false));
    Ok(())
}
