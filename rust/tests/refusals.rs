// Each refusal by a call that gets it; the rooms and tapes are the paper's cases, worked out by hand.

use room::{Console, Entry, Pair, Refusal, Room, Strip, sizes::store_bytes};

const ZERO: Console = Console(0);
const ONE: Console = Console(1);
const TWO: Console = Console(2);

fn opened() -> Room<Vec<u8>> {
    Room::open(64).expect("64 is a capacity")
}

/// A room of consoles 0 and 1, each with a call of its own.
fn apart() -> Result<Room<Vec<u8>>, Refusal> {
    let mut room = opened();
    room.fork(ONE, ZERO)?;
    room.enter(ZERO, Strip(0), Entry::Call)?;
    room.enter(ONE, Strip(0), Entry::Call)?;
    Ok(room)
}

/// A tape of capacity 4 with these records.
fn resumed(records: &[&[u8]]) -> Result<(), Refusal> {
    let tape = [&[0x20, 0, 4], &records.concat()[..], &[0x24]].concat();
    Room::resume(&tape).map(drop)
}

#[test]
fn of_a_commands_form() {
    let mut room = opened();
    for bytes in [&[][..], &[0x00], &[0x0D]] {
        assert_eq!(room.command_bytes(bytes), Err(Refusal::NoCommand));
    }
    assert_eq!(room.command_bytes(&[0x0C, 0]), Err(Refusal::WrongLength));
    assert_eq!(room.fork(Console(16), ZERO), Err(Refusal::ConsoleTooHigh));
    assert_eq!(room.fork(ONE, ONE), Err(Refusal::SameConsole));
    let too_high = room.enter(ZERO, Strip(32), Entry::Call);
    assert_eq!(too_high, Err(Refusal::StripTooHigh));
}

#[test]
fn of_an_entrys_number() {
    let mut room = opened();
    let highest_and_above = [
        (Entry::Level(600), Entry::Level(601)),
        (Entry::Heading(360), Entry::Heading(361)),
        (Entry::MarkPut(15), Entry::MarkPut(16)),
        (Entry::MarkTaken(15), Entry::MarkTaken(16)),
    ];
    for (highest, above) in highest_and_above {
        assert_eq!(room.enter(ZERO, Strip(31), highest), Ok(()));
        let refused = room.enter(ZERO, Strip(31), above);
        assert_eq!(refused, Err(Refusal::OperandTooHigh));
    }
}

#[test]
fn of_a_tape() {
    let (call, head_0, head_1) = (
        [0x21, 0, 0, 0x06, 0, 0, 0],
        [0x23, 0, 0, 0],
        [0x23, 0, 0, 1],
    );
    assert_eq!(resumed(&[&call, &head_1]), Ok(()));
    assert_eq!(resumed(&[&call]), Err(Refusal::BrokenTape));
    assert_eq!(
        resumed(&[&call, &[0x23, 0, 0, 2]]),
        Err(Refusal::TapeOutOfRange)
    );
    assert_eq!(resumed(&[&call, &head_0]), Err(Refusal::TapeNotSound));
    for cut in [&[][..], &[0x20], &[0x20, 0xFF, 0xFF]] {
        assert_eq!(Room::resume(cut).unwrap_err(), Refusal::BrokenTape);
    }
}

#[test]
fn of_a_capacity() {
    for capacity in [0, 1025, u32::MAX] {
        assert_eq!(Room::open(capacity).unwrap_err(), Refusal::BadCapacity);
    }
}

#[test]
fn of_a_tapes_capacity() {
    for [high, low] in [[0, 0], [0x04, 0x01], [0xFF, 0xFF]] {
        let tape = [0x20, high, low, 0x23, 0, 0, 0, 0x24];
        assert_eq!(Room::resume(&tape).unwrap_err(), Refusal::BadCapacity);
    }
}

#[test]
fn of_bytes_that_hold_no_store() {
    for bytes in [vec![], vec![0; store_bytes(1)], vec![0xFF; store_bytes(1)]] {
        assert_eq!(Room::of(bytes).unwrap_err(), Refusal::NoStore);
    }
}

#[test]
fn of_who_is_there() -> Result<(), Refusal> {
    let mut room = opened();
    assert_eq!(room.board(ONE), Err(Refusal::ConsoleAbsent));
    assert_eq!(room.fork(TWO, ONE), Err(Refusal::ConsoleAbsent));
    room.fork(ONE, ZERO)?;
    assert_eq!(room.fork(ONE, ZERO), Err(Refusal::ConsolePresent));
    Ok(())
}

#[test]
fn of_who_has_heard_whom() -> Result<(), Refusal> {
    let mut room = apart()?;
    let first = Pair::CanMerge {
        receiver: ZERO,
        giver: ONE,
    };
    assert_eq!(room.mergeable()?, first);
    assert_eq!(room.fast_forward(ZERO, ONE), Err(Refusal::NotBehind));
    assert_eq!(room.merge(ZERO, ONE), Ok(0));
    assert_eq!(room.merge(ZERO, ONE), Err(Refusal::GiverBehind));
    assert_eq!(room.merge(ONE, ZERO), Err(Refusal::ReceiverBehind));
    Ok(())
}

/// The paper's stuck room: no two can merge, and it is too late for a hub.
#[test]
fn of_a_third_console() -> Result<(), Refusal> {
    let mut room = stuck()?;
    assert_eq!(room.mergeable()?, Pair::Stuck);
    assert_eq!(room.merge(ZERO, TWO), Err(Refusal::ThirdConsole));
    assert_eq!(room.hub(), Err(Refusal::HubLacksCommon));
    Ok(())
}

fn stuck() -> Result<Room<Vec<u8>>, Refusal> {
    let mut room = opened();
    let three = Console(3);
    for new in [ONE, TWO, three] {
        room.fork(new, ZERO)?;
    }
    room.enter(TWO, Strip(0), Entry::Call)?;
    room.fast_forward(three, TWO)?;
    room.enter(ZERO, Strip(0), Entry::Call)?;
    room.merge(TWO, ZERO)?;
    room.enter(ONE, Strip(0), Entry::Call)?;
    room.merge(three, ONE)?;
    room.merge(ZERO, ONE)?;
    room.fast_forward(ONE, ZERO)?;
    Ok(room)
}

#[test]
fn of_a_full_room() -> Result<(), Refusal> {
    let mut room = Room::open(1)?;
    assert_eq!(room.enter(ZERO, Strip(0), Entry::Call), Err(Refusal::Full));
    Ok(())
}

#[test]
fn of_a_short_buffer() -> Result<(), Refusal> {
    let mut buffer = [0; store_bytes(2) - 1];
    let refusal = Room::open_in(&mut buffer[..], 2).unwrap_err();
    assert_eq!(refusal, Refusal::BufferTooShort);
    let room = opened();
    let refusal = Room::resume_in(&mut buffer[..], &room.pause()?).unwrap_err();
    assert_eq!(refusal, Refusal::BufferTooShort);
    assert_eq!(room.pause_into(&mut [0; 7]), Err(Refusal::BufferTooShort));
    assert_eq!(room.pause_into(&mut [0; 8]), Ok(8));
    Ok(())
}

#[test]
fn of_leaving() -> Result<(), Refusal> {
    let mut room = apart()?;
    assert_eq!(room.leave(ZERO), Err(Refusal::Console0Leaves));
    assert_eq!(room.leave(ONE), Err(Refusal::BehindNoOther));
    room.merge(ZERO, ONE)?;
    assert_eq!(room.leave(ONE), Ok(()));
    Ok(())
}

#[test]
fn of_a_hub_room() -> Result<(), Refusal> {
    let mut room = apart()?;
    room.hub()?;
    assert_eq!(room.fork(TWO, ONE), Err(Refusal::NotThroughHub));
    room.fork(TWO, ZERO)?;
    assert_eq!(room.merge(TWO, ONE), Err(Refusal::NotThroughHub));
    assert_eq!(room.merge(ZERO, ONE), Ok(0));
    Ok(())
}
