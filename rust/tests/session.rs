// The paper's printed session by the crate's methods: every answer and head that the paper prints, its boards' cells and its tape.

use room::{Cells, Console, Entry, Pair, Refusal, Room, Strip, Version};

const PRINTED_TAPE: [u8; 31] = [
    0x20, 0x00, 0x40, //
    0x21, 0x00, 0x00, 0x02, 0x05, 0x00, 0x64, //
    0x21, 0x00, 0x00, 0x06, 0x05, 0x00, 0x00, //
    0x22, 0x00, 0x01, 0x00, 0x02, //
    0x23, 0x00, 0x00, 0x03, //
    0x23, 0x01, 0x00, 0x03, //
    0x24,
];

#[test]
fn the_printed_session() -> Result<(), Refusal> {
    let (zero, one, strip) = (Console(0), Console(1), Strip(5));
    let mut room = Room::open(64)?;
    room.fork(one, zero)?;
    assert_eq!(room.head(one)?, Version(0));
    room.enter(zero, strip, Entry::Level(100))?;
    assert_eq!(room.head(zero)?, Version(1));
    room.enter(one, strip, Entry::Call)?;
    assert_eq!(room.head(one)?, Version(2));
    assert_eq!(room.merge(zero, one)?, 0);
    assert_eq!(room.head(zero)?, Version(3));
    room.fast_forward(one, zero)?;
    assert_eq!(room.head(one)?, Version(3));
    assert_eq!(room.merge(zero, one), Err(Refusal::GiverBehind));
    assert_eq!(room.head(zero)?, Version(3));
    check_its_end(&room)
}

fn check_its_end(room: &Room<Vec<u8>>) -> Result<(), Refusal> {
    let shown = Cells {
        level: 100,
        calls: 1,
        ..Cells::default()
    };
    for console in [Console(0), Console(1)] {
        assert_eq!(room.board(console)?.strip(Strip(5))?, shown);
        assert_eq!(room.heard(console)?, 2);
    }
    assert_eq!(room.mergeable()?, Pair::AllAgree);
    assert_eq!(room.pause()?, PRINTED_TAPE);
    Ok(())
}
