// What the cases have in common: a store in a lent buffer, the answers that they expect, and tapes.

use super::tested;
use room_host::calls::Reply;
use room_host::implementations::CopyOut;
use room_host::layout::{encode, store_bytes};
use room_host::model::Room;

pub const FILLER: u8 = 0xA5;
const BEHIND: usize = 9;

/// A store in a buffer that is longer than it needs to be, with filler behind.
#[derive(Clone)]
pub struct Store {
    pub bytes: Vec<u8>,
}

impl Store {
    pub fn open(capacity: usize) -> Store {
        let mut bytes = vec![FILLER; store_bytes(capacity) + BEHIND];
        assert_eq!(tested::open(capacity as u32, &mut bytes), accepted(0));
        Store { bytes }
    }

    /// The store of a room as the model encodes it.
    pub fn of_room(room: &Room) -> Store {
        let mut bytes = encode(room);
        bytes.extend([FILLER; BEHIND]);
        Store { bytes }
    }

    /// The reply to a command. A refusal must leave every byte, nothing behind the store may change, and nothing but an accepted merge
    /// counts, up to all levels and headings.
    pub fn reply(&mut self, command: &[u8]) -> Reply {
        let before = self.bytes.clone();
        let reply = tested::command(&mut self.bytes, command);
        if reply.answer != 0 {
            assert!(before == self.bytes, "a refused command wrote something");
        }
        assert!(self.bytes.ends_with(&[FILLER; BEHIND]));
        let is_merge = reply.answer == 0 && command[0] == 0x09;
        let highest = if is_merge { 64 } else { 0 };
        assert!(reply.count <= highest, "{command:02X?}: {reply:?}");
        reply
    }

    pub fn say(&mut self, command: &[u8]) -> u32 {
        self.reply(command).answer
    }

    /// All the commands, each of which must be accepted.
    pub fn say_all(&mut self, commands: &[&[u8]]) {
        for command in commands {
            assert_eq!(self.say(command), 0, "{command:02X?}");
        }
    }

    /// The answer to a tape that is resumed over the store; a refusal must leave every byte.
    pub fn resume(&mut self, tape: &[u8]) -> u32 {
        let before = self.bytes.clone();
        let reply = tested::resume(tape, &mut self.bytes);
        assert_eq!(reply.count, 0);
        if reply.answer != 0 {
            assert!(before == self.bytes, "a refused resume wrote something");
        }
        reply.answer
    }

    pub fn heard(&self, console: u32) -> Reply {
        tested::heard(&self.bytes, console)
    }

    pub fn common(&self, first: u32, second: u32) -> Reply {
        tested::common(&self.bytes, first, second)
    }

    pub fn origin(&self, console: u32, strip: u32, cell: u32) -> Reply {
        tested::origin(&self.bytes, console, strip, cell)
    }

    pub fn mergeable(&self) -> Reply {
        tested::mergeable(&self.bytes)
    }

    /// The heads of the present consoles, consoles rising: a console's common version with itself.
    pub fn heads(&self) -> Vec<u32> {
        let replies = (0..16).map(|console| self.common(console, console));
        replies
            .filter(|&reply| reply != refused(12))
            .map(|reply| {
                assert_eq!(reply.answer, 0);
                reply.count
            })
            .collect()
    }

    /// The field of docs/LAYOUT.md.
    pub fn version_count(&self) -> u16 {
        u16::from_be_bytes([self.bytes[4], self.bytes[5]])
    }

    pub fn board(&self, console: u32) -> Vec<u8> {
        self.copied_out(tested::board, console)
    }

    pub fn student_pane(&self, console: u32) -> Vec<u8> {
        self.copied_out(tested::student_pane, console)
    }

    pub fn instructor_pane(&self, console: u32) -> Vec<u8> {
        self.copied_out(tested::instructor_pane, console)
    }

    fn copied_out(&self, call: CopyOut, console: u32) -> Vec<u8> {
        let mut output = vec![FILLER; 384];
        let reply = call(&self.bytes, console, &mut output);
        assert_eq!(reply, accepted(384));
        output
    }

    pub fn strip(&self, console: u32, strip: usize) -> StripBytes {
        strip_of(&self.board(console), strip)
    }

    pub fn tape(&self) -> Vec<u8> {
        let mut tape = vec![FILLER; 8000];
        let reply = tested::pause(&self.bytes, &mut tape);
        assert_eq!(reply.answer, 0);
        let behind = tape.split_off(reply.count as usize);
        assert!(behind.iter().all(|&byte| byte == FILLER));
        tape
    }
}

#[derive(Debug, Default, PartialEq, Eq)]
pub struct StripBytes {
    pub level: u16,
    pub heading: u16,
    pub marks: u16,
    pub calls: u16,
    pub alert: (u16, u8),
}

pub fn strip_of(board: &[u8], strip: usize) -> StripBytes {
    let bytes = &board[12 * strip..12 * (strip + 1)];
    let field = |at: usize| u16::from_be_bytes([bytes[at], bytes[at + 1]]);
    assert_eq!(bytes[11], 0);
    StripBytes {
        level: field(0),
        heading: field(2),
        marks: field(4),
        calls: field(6),
        alert: (field(8), bytes[10]),
    }
}

// ---------------------------------------------------------------- answers

pub fn accepted(count: u32) -> Reply {
    Reply { answer: 0, count }
}

pub fn refused(refusal: u32) -> Reply {
    Reply {
        answer: refusal,
        count: 0,
    }
}

// ---------------------------------------------------------------- tapes

/// The printed session's commands and its tape.
pub const PRINTED_INPUT: [&[u8]; 6] = [
    &[0x01, 0x01, 0x00],
    &[0x02, 0x00, 0x05, 0x00, 0x64],
    &[0x06, 0x01, 0x05],
    &[0x09, 0x00, 0x01],
    &[0x0A, 0x01, 0x00],
    &[0x09, 0x00, 0x01],
];

pub const PRINTED_TAPE: [u8; 31] = [
    0x20, 0x00, 0x40, //
    0x21, 0x00, 0x00, 0x02, 0x05, 0x00, 0x64, //
    0x21, 0x00, 0x00, 0x06, 0x05, 0x00, 0x00, //
    0x22, 0x00, 0x01, 0x00, 0x02, //
    0x23, 0x00, 0x00, 0x03, //
    0x23, 0x01, 0x00, 0x03, //
    0x24,
];

pub const CALL_ON_0: [u8; 7] = [0x21, 0, 0, 0x06, 0, 0, 0];
pub const HEAD_0_ON_0: [u8; 4] = [0x23, 0, 0, 0];

/// Capacity 1,024, the given records, and the end.
pub fn tape_with(records: &[&[u8]]) -> Vec<u8> {
    [&[0x20, 0x04, 0x00], records.concat().as_slice(), &[0x24]].concat()
}

/// The store of a tape, resumed into a buffer of filler, or the refusal.
pub fn resumed(tape: &[u8]) -> Result<Store, u32> {
    let mut store = Store {
        bytes: vec![FILLER; store_bytes(1024) + BEHIND],
    };
    match store.resume(tape) {
        0 => Ok(store),
        refusal => Err(refusal),
    }
}

/// The answer to a tape.
pub fn resume(tape: &[u8]) -> u32 {
    resumed(tape).err().unwrap_or(0)
}
