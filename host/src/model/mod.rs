// The model: one training room as plain data, and the rules of the paper and the requests on it, each as close to their words as Rust
// allows.

mod ancestors;
mod board;
mod command;
mod origin;
mod panes;
mod room;
mod sound;
mod step;
mod tape;
mod verdict;

pub use ancestors::{common_version, heard_count, search_ancestors, Ancestry};
pub use board::{
    board_after_entry, boards, console_board, empty_board, sound_boards, Board, Strip, Worked,
};
pub use command::{command_length, decode, Command};
pub use origin::{cell_origin, Cell};
pub use panes::{shown_to_instructor, shown_to_student};
pub use room::{parents, Entry, Room, Version};
pub use sound::{capacity_is_in_range, sound, sound_by};
pub use step::{reported, step};
pub use tape::{room_of_tape, tape_of};
pub use verdict::{verdict, Verdict};

pub const CONSOLES: usize = 16;
/// The console through which a room with a hub meets.
pub const HUB: usize = 0;
pub const STRIPS: usize = 32;
pub const MARKS: usize = 16;
pub const HIGHEST_CAPACITY: usize = 1024;
pub const HIGHEST_LEVEL: u16 = 600;
pub const HIGHEST_HEADING: u16 = 360;

/// The code bytes of commands; 02 to 08 are the entry codes.
pub mod code {
    pub const FORK: u8 = 0x01;
    pub const LEVEL: u8 = 0x02;
    pub const HEADING: u8 = 0x03;
    pub const MARK_PUT: u8 = 0x04;
    pub const MARK_TAKEN: u8 = 0x05;
    pub const CALL_COUNTED: u8 = 0x06;
    pub const ALERT_ON: u8 = 0x07;
    pub const ALERT_OFF: u8 = 0x08;
    pub const MERGE: u8 = 0x09;
    pub const FAST_FORWARD: u8 = 0x0A;
    pub const LEAVE: u8 = 0x0B;
    pub const MAKE_HUB: u8 = 0x0C;
}

/// The code bytes of tape records.
pub mod record {
    pub const CAPACITY: u8 = 0x20;
    pub const ENTRY: u8 = 0x21;
    pub const MERGE: u8 = 0x22;
    pub const HEAD: u8 = 0x23;
    pub const END: u8 = 0x24;
    pub const HUB: u8 = 0x25;
}

/// The choices of a view: the store of the running room, or the one that was resumed beside it.
pub mod choice {
    pub const LIVE: u32 = 0;
    pub const FROZEN: u32 = 1;
}

/// The numbers of the refusals.
pub mod refusal {
    pub const NO_SUCH_COMMAND: u32 = 1;
    pub const WRONG_LENGTH: u32 = 2;
    pub const CONSOLE_TOO_HIGH: u32 = 3;
    pub const STRIP_TOO_HIGH: u32 = 4;
    pub const OPERAND_TOO_HIGH: u32 = 5;
    pub const SAME_CONSOLE_TWICE: u32 = 6;
    pub const NOT_A_TAPE: u32 = 7;
    pub const CAPACITY_OUT_OF_RANGE: u32 = 8;
    pub const TAPE_OUT_OF_RANGE: u32 = 9;
    pub const TAPE_NOT_SOUND: u32 = 10;
    pub const NO_SOUND_STORE: u32 = 11;
    pub const CONSOLE_ABSENT: u32 = 12;
    pub const NEW_CONSOLE_PRESENT: u32 = 13;
    pub const GIVER_BEHIND: u32 = 14;
    pub const RECEIVER_BEHIND: u32 = 15;
    pub const RECEIVER_NOT_BEHIND: u32 = 16;
    pub const COMMONS_APART: u32 = 17;
    pub const NO_VERSION_LEFT: u32 = 18;
    pub const BUFFER_TOO_SHORT: u32 = 19;
    pub const CONSOLE_0_LEAVES: u32 = 20;
    pub const NO_OTHER_HEAD_DESCENDS: u32 = 21;
    pub const NOT_THROUGH_HUB: u32 = 22;
    pub const CANNOT_MAKE_HUB: u32 = 23;
}

/// The refusal where the condition holds; a `?` behind it ends the caller.
pub fn refuse_if(condition: bool, refusal: u32) -> Result<(), u32> {
    if condition {
        Err(refusal)
    } else {
        Ok(())
    }
}
