//! Why a call was refused.

use crate::ffi::{self, Reply};
use std::ffi::{CStr, c_char};
use std::{error, fmt};

/// Why a call was refused: the header's `enum room_refusal`, whose names these are without `ROOM_`. A refused call changes nothing.
///
/// ```
/// use room::{Refusal, Room};
///
/// let refusal = Room::open(0).unwrap_err();
/// assert_eq!(refusal, Refusal::BadCapacity);
/// assert_eq!(refusal.to_string(), "a capacity is 1 to 1,024");
/// ```
#[derive(Clone, Copy, Debug, PartialEq, Eq, Hash)]
#[repr(u8)]
#[non_exhaustive]
pub enum Refusal {
    /// Empty command, or code outside 01 to 0C.
    NoCommand = 1,
    /// Length not the code's.
    WrongLength,
    /// Console above 15.
    ConsoleTooHigh,
    /// Strip above 31.
    StripTooHigh,
    /// Level above 600, heading above 360, or mark above 15.
    OperandTooHigh,
    /// The same console twice in a fork, a merge or a fast-forward.
    SameConsole,
    /// The tape is no sequence of whole records with at least one head.
    BrokenTape,
    /// Capacity outside 1 to 1,024.
    BadCapacity,
    /// A number on the tape is out of range.
    TapeOutOfRange,
    /// The tape's versions and heads give no sound store.
    TapeNotSound,
    /// The bytes hold no sound store.
    NoStore,
    /// A named console is absent; of a fork, the old one.
    ConsoleAbsent,
    /// Fork's new console is present.
    ConsolePresent,
    /// The giver's head is an ancestor of the receiver's.
    GiverBehind,
    /// Merge: the receiver's head is an ancestor of the giver's.
    ReceiverBehind,
    /// Fast-forward: the receiver's head is no ancestor of the giver's.
    NotBehind,
    /// Merge: a third console's common versions with the two are apart; never in a hub room.
    ThirdConsole,
    /// No version left.
    Full,
    /// The buffer for a store or a tape is too short.
    BufferTooShort,
    /// Leave: console 0 stays for good.
    Console0Leaves,
    /// Leave: the console's head is an ancestor of no other console's head.
    BehindNoOther,
    /// In a hub room: fork off another console than 0, merge or fast-forward of two others.
    NotThroughHub,
    /// Hub: the common version of two consoles is no ancestor of console 0's head.
    HubLacksCommon,
}

impl Refusal {
    /// Every refusal, by its number.
    pub const ALL: [Refusal; 23] = [
        Refusal::NoCommand,
        Refusal::WrongLength,
        Refusal::ConsoleTooHigh,
        Refusal::StripTooHigh,
        Refusal::OperandTooHigh,
        Refusal::SameConsole,
        Refusal::BrokenTape,
        Refusal::BadCapacity,
        Refusal::TapeOutOfRange,
        Refusal::TapeNotSound,
        Refusal::NoStore,
        Refusal::ConsoleAbsent,
        Refusal::ConsolePresent,
        Refusal::GiverBehind,
        Refusal::ReceiverBehind,
        Refusal::NotBehind,
        Refusal::ThirdConsole,
        Refusal::Full,
        Refusal::BufferTooShort,
        Refusal::Console0Leaves,
        Refusal::BehindNoOther,
        Refusal::NotThroughHub,
        Refusal::HubLacksCommon,
    ];

    /// Its number in the paper, the header and the panel.
    ///
    /// ```
    /// assert_eq!(room::Refusal::Full.number(), 18);
    /// ```
    pub const fn number(self) -> u32 {
        self as u32
    }

    /// Its name in the header.
    ///
    /// ```
    /// assert_eq!(room::Refusal::Full.name(), "ROOM_FULL");
    /// ```
    pub fn name(self) -> &'static str {
        text(ffi::room_refusal_name(self.number()))
    }

    /// # Panics
    /// Where the archive is of another version than this crate and has more refusals.
    fn of(answer: u32) -> Refusal {
        let found = Refusal::ALL.into_iter().find(|one| one.number() == answer);
        found.unwrap_or_else(|| panic!("libroom.a is of another version: it answers {answer}"))
    }
}

/// The words are those of the archive's one table.
impl fmt::Display for Refusal {
    fn fmt(&self, out: &mut fmt::Formatter) -> fmt::Result {
        out.write_str(text(ffi::room_refusal_text(self.number())))
    }
}

impl error::Error for Refusal {}

/// A string of the archive's table, which stays as long as the program runs.
fn text(string: *const c_char) -> &'static str {
    let bytes = unsafe { CStr::from_ptr(string) };
    bytes.to_str().unwrap_or_default()
}

/// What an accepted call counts.
pub(crate) fn accepted(reply: Reply) -> Result<u32, Refusal> {
    match reply.answer {
        0 => Ok(reply.count),
        answer => Err(Refusal::of(answer)),
    }
}
