//! Commands, and their bytes.

use crate::{Console, Strip, codes};

/// A command, for [`Room::command`](crate::Room::command); the room has a method for each too.
#[derive(Clone, Copy, Debug, PartialEq, Eq, Hash)]
pub enum Command {
    /// The new console starts on the old one's head.
    Fork {
        /// An absent console.
        new: Console,
        /// A present one; in a hub room console 0.
        old: Console,
    },
    /// Something is entered at a console, which makes a version.
    Entry {
        /// Where it is entered.
        console: Console,
        /// The strip that it is about.
        strip: Strip,
        /// What is entered.
        entry: Entry,
    },
    /// The receiver takes over what the giver has, beside what it has itself, which makes a version.
    Merge {
        /// The console that changes.
        receiver: Console,
        /// The console that is heard.
        giver: Console,
    },
    /// The receiver, which has nothing of its own, takes over the giver's head.
    FastForward {
        /// The console that changes.
        receiver: Console,
        /// The console that is heard.
        giver: Console,
    },
    /// A console goes; another must have all that it has.
    Leave {
        /// Any but 0.
        console: Console,
    },
    /// The room becomes a hub room for good: forks, merges and fast-forwards go through console 0, and no room gets stuck.
    Hub,
}

/// What can be entered on a strip.
#[derive(Clone, Copy, Debug, PartialEq, Eq, Hash)]
pub enum Entry {
    /// A level, up to 600; 0 for none.
    Level(u16),
    /// A heading, up to 360; 0 for none.
    Heading(u16),
    /// A mark put, up to 15. Marks 8 to 15 are the instructor's.
    MarkPut(u8),
    /// A mark taken away.
    MarkTaken(u8),
    /// A call counted.
    Call,
    /// An alert on, and counted.
    AlertOn,
    /// The alert off; it stays counted.
    AlertOff,
}

impl Command {
    /// The command as the unit takes it.
    ///
    /// ```
    /// # use room::{Command, Console, Entry, Strip};
    /// let level = Command::Entry { console: Console(0), strip: Strip(5), entry: Entry::Level(600) };
    /// assert_eq!(level.bytes(), [0x02, 0, 5, 0x02, 0x58]);
    /// ```
    pub fn bytes(self) -> Vec<u8> {
        match self {
            Command::Fork { new, old } => vec![codes::FORK, new.0, old.0],
            Command::Entry {
                console,
                strip,
                entry,
            } => entry.bytes(console, strip),
            Command::Merge { receiver, giver } => vec![codes::MERGE, receiver.0, giver.0],
            Command::FastForward { receiver, giver } => {
                vec![codes::FAST_FORWARD, receiver.0, giver.0]
            }
            Command::Leave { console } => vec![codes::LEAVE, console.0],
            Command::Hub => vec![codes::HUB],
        }
    }
}

impl Entry {
    fn bytes(self, Console(console): Console, Strip(strip): Strip) -> Vec<u8> {
        let with_number = |code: u8, number: u16| {
            let [high, low] = number.to_be_bytes();
            vec![code, console, strip, high, low]
        };
        match self {
            Entry::Level(level) => with_number(codes::LEVEL, level),
            Entry::Heading(heading) => with_number(codes::HEADING, heading),
            Entry::MarkPut(mark) => vec![codes::MARK_PUT, console, strip, mark],
            Entry::MarkTaken(mark) => vec![codes::MARK_TAKEN, console, strip, mark],
            Entry::Call => vec![codes::CALL, console, strip],
            Entry::AlertOn => vec![codes::ALERT_ON, console, strip],
            Entry::AlertOff => vec![codes::ALERT_OFF, console, strip],
        }
    }
}
