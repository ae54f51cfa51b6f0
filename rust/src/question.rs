//! What questions are asked with, and answered by, beside numbers.

use crate::Console;

/// The cell of a strip that [`Room::origin`](crate::Room::origin) is asked about.
#[derive(Clone, Copy, Debug, PartialEq, Eq, Hash)]
pub enum Cell {
    /// The level.
    Level,
    /// The heading.
    Heading,
}

impl Cell {
    pub(crate) fn number(self) -> u32 {
        match self {
            Cell::Level => 0,
            Cell::Heading => 1,
        }
    }
}

/// Which two consoles can merge or fast-forward, says [`Room::mergeable`](crate::Room::mergeable).
#[derive(Clone, Copy, Debug, PartialEq, Eq, Hash)]
pub enum Pair {
    /// None need to: every head is one version.
    AllAgree,
    /// None can, though heads differ. It never comes to this in a hub room.
    Stuck,
    /// These can merge.
    CanMerge {
        /// The console that would change.
        receiver: Console,
        /// The console that would be heard.
        giver: Console,
    },
    /// The receiver can fast-forward to the giver.
    CanFastForward {
        /// The console that would change.
        receiver: Console,
        /// The console that would be heard.
        giver: Console,
    },
}

impl Pair {
    /// Of the unit's count: 256 times the kind, 16 times the receiver, and the giver.
    pub(crate) fn of_count(count: u32) -> Pair {
        let receiver = Console((count / 16 % 16) as u8);
        let giver = Console((count % 16) as u8);
        match count / 256 {
            0 => Pair::AllAgree,
            1 => Pair::Stuck,
            2 => Pair::CanMerge { receiver, giver },
            _ => Pair::CanFastForward { receiver, giver },
        }
    }
}
