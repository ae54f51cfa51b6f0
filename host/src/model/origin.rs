// The entry behind a level or a heading.

use super::ancestors::Ancestry;
use super::board::{sound_boards, Board, Strip, Worked};
use super::code;
use super::room::{Entry, Room, Version};

/// A cell of a strip whose origin can be asked for.
#[derive(Clone, Copy, Debug, PartialEq, Eq)]
pub enum Cell {
    Level,
    Heading,
}

impl Cell {
    /// The cell that a question means by its number: 0 level, 1 heading.
    pub fn of_number(number: u32) -> Option<Cell> {
        match number {
            0 => Some(Cell::Level),
            1 => Some(Cell::Heading),
            _ => None,
        }
    }

    pub fn value(self, strip: &Strip) -> u16 {
        match self {
            Cell::Level => strip.level,
            Cell::Heading => strip.heading,
        }
    }

    /// Whether an entry writes this cell of the strip, also where nothing visible changes.
    pub fn is_written_by(self, entry: &Entry, strip: usize) -> bool {
        let writing_code = match self {
            Cell::Level => code::LEVEL,
            Cell::Heading => code::HEADING,
        };
        entry.code == writing_code && usize::from(entry.strip) == strip
    }
}

/// The entry behind a cell of a present console's board in a sound room; version 0 where no such entry is met.
pub fn cell_origin(room: &Room, console: usize, strip: usize, cell: Cell) -> Option<usize> {
    let ancestry = Ancestry::new(room);
    let search = OriginSearch {
        room,
        boards: sound_boards(room, &ancestry),
        ancestry,
        strip,
        cell,
    };
    Some(search.origin_from(room.head(console)?))
}

/// What is looked at on the walk from a head to the origin of one cell.
struct OriginSearch<'a> {
    room: &'a Room,
    boards: Vec<Worked<Board>>,
    ancestry: Ancestry<'a>,
    strip: usize,
    cell: Cell,
}

impl OriginSearch<'_> {
    /// An entry that writes the cell is the origin; any other version leads to a parent.
    fn origin_from(&self, version: usize) -> usize {
        match self.room.versions[version] {
            Version::Start => version,
            Version::Entry(entry) if self.cell.is_written_by(&entry, self.strip) => version,
            Version::Entry(entry) => self.origin_from(entry.parent),
            Version::Merge { receiver, giver } => {
                self.origin_from(self.followed_side(receiver, giver))
            }
        }
    }

    /// The giver's version if the receiver's value equals the base's and the giver's differs, else the receiver's.
    fn followed_side(&self, receiver: usize, giver: usize) -> usize {
        let value = |version: usize| self.cell.value(&self.boards[version].value[self.strip]);
        let base = self.ancestry.base(receiver, giver);
        if value(receiver) == value(base) && value(giver) != value(base) {
            giver
        } else {
            receiver
        }
    }
}
