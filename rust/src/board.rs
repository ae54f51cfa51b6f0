//! A console's board, or a pane of it, strip by strip.

use crate::sizes::{BOARD_BYTES, MAX_MARK, STRIP_BYTES, STRIPS};
use crate::{Refusal, Strip};
use std::fmt;

/// A console's 32 strips: a copy, or by reference a part of a store that is read where it stands ([`Room::view`](crate::Room::view)).
#[derive(Clone, Copy, PartialEq, Eq)]
#[repr(transparent)]
pub struct Board([u8; BOARD_BYTES]);

/// What a strip shows. A level or heading of 0 stands for none given.
#[derive(Clone, Copy, Debug, Default, PartialEq, Eq)]
pub struct Cells {
    /// In hundreds of feet.
    pub level: u16,
    /// In degrees.
    pub heading: u16,
    /// Mark m is the bit worth 2 to the m; see [`Cells::has_mark`].
    pub marks: u16,
    /// How many calls were counted.
    pub calls: u16,
    /// How many alerts were put on, whether or not they are off again.
    pub alerts: u16,
    /// Whether the alert is on.
    pub flag: bool,
}

impl Board {
    pub(crate) const fn blank() -> Board {
        Board([0; BOARD_BYTES])
    }

    /// The board that starts at this place of a store.
    pub(crate) fn at(store: &[u8], place: usize) -> &Board {
        let bytes = store[place..].first_chunk();
        let bytes: &[u8; BOARD_BYTES] = bytes.expect("a board lies within its store");
        // SAFETY: a Board is nothing but these bytes, as repr(transparent) says.
        unsafe { &*std::ptr::from_ref(bytes).cast() }
    }

    pub(crate) fn bytes_mut(&mut self) -> &mut [u8; BOARD_BYTES] {
        &mut self.0
    }

    /// The bytes as the unit gives them, which the header's `ROOM_LEVEL_AT` and its like take apart.
    ///
    /// ```
    /// # use room::{Console, Room};
    /// let room = Room::open(1)?;
    /// assert_eq!(room.board(Console(0))?.bytes(), &[0; 384]);
    /// # Ok::<(), room::Refusal>(())
    /// ```
    pub const fn bytes(&self) -> &[u8; BOARD_BYTES] {
        &self.0
    }

    /// What a strip shows. Refusal 4.
    ///
    /// ```
    /// # use room::{Console, Entry, Refusal, Room, Strip};
    /// let mut room = Room::open(64)?;
    /// room.enter(Console(0), Strip(5), Entry::Heading(270))?;
    /// let board = room.board(Console(0))?;
    /// assert_eq!(board.strip(Strip(5))?.heading, 270);
    /// assert_eq!(board.strip(Strip(32)), Err(Refusal::StripTooHigh));
    /// # Ok::<(), room::Refusal>(())
    /// ```
    pub fn strip(&self, strip: Strip) -> Result<Cells, Refusal> {
        let bytes = self.0.chunks(STRIP_BYTES).nth(usize::from(strip.0));
        bytes.map(Cells::of_bytes).ok_or(Refusal::StripTooHigh)
    }

    /// Every strip with what it shows.
    ///
    /// ```
    /// # use room::{Cells, Console, Room};
    /// let room = Room::open(1)?;
    /// let board = room.board(Console(0))?;
    /// assert_eq!(board.strips().count(), 32);
    /// assert!(board.strips().all(|(_, cells)| cells == Cells::default()));
    /// # Ok::<(), room::Refusal>(())
    /// ```
    pub fn strips(&self) -> impl Iterator<Item = (Strip, Cells)> + '_ {
        let numbers = (0..STRIPS as u8).map(Strip);
        numbers.zip(self.0.chunks(STRIP_BYTES).map(Cells::of_bytes))
    }
}

/// The strips that show anything.
impl fmt::Debug for Board {
    fn fmt(&self, out: &mut fmt::Formatter) -> fmt::Result {
        let shown = |(_, cells): &(Strip, Cells)| *cells != Cells::default();
        out.debug_map()
            .entries(self.strips().filter(shown))
            .finish()
    }
}

impl Cells {
    fn of_bytes(bytes: &[u8]) -> Cells {
        let number = |place: usize| u16::from_be_bytes([bytes[place], bytes[place + 1]]);
        Cells {
            level: number(0),
            heading: number(2),
            marks: number(4),
            calls: number(6),
            alerts: number(8),
            flag: bytes[10] == 1,
        }
    }

    /// Whether a mark is put.
    ///
    /// ```
    /// # use room::Cells;
    /// let cells = Cells { marks: 0x8001, ..Cells::default() };
    /// assert!(cells.has_mark(0) && cells.has_mark(15) && !cells.has_mark(1) && !cells.has_mark(16));
    /// ```
    pub const fn has_mark(self, mark: u8) -> bool {
        mark <= MAX_MARK && self.marks >> mark & 1 == 1
    }
}
