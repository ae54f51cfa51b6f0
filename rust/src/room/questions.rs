//! Asking a room.

use super::Room;
use crate::refusal::accepted;
use crate::{Board, Cell, Console, Pair, Refusal, Strip, Version, ffi};

impl<B: AsRef<[u8]>> Room<B> {
    /// A copy of a console's board. Refusals 3, 12.
    ///
    /// ```
    /// # use room::{Console, Entry, Room, Strip};
    /// let mut room = Room::open(64)?;
    /// room.enter(Console(0), Strip(5), Entry::MarkPut(15))?;
    /// assert!(room.board(Console(0))?.strip(Strip(5))?.has_mark(15));
    /// # Ok::<(), room::Refusal>(())
    /// ```
    pub fn board(&self, console: Console) -> Result<Board, Refusal> {
        self.copy_out(ffi::room_board, console)
    }

    /// What a student sees of a console: its board without calls, alerts and marks 8 to 15. Refusals 3, 12.
    ///
    /// ```
    /// # use room::{Console, Entry, Room, Strip};
    /// let mut room = Room::open(64)?;
    /// room.enter(Console(0), Strip(5), Entry::MarkPut(15))?;
    /// assert!(!room.student_pane(Console(0))?.strip(Strip(5))?.has_mark(15));
    /// # Ok::<(), room::Refusal>(())
    /// ```
    pub fn student_pane(&self, console: Console) -> Result<Board, Refusal> {
        self.copy_out(ffi::room_student_pane, console)
    }

    /// What the instructor sees of a console: its board. Refusals 3, 12.
    ///
    /// ```
    /// # use room::{Console, Room};
    /// let room = Room::open(64)?;
    /// assert_eq!(room.instructor_pane(Console(0)), room.board(Console(0)));
    /// # Ok::<(), room::Refusal>(())
    /// ```
    pub fn instructor_pane(&self, console: Console) -> Result<Board, Refusal> {
        self.copy_out(ffi::room_instructor_pane, console)
    }

    fn copy_out(&self, call: ffi::CopyOut, console: Console) -> Result<Board, Refusal> {
        let store = self.store();
        let mut board = Board::blank();
        let bytes = board.bytes_mut();
        accepted(unsafe {
            call(
                store.as_ptr(),
                store.len(),
                console.number(),
                bytes.as_mut_ptr(),
                bytes.len(),
            )
        })?;
        Ok(board)
    }

    /// A console's board where it stands in the store, with no copy. The header's views choose between a live store and a frozen one; here
    /// those are two rooms, each with its own views, and a room cannot change as long as a view of it is in use. Refusals 3, 12.
    ///
    /// ```
    /// # use room::{Console, Entry, Room, Strip};
    /// let mut live = Room::open(64)?;
    /// let frozen = Room::resume(&live.pause()?)?;
    /// live.enter(Console(0), Strip(5), Entry::Level(100))?;
    /// assert_eq!(live.view(Console(0))?.strip(Strip(5))?.level, 100);
    /// assert_eq!(frozen.view(Console(0))?.strip(Strip(5))?.level, 0);
    /// # Ok::<(), room::Refusal>(())
    /// ```
    pub fn view(&self, console: Console) -> Result<&Board, Refusal> {
        const LIVE: u32 = 0;
        let live = self.store();
        let frozen: &[u8] = &[];
        let place = accepted(unsafe {
            ffi::room_view_at(
                live.as_ptr(),
                live.len(),
                frozen.as_ptr(),
                frozen.len(),
                console.number(),
                LIVE,
            )
        })?;
        Ok(Board::at(live, place as usize))
    }

    /// The version that a console is on. Refusals 3, 12.
    ///
    /// ```
    /// # use room::{Console, Room, Version};
    /// assert_eq!(Room::open(64)?.head(Console(0))?, Version(0));
    /// # Ok::<(), room::Refusal>(())
    /// ```
    pub fn head(&self, console: Console) -> Result<Version, Refusal> {
        self.common(console, console)
    }

    /// The common version of two consoles. Refusals 3, 12.
    ///
    /// ```
    /// # use room::{Console, Entry, Room, Strip, Version};
    /// let mut room = Room::open(64)?;
    /// room.enter(Console(0), Strip(5), Entry::Call)?;
    /// room.fork(Console(1), Console(0))?;
    /// room.enter(Console(1), Strip(5), Entry::Call)?;
    /// assert_eq!(room.common(Console(0), Console(1))?, Version(1));
    /// # Ok::<(), room::Refusal>(())
    /// ```
    pub fn common(&self, first: Console, second: Console) -> Result<Version, Refusal> {
        let store = self.store();
        let reply = unsafe {
            ffi::room_common(store.as_ptr(), store.len(), first.number(), second.number())
        };
        accepted(reply).map(Version::of_count)
    }

    /// How many entries a console has heard. Refusals 3, 12.
    ///
    /// ```
    /// # use room::{Console, Room};
    /// assert_eq!(Room::open(64)?.heard(Console(0))?, 0);
    /// # Ok::<(), room::Refusal>(())
    /// ```
    pub fn heard(&self, console: Console) -> Result<u32, Refusal> {
        let store = self.store();
        accepted(unsafe { ffi::room_heard(store.as_ptr(), store.len(), console.number()) })
    }

    /// The version of the entry behind what a console shows as a level or heading; none where that is 0 because nothing was entered.
    /// Needs [`ORIGIN_STACK`](crate::sizes::ORIGIN_STACK) bytes of stack. Refusals 3, 4, 12.
    ///
    /// ```
    /// # use room::{Cell, Console, Entry, Room, Strip, Version};
    /// let mut room = Room::open(64)?;
    /// room.enter(Console(0), Strip(5), Entry::Level(100))?;
    /// assert_eq!(room.origin(Console(0), Strip(5), Cell::Level)?, Some(Version(1)));
    /// assert_eq!(room.origin(Console(0), Strip(5), Cell::Heading)?, None);
    /// # Ok::<(), room::Refusal>(())
    /// ```
    pub fn origin(
        &self,
        console: Console,
        strip: Strip,
        cell: Cell,
    ) -> Result<Option<Version>, Refusal> {
        let store = self.store();
        let reply = unsafe {
            ffi::room_origin(
                store.as_ptr(),
                store.len(),
                console.number(),
                u32::from(strip.0),
                cell.number(),
            )
        };
        accepted(reply).map(|count| (count != 0).then(|| Version::of_count(count)))
    }

    /// The first two consoles that could merge or fast-forward if versions were free, or why there are none.
    ///
    /// ```
    /// # use room::{Console, Entry, Pair, Room, Strip};
    /// let mut room = Room::open(64)?;
    /// assert_eq!(room.mergeable()?, Pair::AllAgree);
    /// room.fork(Console(1), Console(0))?;
    /// room.enter(Console(1), Strip(5), Entry::Call)?;
    /// assert_eq!(room.mergeable()?, Pair::CanFastForward { receiver: Console(0), giver: Console(1) });
    /// # Ok::<(), room::Refusal>(())
    /// ```
    pub fn mergeable(&self) -> Result<Pair, Refusal> {
        let store = self.store();
        accepted(unsafe { ffi::room_mergeable(store.as_ptr(), store.len()) }).map(Pair::of_count)
    }
}
