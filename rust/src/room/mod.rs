//! The room: made, lent, paused; the modules change it and ask it.

// SAFETY of every unsafe block here and in the modules: a pointer comes with its slice's length, the borrow outlives the call, a slice that
// is written overlaps no other, and the unit keeps no pointer and takes any bytes and numbers.

mod commands;
mod questions;

use crate::refusal::accepted;
use crate::sizes::{MAX_CAPACITY, store_bytes, tape_bytes};
use crate::{Console, Refusal, ffi};
use std::fmt;

/// A room in a buffer that it owns (`Vec<u8>`) or borrows (`&mut [u8]`, or `&[u8]` where it is only asked).
///
/// The numbers behind "Refusals" are those of [`Refusal`]; of several that apply the unit gives the first in its order. 11 is named only
/// where it can come: a `Room` was sound when it was made, and stays so unless its buffer is changed from outside. A `Room` can be sent to
/// another thread, and asked by several at once; the unit keeps no state of its own.
#[derive(Clone)]
pub struct Room<B> {
    buffer: B,
}

impl Room<Vec<u8>> {
    /// A new room with console 0 on version 0, for so many versions. Refusal 8.
    ///
    /// ```
    /// # use room::{Console, Room, Version};
    /// let room = Room::open(64)?;
    /// assert_eq!(room.head(Console(0))?, Version(0));
    /// # Ok::<(), room::Refusal>(())
    /// ```
    pub fn open(capacity: u32) -> Result<Self, Refusal> {
        Room::open_in(buffer_for(capacity), capacity)
    }

    /// The room of a tape that [`pause`](Room::pause) wrote. Needs [`RESUME_STACK`](crate::sizes::RESUME_STACK) bytes of stack.
    /// Refusals 7 to 10.
    ///
    /// ```
    /// # use room::{Console, Entry, Room, Strip};
    /// let mut room = Room::open(64)?;
    /// room.enter(Console(0), Strip(5), Entry::Call)?;
    /// let tape = room.pause()?;
    /// assert_eq!(Room::resume(&tape)?.board(Console(0)), room.board(Console(0)));
    /// # Ok::<(), room::Refusal>(())
    /// ```
    pub fn resume(tape: &[u8]) -> Result<Self, Refusal> {
        // A tape without these bytes is broken, which the unit says whatever the buffer.
        let capacity = match *tape {
            [_, high, low, ..] => u32::from(u16::from_be_bytes([high, low])),
            _ => 0,
        };
        Room::resume_in(buffer_for(capacity), tape)
    }
}

/// A buffer for a store of this capacity, as long as the unit can accept that; it judges the capacity itself.
fn buffer_for(capacity: u32) -> Vec<u8> {
    vec![0; store_bytes(capacity.min(MAX_CAPACITY))]
}

impl<B: AsMut<[u8]>> Room<B> {
    /// A new room as [`open`](Room::open) makes it, in a buffer of at least [`store_bytes`] bytes, whatever they are. Refusals 8, 19.
    ///
    /// ```
    /// # use room::{Room, sizes::store_bytes};
    /// let mut buffer = [0; store_bytes(64)];
    /// let room = Room::open_in(&mut buffer[..], 64)?;
    /// # Ok::<(), room::Refusal>(())
    /// ```
    pub fn open_in(mut buffer: B, capacity: u32) -> Result<Self, Refusal> {
        let store = buffer.as_mut();
        accepted(unsafe { ffi::room_open(capacity, store.as_mut_ptr(), store.len()) })?;
        Ok(Room { buffer })
    }

    /// The room of a tape, as [`resume`](Room::resume) makes it, in a buffer as for [`open_in`](Room::open_in). Refusals 7 to 10, 19.
    ///
    /// ```
    /// # use room::{Room, sizes::store_bytes};
    /// let tape = Room::open(64)?.pause()?;
    /// let mut buffer = [0; store_bytes(64)];
    /// let room = Room::resume_in(&mut buffer[..], &tape)?;
    /// # Ok::<(), room::Refusal>(())
    /// ```
    pub fn resume_in(mut buffer: B, tape: &[u8]) -> Result<Self, Refusal> {
        let store = buffer.as_mut();
        accepted(unsafe {
            ffi::room_resume(tape.as_ptr(), tape.len(), store.as_mut_ptr(), store.len())
        })?;
        Ok(Room { buffer })
    }
}

impl<B: AsRef<[u8]>> Room<B> {
    /// The room that these bytes hold already. Refusal 11.
    ///
    /// ```
    /// # use room::{Refusal, Room};
    /// let bytes = Room::open(64)?.into_buffer();
    /// assert!(Room::of(&bytes[..]).is_ok());
    /// assert_eq!(Room::of(&bytes[1..]).unwrap_err(), Refusal::NoStore);
    /// # Ok::<(), room::Refusal>(())
    /// ```
    pub fn of(buffer: B) -> Result<Self, Refusal> {
        let room = Room { buffer };
        // The cheapest question: the unit judges the store, and console 0 is in every one.
        room.head(Console(0))?;
        Ok(room)
    }

    /// The buffer back, with the store at its front.
    ///
    /// ```
    /// # use room::{Room, sizes::store_bytes};
    /// assert_eq!(Room::open(64)?.into_buffer().len(), store_bytes(64));
    /// # Ok::<(), room::Refusal>(())
    /// ```
    pub fn into_buffer(self) -> B {
        self.buffer
    }

    fn store(&self) -> &[u8] {
        self.buffer.as_ref()
    }

    /// The tape of the room, which [`resume`](Room::resume) makes it of again.
    ///
    /// ```
    /// # use room::Room;
    /// assert_eq!(Room::open(64)?.pause()?, [0x20, 0, 64, 0x23, 0, 0, 0, 0x24]);
    /// # Ok::<(), room::Refusal>(())
    /// ```
    pub fn pause(&self) -> Result<Vec<u8>, Refusal> {
        let mut tape = vec![0; tape_bytes(MAX_CAPACITY)];
        let written = self.pause_into(&mut tape)?;
        tape.truncate(written);
        Ok(tape)
    }

    /// Writes the tape at the front of a buffer and counts its bytes, at most [`tape_bytes`] of the capacity. Refusal 19.
    ///
    /// ```
    /// # use room::{Room, sizes::tape_bytes};
    /// let mut tape = [0; tape_bytes(64)];
    /// assert_eq!(Room::open(64)?.pause_into(&mut tape)?, 8);
    /// # Ok::<(), room::Refusal>(())
    /// ```
    pub fn pause_into(&self, tape: &mut [u8]) -> Result<usize, Refusal> {
        let store = self.store();
        let reply =
            unsafe { ffi::room_pause(store.as_ptr(), store.len(), tape.as_mut_ptr(), tape.len()) };
        accepted(reply).map(|count| count as usize)
    }
}

/// Without its bytes, which are many.
impl<B> fmt::Debug for Room<B> {
    fn fmt(&self, out: &mut fmt::Formatter) -> fmt::Result {
        out.debug_struct("Room").finish_non_exhaustive()
    }
}
