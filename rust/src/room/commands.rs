//! Changing a room.

use super::Room;
use crate::refusal::accepted;
use crate::{Command, Console, Entry, Refusal, Strip, ffi};

impl<B: AsMut<[u8]>> Room<B> {
    /// Carries out a command given as its bytes, and counts what [`command`](Room::command) does. Refusals 1 to 6, 12 to 18, 20 to 23.
    ///
    /// ```
    /// # use room::{Refusal, Room};
    /// let mut room = Room::open(64)?;
    /// assert_eq!(room.command_bytes(&[0x06, 0, 5])?, 0);
    /// assert_eq!(room.command_bytes(&[0x06, 0]), Err(Refusal::WrongLength));
    /// # Ok::<(), room::Refusal>(())
    /// ```
    pub fn command_bytes(&mut self, command: &[u8]) -> Result<u32, Refusal> {
        let store = self.buffer.as_mut();
        accepted(unsafe {
            ffi::room_command(
                store.as_mut_ptr(),
                store.len(),
                command.as_ptr(),
                command.len(),
            )
        })
    }

    /// Carries out a command. Of a merge it counts the clashes, of any other 0. Refusals 3 to 6, 12 to 18, 20 to 23.
    ///
    /// ```
    /// # use room::{Command, Console, Room};
    /// let mut room = Room::open(64)?;
    /// room.command(Command::Fork { new: Console(1), old: Console(0) })?;
    /// # Ok::<(), room::Refusal>(())
    /// ```
    pub fn command(&mut self, command: Command) -> Result<u32, Refusal> {
        self.command_bytes(&command.bytes())
    }

    /// Gives the new console the old one's head. Refusals 3, 6, 12, 13, 22.
    ///
    /// ```
    /// # use room::{Console, Room};
    /// let mut room = Room::open(64)?;
    /// room.fork(Console(1), Console(0))?;
    /// assert_eq!(room.head(Console(1)), room.head(Console(0)));
    /// # Ok::<(), room::Refusal>(())
    /// ```
    pub fn fork(&mut self, new: Console, old: Console) -> Result<(), Refusal> {
        self.command(Command::Fork { new, old }).map(drop)
    }

    /// Enters something at a console, which makes a version. Refusals 3 to 5, 12, 18.
    ///
    /// ```
    /// # use room::{Console, Entry, Room, Strip, Version};
    /// let mut room = Room::open(64)?;
    /// room.enter(Console(0), Strip(5), Entry::Level(100))?;
    /// assert_eq!(room.head(Console(0))?, Version(1));
    /// # Ok::<(), room::Refusal>(())
    /// ```
    pub fn enter(&mut self, console: Console, strip: Strip, entry: Entry) -> Result<(), Refusal> {
        let command = Command::Entry {
            console,
            strip,
            entry,
        };
        self.command(command).map(drop)
    }

    /// Brings what the giver has to the receiver, which makes a version. Counts the clashes, at most 64: the levels and headings of which
    /// the two and their common version showed three different values; the receiver's stays. Refusals 3, 6, 12, 14, 15, 17, 18, 22.
    ///
    /// ```
    /// # use room::{Console, Entry, Room, Strip};
    /// let mut room = Room::open(64)?;
    /// room.fork(Console(1), Console(0))?;
    /// room.enter(Console(0), Strip(5), Entry::Level(100))?;
    /// room.enter(Console(1), Strip(5), Entry::Level(200))?;
    /// assert_eq!(room.merge(Console(0), Console(1))?, 1);
    /// assert_eq!(room.board(Console(0))?.strip(Strip(5))?.level, 100);
    /// # Ok::<(), room::Refusal>(())
    /// ```
    pub fn merge(&mut self, receiver: Console, giver: Console) -> Result<u32, Refusal> {
        self.command(Command::Merge { receiver, giver })
    }

    /// Moves the receiver, which has nothing that the giver lacks, to the giver's head. Refusals 3, 6, 12, 14, 16, 22.
    ///
    /// ```
    /// # use room::{Console, Entry, Room, Strip};
    /// let mut room = Room::open(64)?;
    /// room.fork(Console(1), Console(0))?;
    /// room.enter(Console(0), Strip(5), Entry::Call)?;
    /// room.fast_forward(Console(1), Console(0))?;
    /// assert_eq!(room.head(Console(1)), room.head(Console(0)));
    /// # Ok::<(), room::Refusal>(())
    /// ```
    pub fn fast_forward(&mut self, receiver: Console, giver: Console) -> Result<(), Refusal> {
        self.command(Command::FastForward { receiver, giver })
            .map(drop)
    }

    /// Takes a console out of the room; another must have all that it has. Refusals 3, 20, 12, 21.
    ///
    /// ```
    /// # use room::{Console, Refusal, Room};
    /// let mut room = Room::open(64)?;
    /// room.fork(Console(1), Console(0))?;
    /// room.leave(Console(1))?;
    /// assert_eq!(room.head(Console(1)), Err(Refusal::ConsoleAbsent));
    /// # Ok::<(), room::Refusal>(())
    /// ```
    pub fn leave(&mut self, console: Console) -> Result<(), Refusal> {
        self.command(Command::Leave { console }).map(drop)
    }

    /// Makes the room a hub room for good: every fork, merge and fast-forward goes through console 0, and the room never gets stuck.
    /// Refusal 23.
    ///
    /// ```
    /// # use room::{Console, Refusal, Room};
    /// let mut room = Room::open(64)?;
    /// room.hub()?;
    /// room.fork(Console(1), Console(0))?;
    /// assert_eq!(room.fork(Console(2), Console(1)), Err(Refusal::NotThroughHub));
    /// # Ok::<(), room::Refusal>(())
    /// ```
    pub fn hub(&mut self) -> Result<(), Refusal> {
        self.command(Command::Hub).map(drop)
    }
}
