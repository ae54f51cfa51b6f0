#![doc = include_str!("../README.md")]
//!
//! # A lesson
//!
//! Two consoles work apart, one takes over from the other, and the lesson is kept on a tape.
//!
//! ```
//! use room::{Console, Entry, Refusal, Room, Strip};
//!
//! fn main() -> Result<(), Refusal> {
//!     let (teacher, pupil) = (Console(0), Console(1));
//!     let mut room = Room::open(64)?;
//!     room.fork(pupil, teacher)?;
//!     room.enter(teacher, Strip(5), Entry::Level(100))?;
//!     room.enter(pupil, Strip(5), Entry::Call)?;
//!
//!     let clashes = room.merge(teacher, pupil)?;
//!     assert_eq!(clashes, 0);
//!     let shown = room.board(teacher)?.strip(Strip(5))?;
//!     assert_eq!((shown.level, shown.calls), (100, 1));
//!
//!     // A refused call changes nothing, and says why.
//!     let refusal = room.merge(teacher, pupil).unwrap_err();
//!     assert_eq!(refusal, Refusal::GiverBehind);
//!     println!("{}: {refusal}", refusal.number());
//!
//!     let tape = room.pause()?;
//!     let again = Room::resume(&tape)?;
//!     assert_eq!(again.board(teacher), room.board(teacher));
//!     Ok(())
//! }
//! ```
#![deny(missing_docs)]

mod board;
pub mod codes;
mod command;
pub mod ffi;
mod numbers;
mod question;
mod refusal;
mod room;
pub mod sizes;

pub use board::{Board, Cells};
pub use command::{Command, Entry};
pub use numbers::{Console, Strip, Version};
pub use question::{Cell, Pair};
pub use refusal::Refusal;
pub use room::Room;
