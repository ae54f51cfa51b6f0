// The comparison of an implementation of the calls with the model, call by call: every reply, and every byte of every
// lent buffer and of guard bytes around it; in sessions in which consoles come and go, with the book of demand 3; of the answer which
// two can meet with what the commands then do; of views of one of two stores with the store chosen and its board; of panes with the board;
// and of rooms with a hub with what is promised of them: no 17, nothing stuck, and all can be brought to one head. The cases come from one
// seed, so that a difference can be met again.

mod buffers;
mod call;
mod comparison;
mod drawn;
mod figures;
mod full_rooms;
mod numbers;
mod paper_rooms;
mod rounds;
mod session;
mod stores;
mod tally;
mod tapes;

pub use call::{Call, ViewNumbers};
pub use rounds::{compare, seed, Effort};
pub use tally::Tally;

/// The first difference, told in words.
pub type Outcome<T> = Result<T, String>;
