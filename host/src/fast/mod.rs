// A fast second implementation of the calls, on the bytes of docs/LAYOUT.md: what the benchmark measures the unit against.
// It judges the whole lent store in every call that reads one, in one pass over the versions: ancestry rows are compared as
// words, an entry's board as slices, a merge's many cells at a time. It uses no heap and no unsafe code and keeps nothing between
// calls. With the model it shares the reply, the names of the refusals and the way to give one (`refuse_if`), nothing else.

mod boards;
mod commands;
mod fields;
mod pairs;
mod pause;
mod questions;
mod resume;
mod rows;
mod sound;
mod versions;

use crate::calls::{reply_of, Reply};
use commands::obey;
use pairs::find_pair;
use pause::write_tape;
use questions::{
    copy_board, copy_student_pane, count_heard, find_common, find_origin, find_view, open_store,
};
use resume::read_tape;

pub fn open(capacity: u32, store: &mut [u8]) -> Reply {
    reply_of(open_store(capacity as usize, store))
}

pub fn command(store: &mut [u8], command: &[u8]) -> Reply {
    reply_of(obey(store, command))
}

pub fn pause(store: &[u8], tape: &mut [u8]) -> Reply {
    reply_of(write_tape(store, tape))
}

pub fn resume(tape: &[u8], store: &mut [u8]) -> Reply {
    reply_of(read_tape(tape, store))
}

pub fn board(store: &[u8], console: u32, board: &mut [u8]) -> Reply {
    reply_of(copy_board(store, console as usize, board))
}

pub fn student_pane(store: &[u8], console: u32, pane: &mut [u8]) -> Reply {
    reply_of(copy_student_pane(store, console as usize, pane))
}

/// The instructor's pane is the board.
pub fn instructor_pane(store: &[u8], console: u32, pane: &mut [u8]) -> Reply {
    board(store, console, pane)
}

pub fn heard(store: &[u8], console: u32) -> Reply {
    reply_of(count_heard(store, console as usize))
}

pub fn common(store: &[u8], first: u32, second: u32) -> Reply {
    reply_of(find_common(store, first as usize, second as usize))
}

pub fn origin(store: &[u8], console: u32, strip: u32, cell: u32) -> Reply {
    reply_of(find_origin(
        store,
        console as usize,
        strip as usize,
        cell as usize,
    ))
}

pub fn mergeable(store: &[u8]) -> Reply {
    reply_of(find_pair(store))
}

pub fn view_refusal(live: &[u8], frozen: &[u8], console: u32, choice: u32) -> Reply {
    let found = find_view(live, frozen, console as usize, choice as usize);
    reply_of(found.map(|_| 0))
}

pub fn view_at(live: &[u8], frozen: &[u8], console: u32, choice: u32) -> Reply {
    let found = find_view(live, frozen, console as usize, choice as usize);
    reply_of(found.map(|(place, _)| place))
}

pub fn view<'a>(live: &'a [u8], frozen: &'a [u8], console: u32, choice: u32) -> &'a [u8] {
    let found = find_view(live, frozen, console as usize, choice as usize);
    found.map_or(&[], |(_, part)| part)
}
