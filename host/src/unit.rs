// The room unit's calls as functions of the form that all implementations share, made of the declarations of the crate `room`. A slice
// crosses the boundary as a pointer and a length, and the unit's contracts have no conditions, so any bytes and any numbers may be handed
// over. No slice comes back: of a view the unit says the place, and the part is cut out here.

use crate::calls::Reply;
use crate::layout::BOARD_BYTES;
use crate::model::choice::LIVE;
use room::ffi;

// Each call below is sound for every argument: the unit reads and writes within the lengths given and keeps no pointer.

pub fn open(capacity: u32, store: &mut [u8]) -> Reply {
    unsafe { ffi::room_open(capacity, store.as_mut_ptr(), store.len()) }
}

pub fn command(store: &mut [u8], command: &[u8]) -> Reply {
    unsafe {
        ffi::room_command(
            store.as_mut_ptr(),
            store.len(),
            command.as_ptr(),
            command.len(),
        )
    }
}

pub fn pause(store: &[u8], tape: &mut [u8]) -> Reply {
    unsafe { ffi::room_pause(store.as_ptr(), store.len(), tape.as_mut_ptr(), tape.len()) }
}

pub fn resume(tape: &[u8], store: &mut [u8]) -> Reply {
    unsafe { ffi::room_resume(tape.as_ptr(), tape.len(), store.as_mut_ptr(), store.len()) }
}

pub fn board(store: &[u8], console: u32, board: &mut [u8]) -> Reply {
    copy_out(ffi::room_board, store, console, board)
}

/// The board without what belongs to the instructor: alerts, calls and marks 8 to 15 are zero.
pub fn student_pane(store: &[u8], console: u32, pane: &mut [u8]) -> Reply {
    copy_out(ffi::room_student_pane, store, console, pane)
}

/// The board.
pub fn instructor_pane(store: &[u8], console: u32, pane: &mut [u8]) -> Reply {
    copy_out(ffi::room_instructor_pane, store, console, pane)
}

fn copy_out(call: ffi::CopyOut, store: &[u8], console: u32, output: &mut [u8]) -> Reply {
    unsafe {
        call(
            store.as_ptr(),
            store.len(),
            console,
            output.as_mut_ptr(),
            output.len(),
        )
    }
}

pub fn heard(store: &[u8], console: u32) -> Reply {
    unsafe { ffi::room_heard(store.as_ptr(), store.len(), console) }
}

pub fn common(store: &[u8], first: u32, second: u32) -> Reply {
    unsafe { ffi::room_common(store.as_ptr(), store.len(), first, second) }
}

pub fn origin(store: &[u8], console: u32, strip: u32, cell: u32) -> Reply {
    unsafe { ffi::room_origin(store.as_ptr(), store.len(), console, strip, cell) }
}

/// Which two can meet; `calls::verdict_in` takes the number apart.
pub fn mergeable(store: &[u8]) -> Reply {
    unsafe { ffi::room_mergeable(store.as_ptr(), store.len()) }
}

/// Why there is no view with these operands, or 0.
pub fn view_refusal(live: &[u8], frozen: &[u8], console: u32, choice: u32) -> Reply {
    unsafe {
        ffi::room_view_refusal(
            live.as_ptr(),
            live.len(),
            frozen.as_ptr(),
            frozen.len(),
            console,
            choice,
        )
    }
}

/// Where the board viewed stands in the store chosen.
pub fn view_at(live: &[u8], frozen: &[u8], console: u32, choice: u32) -> Reply {
    unsafe {
        ffi::room_view_at(
            live.as_ptr(),
            live.len(),
            frozen.as_ptr(),
            frozen.len(),
            console,
            choice,
        )
    }
}

/// The board viewed as a part of the store chosen, without a copy; of length 0 where the view is refused.
pub fn view<'a>(live: &'a [u8], frozen: &'a [u8], console: u32, choice: u32) -> &'a [u8] {
    let Reply { answer, count } = view_at(live, frozen, console, choice);
    if answer != 0 {
        return &[];
    }
    let chosen = if choice == LIVE { live } else { frozen };
    &chosen[count as usize..][..BOARD_BYTES]
}
