// The panes of a console, by what the calls say of each other: whatever the model says, a pane is copied out or refused as the board
// is, the instructor's is the board, and the student's is the board with the secrets of every strip zero.

use crate::calls::Reply;
use crate::implementations::{Calls, CopyOut};
use crate::layout::BOARD_BYTES;
use std::ops::Range;

const STRIP_BYTES: usize = 12;

/// What an output holds before a call.
const FILLER: u8 = 0xA5;

/// Where a strip holds what belongs to the instructor: marks 8 to 15, as the marks' high byte comes first, calls, alert count and flag.
const SECRETS: [Range<usize>; 4] = [4..5, 6..8, 8..10, 10..11];

/// Of each of these, whether some strip has it, so that the student's pane hides it.
pub type Hidden = [bool; SECRETS.len()];

/// What the student's pane hides, or the refusal, where the calls with outputs of this length fit; else the difference in words.
pub fn check(
    calls: &Calls,
    store: &[u8],
    console: u32,
    length: usize,
) -> Result<Result<Hidden, u32>, String> {
    let copy = |call: CopyOut| copied(call, store, console, length);
    let (reply, board) = copy(calls.board);
    let is_accepted = reply.answer == 0;
    let due_to_student = if is_accepted {
        without_secrets(&board)
    } else {
        board.clone()
    };
    let panes = [
        ("student's", calls.student_pane, &due_to_student),
        ("instructor's", calls.instructor_pane, &board),
    ];
    for (whose, call, due) in panes {
        let (found, pane) = copy(call);
        if (found, &pane) != (reply, due) {
            let difference = difference_of(&pane, due);
            return Err(format!(
                "pane differs: the {whose}, {found:?}, {reply:?} of the board, {difference}"
            ));
        }
    }
    Ok(if is_accepted {
        Ok(hidden_of(&board))
    } else {
        Err(reply.answer)
    })
}

/// The reply of a call and what it has left in an output of this length.
fn copied(call: CopyOut, store: &[u8], console: u32, length: usize) -> (Reply, Vec<u8>) {
    let mut output = vec![FILLER; length];
    let reply = call(store, console, &mut output);
    (reply, output)
}

/// The output of a board as it is due of the student's pane; what is behind the board stays.
fn without_secrets(board: &[u8]) -> Vec<u8> {
    let mut pane = board.to_vec();
    for strip in pane[..BOARD_BYTES].chunks_exact_mut(STRIP_BYTES) {
        for secret in SECRETS {
            strip[secret].fill(0);
        }
    }
    pane
}

fn hidden_of(board: &[u8]) -> Hidden {
    SECRETS.map(|secret| {
        let mut strips = board[..BOARD_BYTES].chunks_exact(STRIP_BYTES);
        strips.any(|strip| strip[secret.clone()].iter().any(|&byte| byte != 0))
    })
}

fn difference_of(pane: &[u8], due: &[u8]) -> String {
    match pane.iter().zip(due).position(|(found, due)| found != due) {
        Some(place) => format!("at byte {place}"),
        None => "the same bytes".to_string(),
    }
}
