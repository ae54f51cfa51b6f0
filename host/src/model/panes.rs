// What of a board the instructor and a student see.

use super::board::{Board, Strip};
use std::ops::RangeInclusive;

/// The marks that belong to the instructor, with all alerts and calls.
const INSTRUCTOR_MARKS: RangeInclusive<usize> = 8..=15;

/// What an instructor's pane shows of a board: the board.
pub fn shown_to_instructor(board: &Board) -> Board {
    *board
}

/// What a student's pane shows of a board: nothing of what belongs to the instructor.
pub fn shown_to_student(board: &Board) -> Board {
    board.map(|strip| without_secrets(&strip))
}

fn without_secrets(strip: &Strip) -> Strip {
    let mut marks = strip.marks;
    marks[INSTRUCTOR_MARKS].fill(false);
    Strip {
        level: strip.level,
        heading: strip.heading,
        marks,
        calls: 0,
        alert_count: 0,
        alert_flag: false,
    }
}
