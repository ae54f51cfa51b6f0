// A call with its numbers, and the answers that it may give.

use crate::calls::Reply;
use crate::implementations::Calls;
use crate::model::choice;
use crate::views::Asked;

/// The numbers of a view, and its stores: the live one is the lent store, and the frozen one the lent input, or the lent store once more.
#[derive(Clone, Copy, Debug)]
pub struct ViewNumbers {
    pub console: u32,
    pub choice: u32,
    pub is_of_one_store: bool,
}

impl ViewNumbers {
    pub(super) fn asked<'a>(self, store: &'a [u8], input: &'a [u8]) -> Asked<'a> {
        Asked {
            live: store,
            frozen: if self.is_of_one_store { store } else { input },
            console: self.console,
            choice: self.choice,
        }
    }
}

/// What a view showed on both sides: the board, or the refusal.
pub(super) type Seen = Result<Vec<u8>, u32>;

/// A call and its numbers; commands, tapes and outputs stand in the lent buffers.
#[derive(Clone, Copy, Debug)]
pub enum Call {
    Open { capacity: u32 },
    Command,
    Pause,
    Resume,
    Board { console: u32 },
    StudentPane { console: u32 },
    InstructorPane { console: u32 },
    Heard { console: u32 },
    Common { first: u32, second: u32 },
    Origin { console: u32, strip: u32, cell: u32 },
    Mergeable,
    ViewRefusal(ViewNumbers),
    ViewAt(ViewNumbers),
}

/// The calls, each with the answers that include/room.h lists for it, in the order of the tests.
pub(super) const LISTED: [(&str, &[usize]); 13] = [
    ("open", &[0, 8, 19]),
    (
        "command",
        &[
            0, 1, 2, 3, 4, 5, 6, 20, 11, 12, 13, 22, 14, 15, 16, 17, 18, 21, 23,
        ],
    ),
    ("pause", &[0, 11, 19]),
    ("resume", &[0, 7, 8, 9, 10, 19]),
    ("board", &[0, 3, 11, 12, 19]),
    ("heard", &[0, 3, 11, 12]),
    ("common", &[0, 3, 11, 12]),
    ("origin", &[0, 3, 4, 5, 11, 12]),
    ("mergeable", &[0, 11]),
    ("view_refusal", &[0, 3, 5, 11, 12]),
    ("view_at", &[0, 3, 5, 11, 12]),
    ("student_pane", &[0, 3, 11, 12, 19]),
    ("instructor_pane", &[0, 3, 11, 12, 19]),
];

impl Call {
    pub(super) fn place(self) -> usize {
        match self {
            Call::Open { .. } => 0,
            Call::Command => 1,
            Call::Pause => 2,
            Call::Resume => 3,
            Call::Board { .. } => 4,
            Call::Heard { .. } => 5,
            Call::Common { .. } => 6,
            Call::Origin { .. } => 7,
            Call::Mergeable => 8,
            Call::ViewRefusal(_) => 9,
            Call::ViewAt(_) => 10,
            Call::StudentPane { .. } => 11,
            Call::InstructorPane { .. } => 12,
        }
    }

    /// The calls that copy out what a console shows.
    pub(super) fn copying(console: u32) -> [Call; 3] {
        [
            Call::Board { console },
            Call::StudentPane { console },
            Call::InstructorPane { console },
        ]
    }

    /// Makes the call with the store, a command, a tape or a frozen store to be read, and a tape, board or pane to be written.
    pub fn make(self, calls: &Calls, store: &mut [u8], input: &[u8], output: &mut [u8]) -> Reply {
        match self {
            Call::Open { capacity } => (calls.open)(capacity, store),
            Call::Command => (calls.command)(store, input),
            Call::Pause => (calls.pause)(store, output),
            Call::Resume => (calls.resume)(input, store),
            Call::Board { console } => (calls.board)(store, console, output),
            Call::StudentPane { console } => (calls.student_pane)(store, console, output),
            Call::InstructorPane { console } => (calls.instructor_pane)(store, console, output),
            Call::Heard { console } => (calls.heard)(store, console),
            Call::Common { first, second } => (calls.common)(store, first, second),
            Call::Origin {
                console,
                strip,
                cell,
            } => (calls.origin)(store, console, strip, cell),
            Call::Mergeable => (calls.mergeable)(store),
            Call::ViewRefusal(view) => view.asked(store, input).refusal(calls),
            Call::ViewAt(view) => view.asked(store, input).place(calls),
        }
    }
}

/// The cells of a question for an origin: level and heading.
pub(super) const CELLS: [u32; 2] = [0, 1];

/// The choices of a view.
pub(super) const CHOICES: [u32; 2] = [choice::LIVE, choice::FROZEN];
