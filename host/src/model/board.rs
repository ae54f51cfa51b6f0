// Boards: what an entry changes, how three boards merge, and the board of every version.

use super::ancestors::Ancestry;
use super::room::{Entry, Room, Version};
use super::{code, MARKS, STRIPS};

/// One strip, a named cell for each field; counters have more bits than a room has versions to count.
#[derive(Clone, Copy, Debug, Default, PartialEq, Eq)]
pub struct Strip {
    pub level: u16,
    pub heading: u16,
    pub marks: [bool; MARKS],
    pub calls: i64,
    pub alert_count: i64,
    pub alert_flag: bool,
}

pub type Board = [Strip; STRIPS];

pub fn empty_board() -> Board {
    [Strip::default(); STRIPS]
}

/// The board after one entry on the parent's board.
pub fn board_after_entry(parent: &Board, entry: &Entry) -> Board {
    let mut board = *parent;
    if let Some(strip) = board.get_mut(usize::from(entry.strip)) {
        change_strip(strip, entry.code, entry.operand);
    }
    board
}

fn change_strip(strip: &mut Strip, entry_code: u8, operand: u16) {
    match entry_code {
        code::LEVEL => strip.level = operand,
        code::HEADING => strip.heading = operand,
        code::MARK_PUT => set_mark(strip, operand, true),
        code::MARK_TAKEN => set_mark(strip, operand, false),
        code::CALL_COUNTED => strip.calls += 1,
        code::ALERT_ON => {
            strip.alert_count += 1;
            strip.alert_flag = true;
        }
        code::ALERT_OFF => strip.alert_flag = false,
        _ => {}
    }
}

fn set_mark(strip: &mut Strip, mark: u16, put: bool) {
    if let Some(place) = strip.marks.get_mut(usize::from(mark)) {
        *place = put;
    }
}

/// A strip or a board as it is worked out, and how many of its levels and headings clashed in that: none but in a merge.
#[derive(Clone, Copy, Debug, PartialEq, Eq)]
pub struct Worked<T> {
    pub value: T,
    pub clashes: usize,
}

impl<T> Worked<T> {
    fn without_clash(value: T) -> Worked<T> {
        Worked { value, clashes: 0 }
    }
}

/// The board of a merge, strip by strip.
fn merged_board(base: &Board, receiver: &Board, giver: &Board) -> Worked<Board> {
    let mut merged = Worked::without_clash(empty_board());
    for number in 0..STRIPS {
        let strip = merged_strip(&base[number], &receiver[number], &giver[number]);
        merged.value[number] = strip.value;
        merged.clashes += strip.clashes;
    }
    merged
}

fn merged_strip(l: &Strip, a: &Strip, b: &Strip) -> Worked<Strip> {
    let level = merged_cell(l.level, a.level, b.level);
    let heading = merged_cell(l.heading, a.heading, b.heading);
    let strip = Strip {
        level: level.value,
        heading: heading.value,
        marks: merged_marks(&l.marks, &a.marks, &b.marks),
        calls: a.calls + b.calls - l.calls,
        alert_count: a.alert_count + b.alert_count - l.alert_count,
        alert_flag: merged_flag(l, a, b),
    };
    Worked {
        value: strip,
        clashes: usize::from(level.clash) + usize::from(heading.clash),
    }
}

/// A merged level or heading, and whether base, receiver and giver all differ.
struct MergedCell {
    value: u16,
    clash: bool,
}

/// Level and heading: b if a = l, else a.
fn merged_cell(l: u16, a: u16, b: u16) -> MergedCell {
    MergedCell {
        value: if a == l { b } else { a },
        clash: l != a && l != b && a != b,
    }
}

/// Marks: (a and b) or (a without l) or (b without l).
fn merged_marks(l: &[bool; MARKS], a: &[bool; MARKS], b: &[bool; MARKS]) -> [bool; MARKS] {
    let without = |these: bool, those: bool| these && !those;
    let mut marks = [false; MARKS];
    for k in 0..MARKS {
        marks[k] = (a[k] && b[k]) || without(a[k], l[k]) || without(b[k], l[k]);
    }
    marks
}

/// Alert flag: where the sides differ, 1 exactly when the side whose flag is 1 counts more alerts than the base.
fn merged_flag(l: &Strip, a: &Strip, b: &Strip) -> bool {
    match (a.alert_flag, b.alert_flag) {
        (true, true) => true,
        (false, false) => false,
        (true, false) => a.alert_count > l.alert_count,
        (false, true) => b.alert_count > l.alert_count,
    }
}

/// The boards of all versions, in order, with the base of each merge chosen by the caller.
/// Parents and bases must be lower numbers.
pub fn boards(room: &Room, base_of: &dyn Fn(usize, usize) -> usize) -> Vec<Worked<Board>> {
    let mut boards: Vec<Worked<Board>> = Vec::with_capacity(room.versions.len());
    for version in &room.versions {
        let of = |number: usize| &boards[number].value;
        let board = match *version {
            Version::Start => Worked::without_clash(empty_board()),
            Version::Entry(entry) => {
                Worked::without_clash(board_after_entry(of(entry.parent), &entry))
            }
            Version::Merge { receiver, giver } => {
                merged_board(of(base_of(receiver, giver)), of(receiver), of(giver))
            }
        };
        boards.push(board);
    }
    boards
}

/// The same of a sound room, each merge with its base.
pub fn sound_boards(room: &Room, ancestry: &Ancestry) -> Vec<Worked<Board>> {
    boards(room, &|receiver, giver| ancestry.base(receiver, giver))
}

/// The board of a present console of a sound room.
pub fn console_board(room: &Room, console: usize) -> Option<Board> {
    let boards = sound_boards(room, &Ancestry::new(room));
    let shown = boards.get(room.head(console)?)?;
    Some(shown.value)
}
