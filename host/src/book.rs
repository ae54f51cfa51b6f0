// The book of demand 3, kept of the calls alone and apart from the model, and the comparison of a store's answers with it.

use crate::calls::{reply_of, Reply};
use crate::implementations::Calls;
use crate::layout::BOARD_BYTES;
use std::collections::BTreeSet;
use std::fmt;

const CONSOLES: usize = 16;
const STRIPS: u8 = 32;
const STRIP_BYTES: usize = 12;
const ABSENT: u32 = 12;

/// What an output holds before a call.
const FILLER: u8 = 0xA5;

/// Places on a strip, and the codes of the entries that write there.
const LEVEL_AT: usize = 0;
const HEADING_AT: usize = 2;
const CALLS_AT: usize = 6;
const LEVEL: u8 = 0x02;
const HEADING: u8 = 0x03;
const CALL_COUNTED: u8 = 0x06;

/// The cells that have an origin: the number in the question, the code of the entries that write the cell, and its place on a strip.
const CELLS: [(u32, u8, usize); 2] = [(0, LEVEL, LEVEL_AT), (1, HEADING, HEADING_AT)];

/// The strips whose origins are compared: those that most entries are on.
const STRIPS_OF_ORIGINS: u8 = 8;

// ---------------------------------------------------------------- the book

/// An entry's code and strip.
type Entry = (u8, u8);

/// A version in the book: its parents, and what it enters where it is an entry.
struct Noted {
    parents: Vec<usize>,
    entry: Option<Entry>,
}

pub struct Book {
    versions: Vec<Noted>,
    heads: [Option<usize>; CONSOLES],
}

impl Book {
    /// Version 0 without parent, and no console.
    fn new() -> Book {
        let mut book = Book {
            versions: vec![],
            heads: [None; CONSOLES],
        };
        book.add(vec![], None);
        book
    }

    pub fn opened() -> Book {
        let mut book = Book::new();
        book.heads[0] = Some(0);
        book
    }

    /// The book after an accepted resume of this tape. The book ends where the heads do: it has no hub.
    pub fn of_tape(tape: &[u8]) -> Book {
        let mut book = Book::new();
        let mut rest = &tape[3..];
        while let Some(behind) = book.note_record(rest) {
            rest = behind;
        }
        book
    }

    /// Notes the record 21, 22 or 23 at the front and gives what is behind it.
    fn note_record<'a>(&mut self, tape: &'a [u8]) -> Option<&'a [u8]> {
        let number = |high: u8, low: u8| usize::from(u16::from_be_bytes([high, low]));
        match *tape {
            [0x21, high, low, code, strip, _, _, ref rest @ ..] => {
                self.add(vec![number(high, low)], Some((code, strip)));
                Some(rest)
            }
            [0x22, high, low, giver_high, giver_low, ref rest @ ..] => {
                let parents = vec![number(high, low), number(giver_high, giver_low)];
                self.add(parents, None);
                Some(rest)
            }
            [0x23, console, high, low, ref rest @ ..] => {
                self.heads[usize::from(console)] = Some(number(high, low));
                Some(rest)
            }
            _ => None,
        }
    }

    /// Notes an accepted command. One without an operand, which is 0C, changes nothing.
    pub fn note(&mut self, command: &[u8]) {
        let Some(&console) = command.get(1) else {
            return;
        };
        let head = self.head(console);
        self.heads[usize::from(console)] = match *command {
            [0x0B, _] => None,
            [0x01 | 0x0A, _, leader] => self.head(leader),
            [0x09, _, giver] => {
                let parents = [head, self.head(giver)];
                Some(self.add(parents.into_iter().flatten().collect(), None))
            }
            [code, _, strip, ..] => Some(self.add(head.into_iter().collect(), Some((code, strip)))),
            _ => head,
        };
    }

    /// The most that an accepted command may count, to be asked before it is noted: of a merge how many levels and headings were written
    /// on both sides since they parted, as a side that hasn't written one still shows the base's value; of every other command 0.
    pub fn most_clashes(&self, command: &[u8]) -> usize {
        let [0x09, receiver, giver] = *command else {
            return 0;
        };
        let (Some(one), Some(other)) = (self.head(receiver), self.head(giver)) else {
            return 0;
        };
        let (of_one, of_other) = (self.set_apart(one, other), self.set_apart(other, one));
        of_one.intersection(&of_other).count()
    }

    /// The levels and headings that are set by entries that lead to the one version and not to the other.
    fn set_apart(&self, version: usize, other: usize) -> BTreeSet<Entry> {
        let (leading, elsewhere) = (self.leading_to(version), self.leading_to(other));
        let both = leading.iter().zip(elsewhere);
        let apart: Vec<bool> = both.map(|(&here, there)| here && !there).collect();
        let entries = self.entries_of(&apart).into_iter().map(|(_, entry)| entry);
        entries
            .filter(|(code, _)| [LEVEL, HEADING].contains(code))
            .collect()
    }

    fn head(&self, console: u8) -> Option<usize> {
        self.heads[usize::from(console)]
    }

    /// Adds the next version and gives its number.
    fn add(&mut self, parents: Vec<usize>, entry: Option<Entry>) -> usize {
        self.versions.push(Noted { parents, entry });
        self.versions.len() - 1
    }

    /// For every version, whether it leads to this one.
    fn leading_to(&self, version: usize) -> Vec<bool> {
        let mut leads = vec![false; self.versions.len()];
        leads[version] = true;
        for child in (0..=version).rev() {
            let is_leading = leads[child];
            let parents = self.versions[child].parents.iter();
            parents.for_each(|&parent| leads[parent] |= is_leading);
        }
        leads
    }

    /// The entries among these versions, with their numbers.
    fn entries_of(&self, leading: &[bool]) -> Vec<(usize, Entry)> {
        let numbered = self.versions.iter().enumerate();
        numbered
            .filter(|(number, _)| leading[*number])
            .filter_map(|(number, noted)| noted.entry.map(|entry| (number, entry)))
            .collect()
    }
}

// ---------------------------------------------------------------- the store's answers

/// What an implementation answers of a store.
struct Answers<'a> {
    calls: &'a Calls,
    store: &'a [u8],
}

impl Answers<'_> {
    /// The field of docs/LAYOUT.md.
    fn version_count(&self) -> usize {
        usize::from(u16::from_be_bytes([self.store[4], self.store[5]]))
    }

    fn heard(&self, console: u8) -> Reply {
        (self.calls.heard)(self.store, console.into())
    }

    fn common(&self, first: u8, second: u8) -> Reply {
        (self.calls.common)(self.store, first.into(), second.into())
    }

    fn origin(&self, console: u8, strip: u8, cell: u32) -> Reply {
        (self.calls.origin)(self.store, console.into(), strip.into(), cell)
    }

    /// The reply, and what an output of filler holds after the call.
    fn board(&self, console: u8) -> (Reply, Board) {
        let mut board = [FILLER; BOARD_BYTES];
        let reply = (self.calls.board)(self.store, console.into(), &mut board);
        (reply, board)
    }

    /// The reply to a fork, in a copy of the store.
    fn fork(&self, new: u8, old: u8) -> Reply {
        (self.calls.command)(&mut self.store.to_vec(), &[0x01, new, old])
    }
}

type Board = [u8; BOARD_BYTES];

/// A cell of 16 bits on a board.
fn cell_of(board: &Board, strip: u8, place: usize) -> usize {
    let at = STRIP_BYTES * usize::from(strip) + place;
    usize::from(u16::from_be_bytes([board[at], board[at + 1]]))
}

/// The difference in words where the two are not the same.
fn agree<T: PartialEq + fmt::Debug>(what: fmt::Arguments, due: T, found: T) -> Result<(), String> {
    if due == found {
        Ok(())
    } else {
        Err(format!("{what}: {due:?} is due, {found:?} found"))
    }
}

// ---------------------------------------------------------------- book and answers together

/// A present console: its head, for every version whether it leads there, the entries that it has heard, by the book; and the board
/// that it shows.
struct Present {
    console: u8,
    head: usize,
    leading: Vec<bool>,
    heard: Vec<(usize, Entry)>,
    board: Board,
}

impl Book {
    /// Compares all that demand 3 says, of present and of absent consoles, and the origins as far as the book knows them, with what the
    /// calls answer of this store. The first difference in words, or how many pairs of consoles, in both orders, have heard the same
    /// entries.
    pub fn check(&self, calls: &Calls, store: &[u8]) -> Result<usize, String> {
        let answers = &Answers { calls, store };
        let count = self.versions.len();
        agree(format_args!("versions"), count, answers.version_count())?;
        let present = self.present(answers)?;
        for one in &present {
            check_heard(answers, one)?;
            check_origins(answers, one)?;
        }
        let mut alike = 0;
        for (one, other) in pairs_of(&present) {
            self.check_common(answers, one, other)?;
            alike += usize::from(check_alike(one, other)?);
        }
        Ok(alike)
    }

    /// The present consoles, which must be the store's, and on the same heads; the others must be absent from it.
    fn present(&self, answers: &Answers) -> Result<Vec<Present>, String> {
        let mut present = Vec::new();
        for (console, head) in (0..).zip(self.heads) {
            match head {
                Some(head) => present.push(self.check_present(answers, console, head)?),
                None => check_absent(answers, console)?,
            }
        }
        Ok(present)
    }

    /// A console that has a head in the book is on it in the store, and shows a board.
    fn check_present(
        &self,
        answers: &Answers,
        console: u8,
        head: usize,
    ) -> Result<Present, String> {
        let due = reply_of(Ok(head));
        let found = answers.common(console, console);
        agree(format_args!("the head of {console}"), due, found)?;
        let due = reply_of(Ok(BOARD_BYTES));
        let (found, board) = answers.board(console);
        agree(format_args!("copying the board of {console}"), due, found)?;
        let leading = self.leading_to(head);
        Ok(Present {
            console,
            head,
            heard: self.entries_of(&leading),
            leading,
            board,
        })
    }

    /// The common version leads to both heads, and every version common to both leads to it.
    fn check_common(
        &self,
        answers: &Answers,
        one: &Present,
        other: &Present,
    ) -> Result<(), String> {
        let reply = answers.common(one.console, other.console);
        let both = one.leading.iter().zip(&other.leading);
        let to_both: Vec<bool> = both.map(|(one, other)| one & other).collect();
        let version = reply.count as usize;
        let is_right = reply.answer == 0
            && version < self.versions.len()
            && self.leading_to(version) == to_both;
        let (first, second) = (one.console, other.console);
        let what = format_args!("{reply:?} is the common of {first} and {second}");
        agree(what, true, is_right)
    }
}

/// A console that has no head in the book is absent from the store: each question about it is refused, and it can be forked.
fn check_absent(answers: &Answers, console: u8) -> Result<(), String> {
    let absent = reply_of(Err(ABSENT));
    let what = format_args!("the entries heard by {console}, who is absent");
    agree(what, absent, answers.heard(console))?;
    let what = format_args!("the board of {console}, who is absent");
    let untouched = [FILLER; BOARD_BYTES];
    agree(what, (absent, untouched), answers.board(console))?;
    for (cell, ..) in CELLS {
        let what = format_args!("the origin of 0, {cell} with {console}, who is absent");
        agree(what, absent, answers.origin(console, 0, cell))?;
    }
    for other in 0..CONSOLES as u8 {
        let found = [
            answers.common(console, other),
            answers.common(other, console),
        ];
        let what = format_args!("the commons of {console}, who is absent, and {other}");
        agree(what, [absent; 2], found)?;
    }
    let what = format_args!("a fork of 0 to {console}, who is absent");
    agree(what, reply_of(Ok(0)), answers.fork(console, 0))
}

/// Every two different consoles, in both orders.
fn pairs_of(present: &[Present]) -> impl Iterator<Item = (&Present, &Present)> {
    let pairs = present
        .iter()
        .flat_map(move |one| present.iter().map(move |other| (one, other)));
    pairs.filter(|(one, other)| one.console != other.console)
}

/// The heard count, and the call counter of every strip.
fn check_heard(answers: &Answers, one: &Present) -> Result<(), String> {
    let console = one.console;
    let due = reply_of(Ok(one.heard.len()));
    let what = format_args!("the entries heard by {console}");
    agree(what, due, answers.heard(console))?;
    for strip in 0..STRIPS {
        let is_call = |(_, entry): &&(usize, Entry)| *entry == (CALL_COUNTED, strip);
        let due = one.heard.iter().filter(is_call).count();
        let what = format_args!("the calls of strip {strip} with {console}");
        agree(what, due, cell_of(&one.board, strip, CALLS_AT))?;
    }
    Ok(())
}

/// Where an origin is above 0, it is an entry that the console has heard and that writes this cell; else the cell shows 0.
fn check_origins(answers: &Answers, one: &Present) -> Result<(), String> {
    let console = one.console;
    let cells = (0..STRIPS_OF_ORIGINS).flat_map(|strip| CELLS.map(|cell| (strip, cell)));
    for (strip, (cell, writing_code, place)) in cells {
        let reply = answers.origin(console, strip, cell);
        let origin = (reply.count as usize, (writing_code, strip));
        let is_none = reply.count == 0 && cell_of(&one.board, strip, place) == 0;
        let is_right = reply.answer == 0 && (is_none || one.heard.contains(&origin));
        let what = format_args!("{reply:?} is the origin of {strip}, {cell} with {console}");
        agree(what, true, is_right)?;
    }
    Ok(())
}

/// Two consoles that have heard the same entries are on the same version and show the same board; whether these are such.
fn check_alike(one: &Present, other: &Present) -> Result<bool, String> {
    if one.heard != other.heard {
        return Ok(false);
    }
    let (first, second) = (one.console, other.console);
    let what = format_args!("the heads of {first} and {second}, who heard the same");
    agree(what, one.head, other.head)?;
    let what = format_args!("the boards of {first} and {second}, who heard the same");
    agree(what, one.board, other.board)?;
    Ok(true)
}
