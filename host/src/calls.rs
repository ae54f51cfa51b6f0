// The calls on lent bytes, as the paper and the requests say what each answers and writes, and the session program.

use crate::layout;
use crate::model::{
    capacity_is_in_range, cell_origin, choice, command_length, common_version, console_board,
    decode, heard_count, refusal, refuse_if, reported, room_of_tape, shown_to_instructor,
    shown_to_student, sound_boards, step, tape_of, verdict, Ancestry, Board, Cell, Room, Verdict,
    CONSOLES, STRIPS,
};

/// The answer is 0 or the refusal; the count is the question's number, the bytes written, the place of a view or the clashes of a merge,
/// else 0. It is the unit's own struct, so that its calls and the model's have one form.
pub use room::ffi::Reply;

pub(crate) fn reply_of(outcome: Result<usize, u32>) -> Reply {
    match outcome {
        Ok(count) => Reply {
            answer: 0,
            count: count as u32,
        },
        Err(refusal) => Reply {
            answer: refusal,
            count: 0,
        },
    }
}

/// What a reply to the question which two can meet says; nothing for a refusal.
pub fn verdict_in(reply: Reply) -> Option<Verdict> {
    match reply.answer {
        0 => Verdict::of_number(reply.count),
        _ => None,
    }
}

// ---------------------------------------------------------------- the calls

pub fn open(capacity: u32, store: &mut [u8]) -> Reply {
    let outcome = opened_room(capacity).and_then(|room| write_store(&room, store));
    reply_of(outcome)
}

pub fn command(store: &mut [u8], command: &[u8]) -> Reply {
    reply_of(obey(store, command))
}

pub fn pause(store: &[u8], tape: &mut [u8]) -> Reply {
    let outcome = room_in(store).and_then(|room| write_front(&tape_of(&room), tape));
    reply_of(outcome)
}

pub fn resume(tape: &[u8], store: &mut [u8]) -> Reply {
    let outcome = room_of_tape(tape).and_then(|room| write_store(&room, store));
    reply_of(outcome)
}

pub fn board(store: &[u8], console: u32, board: &mut [u8]) -> Reply {
    reply_of(copy_out(store, console, board, Board::clone))
}

pub fn student_pane(store: &[u8], console: u32, pane: &mut [u8]) -> Reply {
    reply_of(copy_out(store, console, pane, shown_to_student))
}

pub fn instructor_pane(store: &[u8], console: u32, pane: &mut [u8]) -> Reply {
    reply_of(copy_out(store, console, pane, shown_to_instructor))
}

pub fn heard(store: &[u8], console: u32) -> Reply {
    reply_of(heard_number(store, console))
}

pub fn common(store: &[u8], first: u32, second: u32) -> Reply {
    reply_of(common_number(store, first, second))
}

pub fn origin(store: &[u8], console: u32, strip: u32, cell: u32) -> Reply {
    reply_of(origin_number(store, console, strip, cell))
}

pub fn mergeable(store: &[u8]) -> Reply {
    reply_of(room_in(store).map(|room| verdict(&room).number()))
}

/// Why there is no view with these operands, or 0.
pub fn view_refusal(live: &[u8], frozen: &[u8], console: u32, choice: u32) -> Reply {
    reply_of(viewed(live, frozen, console, choice).map(|_| 0))
}

/// Where the board viewed stands in the store chosen.
pub fn view_at(live: &[u8], frozen: &[u8], console: u32, choice: u32) -> Reply {
    reply_of(viewed(live, frozen, console, choice).map(|view| view.place))
}

/// The board viewed as a part of the store chosen; a refusal gives a part of length 0.
pub fn view<'a>(live: &'a [u8], frozen: &'a [u8], console: u32, choice: u32) -> &'a [u8] {
    viewed(live, frozen, console, choice).map_or(&[], View::part)
}

// ---------------------------------------------------------------- what they are made of

/// The room that the lent bytes hold, or refusal 11.
fn room_in(store: &[u8]) -> Result<Room, u32> {
    layout::read(store).ok_or(refusal::NO_SOUND_STORE)
}

/// Writes the bytes at the front of the lent buffer and says how many, or refusal 19.
fn write_front(bytes: &[u8], lent: &mut [u8]) -> Result<usize, u32> {
    let front = lent
        .get_mut(..bytes.len())
        .ok_or(refusal::BUFFER_TOO_SHORT)?;
    front.copy_from_slice(bytes);
    Ok(bytes.len())
}

/// Writes the room's encoding at the front of the lent store; opening and resume count 0.
fn write_store(room: &Room, store: &mut [u8]) -> Result<usize, u32> {
    write_front(&layout::encode(room), store)?;
    Ok(0)
}

fn opened_room(capacity: u32) -> Result<Room, u32> {
    let capacity = capacity as usize;
    refuse_if(
        !capacity_is_in_range(capacity),
        refusal::CAPACITY_OUT_OF_RANGE,
    )?;
    Ok(Room::opened(capacity))
}

/// Takes the store through a command. What is written and what is reported come from one working of the boards.
fn obey(store: &mut [u8], command: &[u8]) -> Result<usize, u32> {
    let decoded = decode(command)?;
    let room = step(&room_in(store)?, &decoded)?;
    let ancestry = Ancestry::new(&room);
    let boards = sound_boards(&room, &ancestry);
    write_front(&layout::encode_boards(&room, &ancestry, &boards), store)?;
    Ok(reported(&decoded, &boards))
}

/// The console that a question names, or refusal 3.
fn asked_console(console: u32) -> Result<usize, u32> {
    let console = console as usize;
    refuse_if(console >= CONSOLES, refusal::CONSOLE_TOO_HIGH)?;
    Ok(console)
}

/// The strip that a question names, or refusal 4.
fn asked_strip(strip: u32) -> Result<usize, u32> {
    let strip = strip as usize;
    refuse_if(strip >= STRIPS, refusal::STRIP_TOO_HIGH)?;
    Ok(strip)
}

/// The cell that a question names, or refusal 5.
fn asked_cell(cell: u32) -> Result<Cell, u32> {
    Cell::of_number(cell).ok_or(refusal::OPERAND_TOO_HIGH)
}

/// Writes what is shown of a console's board at the front of the lent output and says how many bytes.
fn copy_out(
    store: &[u8],
    console: u32,
    output: &mut [u8],
    shown: fn(&Board) -> Board,
) -> Result<usize, u32> {
    let console = asked_console(console)?;
    let room = room_in(store)?;
    let board = console_board(&room, console).ok_or(refusal::CONSOLE_ABSENT)?;
    write_front(&layout::board_bytes(&shown(&board)), output)
}

/// A board where it stands: the store chosen, and the place in it.
struct View<'a> {
    store: &'a [u8],
    place: usize,
}

impl<'a> View<'a> {
    fn part(self) -> &'a [u8] {
        &self.store[self.place..self.place + layout::BOARD_BYTES]
    }
}

/// The store that a view chooses, or refusal 5. The other one is not looked at.
fn chosen_store<'a>(live: &'a [u8], frozen: &'a [u8], choice: u32) -> Result<&'a [u8], u32> {
    match choice {
        choice::LIVE => Ok(live),
        choice::FROZEN => Ok(frozen),
        _ => Err(refusal::OPERAND_TOO_HIGH),
    }
}

fn viewed<'a>(
    live: &'a [u8],
    frozen: &'a [u8],
    console: u32,
    choice: u32,
) -> Result<View<'a>, u32> {
    let console = asked_console(console)?;
    let store = chosen_store(live, frozen, choice)?;
    let head = room_in(store)?.head(console);
    let place = layout::board_at(head.ok_or(refusal::CONSOLE_ABSENT)?);
    Ok(View { store, place })
}

fn heard_number(store: &[u8], console: u32) -> Result<usize, u32> {
    let console = asked_console(console)?;
    heard_count(&room_in(store)?, console).ok_or(refusal::CONSOLE_ABSENT)
}

fn common_number(store: &[u8], first: u32, second: u32) -> Result<usize, u32> {
    let first = asked_console(first)?;
    let second = asked_console(second)?;
    common_version(&room_in(store)?, first, second).ok_or(refusal::CONSOLE_ABSENT)
}

fn origin_number(store: &[u8], console: u32, strip: u32, cell: u32) -> Result<usize, u32> {
    let console = asked_console(console)?;
    let strip = asked_strip(strip)?;
    let cell = asked_cell(cell)?;
    cell_origin(&room_in(store)?, console, strip, cell).ok_or(refusal::CONSOLE_ABSENT)
}

// ---------------------------------------------------------------- the session program

const SESSION_CAPACITY: u32 = 64;

/// What the program of "Sessions to check" prints for an input; and what the lines don't tell: the codes of the commands, each with its
/// answer, and the clashes of the merges.
#[derive(Default)]
pub struct Told {
    pub printed: String,
    pub answers: Vec<(u8, u32)>,
    pub clashes: u32,
}

pub fn session(input: &[u8]) -> Told {
    let mut store = vec![0; layout::store_bytes(SESSION_CAPACITY as usize)];
    open(SESSION_CAPACITY, &mut store);
    let mut session = Told::default();
    let mut rest = input;
    let mut ordinal = 1;
    while !rest.is_empty() {
        let (next, behind) = rest.split_at(next_length(rest));
        let Reply { answer, count } = command(&mut store, next);
        let head = shown_head(&store, answer, next);
        session.printed += &format!("{ordinal} {answer} {head}\n");
        session.answers.push((next[0], answer));
        session.clashes += count;
        if answer == refusal::NO_SUCH_COMMAND || answer == refusal::WRONG_LENGTH {
            break;
        }
        rest = behind;
        ordinal += 1;
    }
    session.printed += &format!("end {}\n", version_count(&store));
    session
}

/// How many bytes are taken as the next command: a whole one, what is there of one, or an unknown code alone.
fn next_length(rest: &[u8]) -> usize {
    let length = rest.first().and_then(|&code| command_length(code));
    length.unwrap_or(1).min(rest.len())
}

/// The head of the console in the first operand, or `-`.
fn shown_head(store: &[u8], answer: u32, command: &[u8]) -> String {
    let head = match command.get(1) {
        Some(&console) if answer != refusal::NO_SUCH_COMMAND => {
            layout::read(store).and_then(|room| room.head(usize::from(console)))
        }
        _ => None,
    };
    head.map_or("-".to_string(), |version| version.to_string())
}

fn version_count(store: &[u8]) -> usize {
    layout::read(store).map_or(0, |room| room.versions.len())
}
