// The secrets of a room: the entries that no student sees, as they belong to the instructor, and others put in their place. By request
// Eight every student's pane is then the same to the byte.

use crate::gen::{entry_bytes, some_strip, Change};
use crate::model::{code, decode, Command, Entry, Room, Version};
use crate::rng::Rng;

/// The first and the last of the marks that no student sees; said here anew, so that an error in the model's is found.
const FIRST_SECRET_MARK: u16 = 8;
const LAST_SECRET_MARK: u16 = 15;

/// Whether no student sees an entry that is in range: it counts a call, is of an alert, or of one of these marks.
fn is_secret(entry_code: u8, operand: u16) -> bool {
    match entry_code {
        code::CALL_COUNTED | code::ALERT_ON | code::ALERT_OFF => true,
        code::MARK_PUT | code::MARK_TAKEN => operand >= FIRST_SECRET_MARK,
        _ => false,
    }
}

/// A strip change that no student sees, of any of the five codes.
fn some_secret(rng: &mut Rng) -> Change {
    let entry_code = rng.between(code::MARK_PUT.into(), code::ALERT_OFF.into()) as u8;
    let operand = match entry_code {
        code::MARK_PUT | code::MARK_TAKEN => {
            rng.between(FIRST_SECRET_MARK.into(), LAST_SECRET_MARK.into())
        }
        _ => 0,
    };
    (entry_code, some_strip(rng), operand as u16)
}

/// In place of an entry that no student sees any other such entry of the same console: where the one makes a version, so does the
/// other. Every other command stays as it is, and so does what is no command.
pub fn other_command(rng: &mut Rng, command: &[u8]) -> Vec<u8> {
    match decode(command) {
        Ok(Command::Entry {
            console,
            code,
            operand,
            ..
        }) if is_secret(code, operand) => entry_bytes(console, some_secret(rng)),
        _ => command.to_vec(),
    }
}

/// The room with any other such entries at the same versions.
pub fn other_room(rng: &mut Rng, room: &Room) -> Room {
    with_secrets(room, || some_secret(rng))
}

/// The room in which each of them clears an alert flag. No strip has an alert, a call or one of the instructor's marks there, so that its
/// boards have nothing to hide.
pub fn silent_room(room: &Room) -> Room {
    with_secrets(room, || (code::ALERT_OFF, 0, 0))
}

fn with_secrets(room: &Room, mut secret: impl FnMut() -> Change) -> Room {
    let mut changed = room.clone();
    for version in &mut changed.versions {
        if let Version::Entry(entry) = version {
            if is_secret(entry.code, entry.operand) {
                let (code, strip, operand) = secret();
                *entry = Entry {
                    parent: entry.parent,
                    code,
                    strip,
                    operand,
                };
            }
        }
    }
    changed
}
