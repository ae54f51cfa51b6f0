// Commands, and how their bytes are decoded or refused.

use super::sound::operand_is_in_range;
use super::{code, refusal, refuse_if, CONSOLES, STRIPS};

#[derive(Clone, Copy, Debug, PartialEq, Eq)]
pub enum Command {
    Fork {
        new: usize,
        old: usize,
    },
    Entry {
        console: usize,
        code: u8,
        strip: u8,
        operand: u16,
    },
    Merge {
        receiver: usize,
        giver: usize,
    },
    FastForward {
        receiver: usize,
        giver: usize,
    },
    Leave {
        console: usize,
    },
    MakeHub,
}

/// The length of a command, which its code alone decides; nothing for a code outside 01 to 0C.
pub fn command_length(command_code: u8) -> Option<usize> {
    match command_code {
        code::FORK => Some(3),
        code::LEVEL | code::HEADING => Some(5),
        code::MARK_PUT | code::MARK_TAKEN => Some(4),
        code::CALL_COUNTED | code::ALERT_ON | code::ALERT_OFF => Some(3),
        code::MERGE | code::FAST_FORWARD => Some(3),
        code::LEAVE => Some(2),
        code::MAKE_HUB => Some(1),
        _ => None,
    }
}

/// A command decoded whole, or the first that applies of the refusals 1 to 6 and then 20.
pub fn decode(bytes: &[u8]) -> Result<Command, u32> {
    let length = bytes.first().and_then(|&first| command_length(first));
    refuse_if(length.is_none(), refusal::NO_SUCH_COMMAND)?;
    let command = split_command(bytes).ok_or(refusal::WRONG_LENGTH)?;
    refuse_if(names_too_high_console(&command), refusal::CONSOLE_TOO_HIGH)?;
    refuse_if(names_too_high_strip(&command), refusal::STRIP_TOO_HIGH)?;
    refuse_if(has_too_high_operand(&command), refusal::OPERAND_TOO_HIGH)?;
    refuse_if(
        names_same_console_twice(&command),
        refusal::SAME_CONSOLE_TWICE,
    )?;
    refuse_if(
        command == Command::Leave { console: 0 },
        refusal::CONSOLE_0_LEAVES,
    )?;
    Ok(command)
}

/// The operands of a command of a known code, in any range; nothing where the length isn't the code's.
fn split_command(bytes: &[u8]) -> Option<Command> {
    let entry = |console: u8, code: u8, strip: u8, operand: u16| Command::Entry {
        console: usize::from(console),
        code,
        strip,
        operand,
    };
    match *bytes {
        [code::FORK, new, old] => Some(Command::Fork {
            new: usize::from(new),
            old: usize::from(old),
        }),
        [code @ (code::LEVEL | code::HEADING), console, strip, high, low] => {
            Some(entry(console, code, strip, u16::from_be_bytes([high, low])))
        }
        [code @ (code::MARK_PUT | code::MARK_TAKEN), console, strip, mark] => {
            Some(entry(console, code, strip, u16::from(mark)))
        }
        [code @ (code::CALL_COUNTED | code::ALERT_ON | code::ALERT_OFF), console, strip] => {
            Some(entry(console, code, strip, 0))
        }
        [code::MERGE, receiver, giver] => Some(Command::Merge {
            receiver: usize::from(receiver),
            giver: usize::from(giver),
        }),
        [code::FAST_FORWARD, receiver, giver] => Some(Command::FastForward {
            receiver: usize::from(receiver),
            giver: usize::from(giver),
        }),
        [code::LEAVE, console] => Some(Command::Leave {
            console: usize::from(console),
        }),
        [code::MAKE_HUB] => Some(Command::MakeHub),
        _ => None,
    }
}

/// The consoles that a command names: two, the one of an entry or a leave, or none.
fn named_consoles(command: &Command) -> Vec<usize> {
    match *command {
        Command::Fork { new, old } => vec![new, old],
        Command::Entry { console, .. } | Command::Leave { console } => vec![console],
        Command::Merge { receiver, giver } => vec![receiver, giver],
        Command::FastForward { receiver, giver } => vec![receiver, giver],
        Command::MakeHub => vec![],
    }
}

fn names_too_high_console(command: &Command) -> bool {
    let mut named = named_consoles(command).into_iter();
    named.any(|console| console >= CONSOLES)
}

fn names_too_high_strip(command: &Command) -> bool {
    matches!(*command, Command::Entry { strip, .. } if usize::from(strip) >= STRIPS)
}

fn has_too_high_operand(command: &Command) -> bool {
    matches!(*command, Command::Entry { code, operand, .. } if !operand_is_in_range(code, operand))
}

fn names_same_console_twice(command: &Command) -> bool {
    matches!(named_consoles(command)[..], [first, second] if first == second)
}
