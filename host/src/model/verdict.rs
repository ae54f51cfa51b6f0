// Which two consoles can meet.

use super::command::Command;
use super::room::Room;
use super::step::step;
use super::CONSOLES;

/// What the question which two can meet answers.
#[derive(Clone, Copy, Debug, PartialEq, Eq)]
pub enum Verdict {
    /// Every head is one version.
    AllAgree,
    /// Heads differ, and no two can meet.
    Stuck,
    Merge {
        receiver: usize,
        giver: usize,
    },
    FastForward {
        receiver: usize,
        giver: usize,
    },
}

impl Verdict {
    /// 256 × the kind, and for a pair 16 × receiver + giver more.
    pub fn number(self) -> usize {
        match self {
            Verdict::AllAgree => 0,
            Verdict::Stuck => 256,
            Verdict::Merge { receiver, giver } => 2 * 256 + 16 * receiver + giver,
            Verdict::FastForward { receiver, giver } => 3 * 256 + 16 * receiver + giver,
        }
    }

    /// The answer that a number stands for; nothing for a number that stands for none.
    pub fn of_number(number: u32) -> Option<Verdict> {
        let (kind, of_pair) = (number / 256, number as usize % 256);
        let (receiver, giver) = (of_pair / 16, of_pair % 16);
        match kind {
            0 if of_pair == 0 => Some(Verdict::AllAgree),
            1 if of_pair == 0 => Some(Verdict::Stuck),
            2 if receiver != giver => Some(Verdict::Merge { receiver, giver }),
            3 if receiver != giver => Some(Verdict::FastForward { receiver, giver }),
            _ => None,
        }
    }
}

/// The first pair that can meet, receivers rising and for each the givers; where there is none, whether all agree.
pub fn verdict(room: &Room) -> Verdict {
    let receivers = 0..CONSOLES;
    let pairs = receivers.flat_map(|receiver| (0..CONSOLES).map(move |giver| (receiver, giver)));
    let mut of_two = pairs.filter(|(receiver, giver)| receiver != giver);
    let roomier = with_a_version_free(room);
    let first = of_two.find_map(|(receiver, giver)| verdict_of(&roomier, receiver, giver));
    first.unwrap_or(if all_agree(room) {
        Verdict::AllAgree
    } else {
        Verdict::Stuck
    })
}

/// The one of merge and fast-forward that is accepted of this pair, by the tests of the commands themselves.
fn verdict_of(room: &Room, receiver: usize, giver: usize) -> Option<Verdict> {
    if step(room, &Command::Merge { receiver, giver }).is_ok() {
        Some(Verdict::Merge { receiver, giver })
    } else if step(room, &Command::FastForward { receiver, giver }).is_ok() {
        Some(Verdict::FastForward { receiver, giver })
    } else {
        None
    }
}

/// The room as it would be if a version were free, also where it has as many as a store can hold.
fn with_a_version_free(room: &Room) -> Room {
    let mut roomier = room.clone();
    roomier.capacity = room.versions.len() + 1;
    roomier
}

/// Every head is one version.
fn all_agree(room: &Room) -> bool {
    let heads = room.present_heads();
    heads.iter().all(|&head| head == heads[0])
}
