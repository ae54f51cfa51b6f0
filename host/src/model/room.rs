// A room: its versions and heads.

use super::CONSOLES;

/// One strip change on one parent. The fields may hold anything; `sound` says which are in range.
#[derive(Clone, Copy, Debug, PartialEq, Eq)]
pub struct Entry {
    pub parent: usize,
    pub code: u8,
    pub strip: u8,
    pub operand: u16,
}

#[derive(Clone, Copy, Debug, PartialEq, Eq)]
pub enum Version {
    /// Version 0: an empty board and no parent.
    Start,
    Entry(Entry),
    Merge {
        receiver: usize,
        giver: usize,
    },
}

#[derive(Clone, Debug, PartialEq, Eq)]
pub struct Room {
    pub capacity: usize,
    /// Whether console 0 is the hub, through which all meet; once it is, it is for good.
    pub hub: bool,
    pub versions: Vec<Version>,
    pub heads: [Option<usize>; CONSOLES],
}

impl Room {
    /// The room after opening: version 0 with console 0 on it.
    pub fn opened(capacity: usize) -> Room {
        let mut heads = [None; CONSOLES];
        heads[0] = Some(0);
        Room {
            capacity,
            hub: false,
            versions: vec![Version::Start],
            heads,
        }
    }

    /// The head of a console, or nothing where the console is absent or no console at all.
    pub fn head(&self, console: usize) -> Option<usize> {
        self.heads.get(console).copied().flatten()
    }

    /// The present consoles, rising.
    pub fn present(&self) -> Vec<usize> {
        (0..CONSOLES)
            .filter(|&console| self.heads[console].is_some())
            .collect()
    }

    /// The heads of the present consoles, consoles rising.
    pub fn present_heads(&self) -> Vec<usize> {
        self.heads.iter().copied().flatten().collect()
    }
}

/// The parents of a version: none, an entry's one, or a merge's two.
pub fn parents(version: &Version) -> impl Iterator<Item = usize> {
    let (first, second) = match *version {
        Version::Start => (None, None),
        Version::Entry(entry) => (Some(entry.parent), None),
        Version::Merge { receiver, giver } => (Some(receiver), Some(giver)),
    };
    first.into_iter().chain(second)
}
