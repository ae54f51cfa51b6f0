// Ancestors, the common version of two, and what a console has heard.

use super::room::{parents, Room, Version};
use std::cell::{OnceCell, RefCell};
use std::collections::HashMap;

/// The ancestors of one version, itself included, found by a search over parents.
pub fn search_ancestors(room: &Room, version: usize) -> Vec<bool> {
    let mut reached = vec![false; room.versions.len()];
    let mut waiting = vec![version];
    while let Some(next) = waiting.pop() {
        let Some(found) = room.versions.get(next) else {
            continue;
        };
        if !reached[next] {
            reached[next] = true;
            waiting.extend(parents(found));
        }
    }
    reached
}

/// The ancestors of a room's versions and the lowest common ones of two, each searched for once, when first asked for.
pub struct Ancestry<'a> {
    room: &'a Room,
    searched: Vec<OnceCell<Vec<bool>>>,
    lowest: RefCell<HashMap<(usize, usize), Option<usize>>>,
}

impl<'a> Ancestry<'a> {
    pub fn new(room: &'a Room) -> Ancestry<'a> {
        let searched = room.versions.iter().map(|_| OnceCell::new()).collect();
        Ancestry {
            room,
            searched,
            lowest: RefCell::default(),
        }
    }

    /// For every version, whether it is an ancestor of this one.
    pub fn of(&self, version: usize) -> &[bool] {
        self.searched[version].get_or_init(|| search_ancestors(self.room, version))
    }

    pub fn is_ancestor(&self, elder: usize, younger: usize) -> bool {
        self.of(younger)[elder]
    }

    /// The ancestors of both versions, the highest number first.
    pub fn common_ancestors(&self, one: usize, other: usize) -> Vec<usize> {
        let (of_one, of_other) = (self.of(one), self.of(other));
        (0..self.room.versions.len())
            .rev()
            .filter(|&version| of_one[version] && of_other[version])
            .collect()
    }

    /// The single lowest common ancestor.
    pub fn lowest_common(&self, one: usize, other: usize) -> Option<usize> {
        if let Some(&found) = self.lowest.borrow().get(&(one, other)) {
            return found;
        }
        let found = self.search_lowest_common(one, other);
        self.lowest.borrow_mut().insert((one, other), found);
        found
    }

    /// The base of a merge of a sound room.
    pub(super) fn base(&self, receiver: usize, giver: usize) -> usize {
        self.lowest_common(receiver, giver).unwrap_or(0)
    }

    /// The common ancestor to which every other one leads.
    fn search_lowest_common(&self, one: usize, other: usize) -> Option<usize> {
        let common = self.common_ancestors(one, other);
        let all_lead_to = |&lowest: &usize| {
            common
                .iter()
                .all(|&another| self.is_ancestor(another, lowest))
        };
        common.iter().copied().find(|version| all_lead_to(version))
    }
}

/// The common version of two present consoles; of a console with itself, its head.
pub fn common_version(room: &Room, first: usize, second: usize) -> Option<usize> {
    common_by(room, &Ancestry::new(room), first, second)
}

/// The same, with the room's ancestries lent by a caller who needs them again.
pub(super) fn common_by(
    room: &Room,
    ancestry: &Ancestry,
    first: usize,
    second: usize,
) -> Option<usize> {
    ancestry.lowest_common(room.head(first)?, room.head(second)?)
}

/// The number of entries among the ancestors of a present console's head.
pub fn heard_count(room: &Room, console: usize) -> Option<usize> {
    let heard = search_ancestors(room, room.head(console)?);
    let is_heard_entry =
        |version: &usize| heard[*version] && matches!(room.versions[*version], Version::Entry(_));
    Some((0..room.versions.len()).filter(is_heard_entry).count())
}
