// Which two can meet.

use super::fields::{common_field, head_of, Block, Header, CONSOLES};
use super::pause::present;
use super::rows::has_bit;
use super::sound::sound_parts;

const ALL_AGREE: usize = 0;
const STUCK: usize = 256;
const MERGE: usize = 512;
const FAST_FORWARD: usize = 768;

/// The number of the first pair that can meet, or of there being none.
pub(super) fn find_pair(store: &[u8]) -> Result<usize, u32> {
    let (header, blocks) = sound_parts(store)?;
    let (lowest, heads) = lowest_on_each_head(header);
    let mut search = PairSearch {
        header,
        blocks,
        consoles: &lowest[..heads],
        in_the_way: 0,
    };
    Ok(match heads {
        1 => ALL_AGREE,
        _ => search.first().unwrap_or(STUCK),
    })
}

/// Of the consoles on each head the lowest, rising, and how many heads there are.
///
/// These are all that is looked at. Consoles on one head can't meet. They have the same commons with any other, so that with it the lowest
/// can do what a higher one can, and in an earlier pair. And a third console on the head of one of two is never in the way of their merge:
/// its commons with them are that head and a version behind it.
fn lowest_on_each_head(header: &Header) -> ([usize; CONSOLES], usize) {
    let mut lowest = [0; CONSOLES];
    let mut heads = 0;
    for console in present(header) {
        let head = head_of(header, console);
        let mut others = lowest[..heads].iter();
        if others.all(|&other| head_of(header, other) != head) {
            lowest[heads] = console;
            heads += 1;
        }
    }
    (lowest, heads)
}

/// A search among consoles no two of which are on one head.
struct PairSearch<'a> {
    header: &'a Header,
    blocks: &'a [Block],
    consoles: &'a [usize],
    /// The third console that was in the way last: it is often in the way again.
    in_the_way: usize,
}

impl PairSearch<'_> {
    /// The number of the first pair that can meet. With a hub that is a pair with console 0, though nothing here asks for it: nothing is
    /// then in the way of 0, which takes from the first that is not behind it, and where all are, the first of them takes from 0.
    fn first(&mut self) -> Option<usize> {
        self.consoles.iter().find_map(|&receiver| {
            self.consoles.iter().find_map(|&giver| {
                let kind = self.kind_of(receiver, giver)?;
                Some(kind + 16 * receiver + giver)
            })
        })
    }

    /// What these two can do. Their common version is the head of the one that is behind. The tests of a merge are the same with the
    /// two exchanged, so one with the receiver above the giver has been tried before, in vain.
    fn kind_of(&mut self, receiver: usize, giver: usize) -> Option<usize> {
        let common = common_field(self.header, receiver, giver);
        if common == common_field(self.header, giver, giver) {
            None
        } else if common == common_field(self.header, receiver, receiver) {
            Some(FAST_FORWARD)
        } else {
            (receiver < giver && !self.is_in_the_way(receiver, giver)).then_some(MERGE)
        }
    }

    /// Whether a third console is in the way of a merge. The two themselves are not, like any console on their heads.
    fn is_in_the_way(&mut self, receiver: usize, giver: usize) -> bool {
        if self.tears(self.in_the_way, receiver, giver) {
            return true;
        }
        let mut thirds = self.consoles.iter().copied();
        match thirds.find(|&third| self.tears(third, receiver, giver)) {
            Some(third) => {
                self.in_the_way = third;
                true
            }
            None => false,
        }
    }

    /// Whether a third one's commons with the two are apart. An ancestor has the lower number, so one bit tells.
    fn tears(&self, third: usize, receiver: usize, giver: usize) -> bool {
        let one = common_field(self.header, third, receiver);
        let other = common_field(self.header, third, giver);
        !has_bit(&self.blocks[one.max(other) - 1], one.min(other) - 1)
    }
}
