// What an entry writes on a strip, and boards merged 16 bits at a time by masks over their cells.

use super::fields::{Block, BOARD_AT, STRIP_BYTES};

/// A strip after an entry that is in range.
pub(super) fn changed_strip(
    parent: [u8; STRIP_BYTES],
    code: u8,
    operand: u16,
) -> [u8; STRIP_BYTES] {
    let mut strip = parent;
    let mut change = |place: usize, rule: &dyn Fn(u16) -> u16| {
        let cell = u16::from_be_bytes([strip[place], strip[place + 1]]);
        strip[place..place + 2].copy_from_slice(&rule(cell).to_be_bytes());
    };
    match code {
        0x02 => change(0, &|_| operand),
        0x03 => change(2, &|_| operand),
        0x04 => change(4, &|marks| marks | 1 << operand),
        0x05 => change(4, &|marks| marks & !(1 << operand)),
        0x06 => change(6, &|calls| calls.wrapping_add(1)),
        0x07 => {
            change(8, &|alerts| alerts.wrapping_add(1));
            strip[10] = 1;
        }
        _ => strip[10] = 0,
    }
    strip
}

/// A board as cells of 16 bits, six to a strip; the flag's cell holds 0 or 256.
const CELLS: usize = 192;
type Cells = [[u8; 2]; CELLS];
type Mask = [u16; CELLS];

/// All ones at the cells of each strip from the first to the last.
const fn mask(first: usize, last: usize) -> Mask {
    let mut mask = [0; CELLS];
    let mut place = 0;
    while place < CELLS {
        if place % 6 >= first && place % 6 <= last {
            mask[place] = u16::MAX;
        }
        place += 1;
    }
    mask
}

static SETTINGS: Mask = mask(0, 1);
static MARKS: Mask = mask(2, 2);
static COUNTS: Mask = mask(3, 4);
static FLAGS: Mask = mask(5, 5);

/// The cells from a place of a block on; they lie within the block.
#[inline(always)]
pub(super) fn cells_at(block: &Block, place: usize) -> &Cells {
    let (cells, _) = block[place..place + 2 * CELLS].as_chunks();
    cells
        .first_chunk()
        .expect("so many bytes are so many cells")
}

fn ones_if(condition: bool) -> u16 {
    if condition {
        u16::MAX
    } else {
        0
    }
}

/// A merged cell, and 1 where base, receiver and giver all differ in a level or heading, else 0.
pub(super) struct MergedCell {
    pub(super) value: u16,
    pub(super) clash: u16,
}

/// The three boards of a merge, and for each cell the one before it, in which a flag finds its count.
pub(super) struct Sides<'a> {
    l: &'a Cells,
    a: &'a Cells,
    b: &'a Cells,
    l_before: &'a Cells,
    a_before: &'a Cells,
    b_before: &'a Cells,
}

impl Sides<'_> {
    #[inline(always)]
    pub(super) fn of<'a>(base: &'a Block, receiver: &'a Block, giver: &'a Block) -> Sides<'a> {
        Sides {
            l: cells_at(base, BOARD_AT),
            a: cells_at(receiver, BOARD_AT),
            b: cells_at(giver, BOARD_AT),
            l_before: cells_at(base, BOARD_AT - 2),
            a_before: cells_at(receiver, BOARD_AT - 2),
            b_before: cells_at(giver, BOARD_AT - 2),
        }
    }

    /// A merged cell. Each rule is worked out for each cell, and the masks choose: no branches, so that many cells are merged
    /// at a time. A side's alert count is never below the base's, so that it is above where it is another.
    #[inline(always)]
    pub(super) fn merged(&self, place: usize) -> MergedCell {
        let cell = |cells: &Cells| u16::from_be_bytes(cells[place]);
        let (l, a, b) = (cell(self.l), cell(self.a), cell(self.b));
        let a_above = ones_if(self.a_before[place] != self.l_before[place]);
        let b_above = ones_if(self.b_before[place] != self.l_before[place]);
        let kept = ones_if(a == l);
        let setting = (b & kept) | (a & !kept);
        let marks = (a & b) | (a & !l) | (b & !l);
        let count = a.wrapping_add(b).wrapping_sub(l);
        let flag = (a & b) | (a & a_above) | (b & b_above);
        let all_differ = !kept & ones_if(b != l) & ones_if(a != b);
        MergedCell {
            value: (setting & SETTINGS[place])
                | (marks & MARKS[place])
                | (count & COUNTS[place])
                | (flag & FLAGS[place]),
            clash: all_differ & SETTINGS[place] & 1,
        }
    }
}

pub(super) fn strips(block: &Block) -> &[[u8; STRIP_BYTES]] {
    block[BOARD_AT..].as_chunks().0
}

pub(super) fn strips_mut(block: &mut Block) -> &mut [[u8; STRIP_BYTES]] {
    block[BOARD_AT..].as_chunks_mut().0
}
