// The store of a tape, judged before the first byte is written.

use super::fields::{
    number, Block, Header, BOARD_AT, COMMONS_AT, COMMONS_END, CONSOLES, ENTRY_ROW_AT,
    HIGHEST_CAPACITY, ROW_AT,
};
use super::questions::{begin_header, lent_parts};
use super::rows::{bits_below, both, either, put_row, same, with_bit};
use super::sound::{all_commons, capacity_is_in_range};
use super::versions::{begin_block, fill_entry, fill_merge, Entry, Node};
use crate::model::{refusal, refuse_if};

/// A tape of whole records in their order. The version records are well formed; fields may be out of range.
struct Tape<'a> {
    capacity: usize,
    count: usize,
    versions: &'a [u8],
    heads: &'a [[u8; 4]],
    hub: bool,
    versions_are_in_range: bool,
}

pub(super) fn read_tape(tape: &[u8], store: &mut [u8]) -> Result<usize, u32> {
    let tape = split_tape(tape).ok_or(refusal::NOT_A_TAPE)?;
    refuse_if(
        !capacity_is_in_range(tape.capacity),
        refusal::CAPACITY_OUT_OF_RANGE,
    )?;
    refuse_if(!tape_is_in_range(&tape), refusal::TAPE_OUT_OF_RANGE)?;
    match tape.count {
        0..=64 => resume_graph::<64, 1>(&tape, store),
        65..=128 => resume_graph::<128, 2>(&tape, store),
        129..=256 => resume_graph::<256, 4>(&tape, store),
        257..=512 => resume_graph::<512, 8>(&tape, store),
        _ => resume_graph::<HIGHEST_CAPACITY, 16>(&tape, store),
    }
}

/// The version record at the front and what is behind it; nothing where there is no whole version record.
fn split_version(tape: &[u8]) -> Option<(Node, &[u8])> {
    match *tape {
        [0x21, high, low, code, strip, operand_high, operand_low, ref rest @ ..] => {
            let entry = Entry {
                parent: usize::from(u16::from_be_bytes([high, low])),
                code,
                strip,
                operand: u16::from_be_bytes([operand_high, operand_low]),
            };
            Some((Node::Entry(entry), rest))
        }
        [0x22, high, low, giver_high, giver_low, ref rest @ ..] => {
            let merged = Node::Merge {
                receiver: usize::from(u16::from_be_bytes([high, low])),
                giver: usize::from(u16::from_be_bytes([giver_high, giver_low])),
            };
            Some((merged, rest))
        }
        _ => None,
    }
}

fn split_tape(tape: &[u8]) -> Option<Tape<'_>> {
    let [0x20, high, low, ref versions @ ..] = *tape else {
        return None;
    };
    let mut rest = versions;
    let mut count = 1;
    let mut versions_are_in_range = true;
    while let Some((node, behind)) = split_version(rest) {
        versions_are_in_range &= match node {
            Node::Entry(entry) => entry.parent < count && entry.is_in_range(),
            Node::Merge { receiver, giver } => receiver < count && giver < count,
        };
        count += 1;
        rest = behind;
    }
    let [ref heads @ .., 0x24] = *rest else {
        return None;
    };
    // A head's record has four bytes and the hub's one, so that the hub's is left over.
    let (heads, left) = heads.as_chunks::<4>();
    let hub = match *left {
        [] => false,
        [0x25] => true,
        _ => return None,
    };
    let are_heads = !heads.is_empty() && heads.iter().all(|record| record[0] == 0x23);
    are_heads.then_some(Tape {
        capacity: usize::from(u16::from_be_bytes([high, low])),
        count,
        versions,
        heads,
        hub,
        versions_are_in_range,
    })
}

fn head_in(record: &[u8; 4]) -> (usize, usize) {
    (usize::from(record[1]), number(record, 2))
}

fn tape_is_in_range(tape: &Tape) -> bool {
    let rising = tape.heads.windows(2).all(|pair| pair[0][1] < pair[1][1]);
    let in_range = |record: &[u8; 4]| {
        let (console, version) = head_in(record);
        console < CONSOLES && version < tape.count
    };
    tape.count <= tape.capacity
        && tape.versions_are_in_range
        && tape.heads[0][1] == 0
        && rising
        && tape.heads.iter().all(in_range)
}

/// The ancestry rows and bases of a tape's versions, as many words to a row as N versions need.
struct Graph<const N: usize, const W: usize> {
    rows: [[u64; W]; N],
    bases: [u16; N],
}

impl<const N: usize, const W: usize> Graph<N, W> {
    /// The single lowest common ancestor. All common ancestors lead to the highest of them, or there is none.
    fn lowest_common(&self, one: usize, other: usize) -> Option<usize> {
        let shared = both(&self.rows[one], &self.rows[other]);
        let (word, bits) = shared.iter().enumerate().rfind(|(_, bits)| **bits != 0)?;
        let highest = 64 * word + bits.ilog2() as usize;
        same(&self.rows[highest], &shared).then_some(highest)
    }

    /// Rows and bases of all versions, where every merge has a base that is neither of its parents.
    fn of_versions(tape: &Tape) -> Option<Graph<N, W>> {
        let mut graph = Graph {
            rows: [[0; W]; N],
            bases: [0; N],
        };
        graph.rows[0][0] = 1;
        let mut rest = tape.versions;
        for version in 1..tape.count {
            let (node, behind) = split_version(rest)?;
            rest = behind;
            let grown = match node {
                Node::Entry(entry) => graph.rows[entry.parent],
                Node::Merge { receiver, giver } => {
                    let base = graph.lowest_common(receiver, giver)?;
                    if base == receiver || base == giver {
                        return None;
                    }
                    graph.bases[version] = base as u16;
                    either(&graph.rows[receiver], &graph.rows[giver])
                }
            };
            graph.rows[version] = with_bit(grown, version);
        }
        Some(graph)
    }

    /// The table of commons as fields, where every two heads have a common version and every version leads to a head.
    fn commons(&self, tape: &Tape) -> Option<Commons> {
        let mut fields = Commons::default();
        let mut covered = [0; W];
        for (place, record) in tape.heads.iter().enumerate() {
            covered = either(&covered, &self.rows[head_in(record).1]);
            self.put_commons(&mut fields, record, &tape.heads[..=place])?;
        }
        let all = bits_below(tape.count);
        covered.iter().eq(&all[..W]).then_some(fields)
    }

    /// Whether there is no hub, or these commons, which are the tape's, can have one.
    fn hub_is_sound(&self, tape: &Tape, commons: &Commons) -> bool {
        let (_, hub_head) = head_in(&tape.heads[0]);
        let behind_hub = &self.rows[hub_head];
        let can_make_hub = || {
            all_commons(
                |console, other| commons[console][other].into(),
                |common| behind_hub[common / 64] >> (common % 64) & 1 == 1,
            )
        };
        !tape.hub || can_make_hub()
    }

    /// Puts a console's common versions with these others, where it has them.
    fn put_commons(
        &self,
        fields: &mut Commons,
        record: &[u8; 4],
        others: &[[u8; 4]],
    ) -> Option<()> {
        let (console, head) = head_in(record);
        for record in others {
            let (other, other_head) = head_in(record);
            let field = self.lowest_common(head, other_head)? as u16 + 1;
            fields[console][other] = field;
            fields[other][console] = field;
        }
        Some(())
    }
}

/// The table of commons as it stands in a header.
type Commons = [[u16; CONSOLES]; CONSOLES];

// Not inlined, so that a short tape doesn't pay for the rows of a long one.
#[inline(never)]
fn resume_graph<const N: usize, const W: usize>(
    tape: &Tape,
    store: &mut [u8],
) -> Result<usize, u32> {
    let graph = Graph::<N, W>::of_versions(tape).ok_or(refusal::TAPE_NOT_SOUND)?;
    let commons = graph.commons(tape).ok_or(refusal::TAPE_NOT_SOUND)?;
    refuse_if(!graph.hub_is_sound(tape, &commons), refusal::TAPE_NOT_SOUND)?;
    let (header, blocks) = lent_parts(store, tape.capacity)?;
    begin_header(header, tape.capacity, tape.hub, tape.count);
    let fields = header[COMMONS_AT..COMMONS_END].as_chunks_mut().0;
    for (bytes, field) in fields.iter_mut().zip(commons.as_flattened()) {
        *bytes = field.to_be_bytes();
    }
    let (held, unused) = blocks.split_at_mut(tape.count);
    unused.as_flattened_mut().fill(0);
    held[0].fill(0);
    held[0][ROW_AT] = 1;
    write_versions(&graph, tape, header, held);
    Ok(0)
}

/// The blocks of the tape's versions, and their row of entries.
fn write_versions<const N: usize, const W: usize>(
    graph: &Graph<N, W>,
    tape: &Tape,
    header: &mut Header,
    held: &mut [Block],
) {
    let mut rest = tape.versions;
    for version in 1..tape.count {
        let Some((node, behind)) = split_version(rest) else {
            break;
        };
        rest = behind;
        let (earlier, block) = begin_block(held, version);
        block[ROW_AT..BOARD_AT].fill(0);
        put_row(block, ROW_AT, &graph.rows[version]);
        match node {
            Node::Entry(entry) => {
                header[ENTRY_ROW_AT + version / 8] |= 1 << (version % 8);
                fill_entry(&earlier[entry.parent], block, &entry);
            }
            Node::Merge { receiver, giver } => {
                let base = usize::from(graph.bases[version]);
                fill_merge(earlier, block, (receiver, giver), base);
            }
        }
    }
}
