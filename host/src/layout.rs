// The store's bytes: a room written as its one encoding, and a room read back from bytes that hold a sound store.

use crate::model::{
    capacity_is_in_range, code, sound_boards, sound_by, Ancestry, Board, Entry, Room, Strip,
    Version, Worked, CONSOLES, MARKS,
};

pub const HEADER_BYTES: usize = 4096;
pub const BLOCK_BYTES: usize = 544;
pub const BOARD_BYTES: usize = 384;

pub const CAPACITY_AT: usize = 0;
pub const HUB_AT: usize = 2;
pub const VERSION_COUNT_AT: usize = 4;
pub const ENTRY_ROW_AT: usize = 128;
pub const COMMONS_AT: usize = 256;

/// Places of the fields within the block of a version.
pub const CODE_AT: usize = 0;
pub const STRIP_AT: usize = 1;
pub const OPERAND_AT: usize = 2;
pub const FIRST_PARENT_AT: usize = 4;
pub const GIVER_AT: usize = 6;
pub const BASE_AT: usize = 8;
pub const ANCESTRY_ROW_AT: usize = 32;
pub const BOARD_AT: usize = 160;

/// The bytes that a store of this capacity takes.
pub fn store_bytes(capacity: usize) -> usize {
    HEADER_BYTES + BLOCK_BYTES * capacity
}

/// Where the block of a version starts.
pub fn block_at(version: usize) -> usize {
    HEADER_BYTES + BLOCK_BYTES * version
}

/// Where the board of a version starts.
pub fn board_at(version: usize) -> usize {
    block_at(version) + BOARD_AT
}

/// Where the common version of two consoles stands.
pub fn common_at(console: usize, other: usize) -> usize {
    COMMONS_AT + 2 * (CONSOLES * console + other)
}

/// The field of the number of versions, where the bytes are long enough to have it.
pub fn version_count(store: &[u8]) -> Option<usize> {
    get_16_bits(store, VERSION_COUNT_AT)
}

/// Whether a sound store has no version free.
pub fn is_full(store: &[u8]) -> bool {
    version_count(store) == get_16_bits(store, CAPACITY_AT)
}

/// Whether console 0 is the hub in a sound store.
pub fn has_hub(store: &[u8]) -> bool {
    read_hub(store) == Some(true)
}

// ---------------------------------------------------------------- writing

/// The one encoding of a sound room.
pub fn encode(room: &Room) -> Vec<u8> {
    encode_by(room, &Ancestry::new(room))
}

fn encode_by(room: &Room, ancestry: &Ancestry) -> Vec<u8> {
    encode_boards(room, ancestry, &sound_boards(room, ancestry))
}

/// The same, with the room's boards lent by a caller who reads more of them.
pub fn encode_boards(room: &Room, ancestry: &Ancestry, boards: &[Worked<Board>]) -> Vec<u8> {
    let lowest = |one: usize, other: usize| ancestry.lowest_common(one, other).unwrap_or(0);
    encode_with(room, ancestry, &lowest, boards)
}

/// The bytes of a room with a choice of common versions, and of boards, that need not be the paper's.
/// Parents must be lower numbers, and the versions must fit the capacity.
pub fn encode_with(
    room: &Room,
    ancestry: &Ancestry,
    common_of: &dyn Fn(usize, usize) -> usize,
    boards: &[Worked<Board>],
) -> Vec<u8> {
    let mut bytes = vec![0; store_bytes(room.capacity)];
    put_header(&mut bytes, room, common_of);
    for (number, version) in room.versions.iter().enumerate() {
        let block = &mut bytes[block_at(number)..block_at(number + 1)];
        put_node(block, version, common_of);
        put_row(block, ANCESTRY_ROW_AT, ancestry.of(number));
        block[BOARD_AT..].copy_from_slice(&board_bytes(&boards[number].value));
    }
    bytes
}

fn put_16_bits(bytes: &mut [u8], place: usize, number: usize) {
    bytes[place..place + 2].copy_from_slice(&(number as u16).to_be_bytes());
}

/// Sets bit v of the row where the list says so of v.
fn put_row(bytes: &mut [u8], place: usize, in_row: &[bool]) {
    for (version, &set) in in_row.iter().enumerate() {
        if set {
            bytes[place + version / 8] |= 1 << (version % 8);
        }
    }
}

fn put_header(bytes: &mut [u8], room: &Room, common_of: &dyn Fn(usize, usize) -> usize) {
    put_16_bits(bytes, CAPACITY_AT, room.capacity);
    put_16_bits(bytes, HUB_AT, usize::from(room.hub));
    put_16_bits(bytes, VERSION_COUNT_AT, room.versions.len());
    let is_entry = |version: &Version| matches!(version, Version::Entry(_));
    let entries: Vec<bool> = room.versions.iter().map(is_entry).collect();
    put_row(bytes, ENTRY_ROW_AT, &entries);
    let present = room.present();
    let pairs = present
        .iter()
        .flat_map(|&console| present.iter().map(move |&other| (console, other)));
    for (console, other) in pairs {
        if let (Some(one_head), Some(other_head)) = (room.head(console), room.head(other)) {
            let common = common_of(one_head, other_head);
            put_16_bits(bytes, common_at(console, other), 1 + common);
        }
    }
}

fn put_node(block: &mut [u8], version: &Version, common_of: &dyn Fn(usize, usize) -> usize) {
    match *version {
        Version::Start => {}
        Version::Entry(entry) => {
            block[CODE_AT] = entry.code;
            block[STRIP_AT] = entry.strip;
            put_16_bits(block, OPERAND_AT, usize::from(entry.operand));
            put_16_bits(block, FIRST_PARENT_AT, entry.parent);
        }
        Version::Merge { receiver, giver } => {
            block[CODE_AT] = code::MERGE;
            put_16_bits(block, FIRST_PARENT_AT, receiver);
            put_16_bits(block, GIVER_AT, giver);
            put_16_bits(block, BASE_AT, common_of(receiver, giver));
        }
    }
}

/// The 384 bytes of a board.
pub fn board_bytes(board: &Board) -> Vec<u8> {
    board.iter().flat_map(strip_bytes).collect()
}

fn strip_bytes(strip: &Strip) -> [u8; 12] {
    let mut bytes = [0; 12];
    put_16_bits(&mut bytes, 0, usize::from(strip.level));
    put_16_bits(&mut bytes, 2, usize::from(strip.heading));
    put_16_bits(&mut bytes, 4, marks_number(strip));
    put_16_bits(&mut bytes, 6, strip.calls as usize);
    put_16_bits(&mut bytes, 8, strip.alert_count as usize);
    bytes[10] = u8::from(strip.alert_flag);
    bytes
}

/// Mark k is worth 2 to the k.
fn marks_number(strip: &Strip) -> usize {
    (0..MARKS)
        .filter(|&mark| strip.marks[mark])
        .map(|mark| 1 << mark)
        .sum()
}

// ---------------------------------------------------------------- reading

/// The room that the bytes hold, exactly where they hold a sound store at their front.
pub fn read(bytes: &[u8]) -> Option<Room> {
    let room = read_fields(bytes)?;
    if is_encoding_of_sound(bytes, &room) {
        Some(room)
    } else {
        None
    }
}

fn is_encoding_of_sound(bytes: &[u8], room: &Room) -> bool {
    let ancestry = Ancestry::new(room);
    sound_by(room, &ancestry) && bytes.starts_with(&encode_by(room, &ancestry))
}

fn get_16_bits(bytes: &[u8], place: usize) -> Option<usize> {
    match *bytes.get(place..place + 2)? {
        [high, low] => Some(usize::from(u16::from_be_bytes([high, low]))),
        _ => None,
    }
}

/// Whether console 0 is the hub; nothing for a field that is neither 0 nor 1.
fn read_hub(bytes: &[u8]) -> Option<bool> {
    match get_16_bits(bytes, HUB_AT)? {
        0 => Some(false),
        1 => Some(true),
        _ => None,
    }
}

/// Capacity, hub, number of versions, nodes and heads, where the bytes are long enough to have them.
fn read_fields(bytes: &[u8]) -> Option<Room> {
    let capacity = get_16_bits(bytes, CAPACITY_AT)?;
    let hub = read_hub(bytes)?;
    let version_count = version_count(bytes)?;
    let long_enough = bytes.len() >= store_bytes(capacity);
    if !capacity_is_in_range(capacity) || !long_enough || version_count > capacity {
        return None;
    }
    let mut versions = Vec::new();
    for number in 0..version_count {
        versions.push(read_node(bytes, number)?);
    }
    Some(Room {
        capacity,
        hub,
        versions,
        heads: read_heads(bytes)?,
    })
}

fn read_node(bytes: &[u8], number: usize) -> Option<Version> {
    if number == 0 {
        return Some(Version::Start);
    }
    let block = bytes.get(block_at(number)..block_at(number + 1))?;
    let first_parent = get_16_bits(block, FIRST_PARENT_AT)?;
    if block[CODE_AT] == code::MERGE {
        return Some(Version::Merge {
            receiver: first_parent,
            giver: get_16_bits(block, GIVER_AT)?,
        });
    }
    Some(Version::Entry(Entry {
        parent: first_parent,
        code: block[CODE_AT],
        strip: block[STRIP_AT],
        operand: get_16_bits(block, OPERAND_AT)? as u16,
    }))
}

/// The heads stand on the diagonal, one higher, with 0 for absent.
fn read_heads(bytes: &[u8]) -> Option<[Option<usize>; CONSOLES]> {
    let mut heads = [None; CONSOLES];
    for (console, head) in heads.iter_mut().enumerate() {
        *head = get_16_bits(bytes, common_at(console, console))?.checked_sub(1);
    }
    Some(heads)
}
