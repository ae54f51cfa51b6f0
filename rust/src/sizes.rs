//! Sizes and limits, named as in `include/room.h` without `ROOM_`.

/// Consoles of a room: 0 to 15.
pub const CONSOLES: usize = 16;
/// Strips of a board: 0 to 31.
pub const STRIPS: usize = 32;
/// Bytes of a strip.
pub const STRIP_BYTES: usize = 12;
/// Bytes of a board or a pane.
pub const BOARD_BYTES: usize = STRIPS * STRIP_BYTES;
/// The most versions that a room can be opened for; the fewest is 1.
pub const MAX_CAPACITY: u32 = 1024;

/// The highest level that is accepted.
pub const MAX_LEVEL: u16 = 600;
/// The highest heading that is accepted.
pub const MAX_HEADING: u16 = 360;
/// The highest mark.
pub const MAX_MARK: u8 = 15;
/// Bytes of the longest command.
pub const MAX_COMMAND_BYTES: usize = 5;
/// The most clashes of a merge: the level and the heading of every strip.
pub const MAX_CLASHES: u32 = 64;

/// Bytes of stack that a call needs; the next two say which need more.
pub const STACK: usize = 16_384;
/// Bytes of stack that [`Room::resume`](crate::Room::resume) and `resume_in` need. A thread of Rust's own has far more, but one that is
/// made with `stack_size` may not.
pub const RESUME_STACK: usize = 151_552;
/// Bytes of stack that [`Room::origin`](crate::Room::origin) needs.
pub const ORIGIN_STACK: usize = 36_864;

/// Bytes that a store of this capacity takes at the front of its buffer; those behind it are never touched.
///
/// ```
/// let mut buffer = [0; room::sizes::store_bytes(64)];
/// assert!(room::Room::open_in(&mut buffer[..], 64).is_ok());
/// ```
pub const fn store_bytes(capacity: u32) -> usize {
    4096 + 544 * capacity as usize
}

/// Bytes of the longest tape of a room of this capacity.
///
/// ```
/// assert_eq!(room::sizes::tape_bytes(64), 510);
/// ```
pub const fn tape_bytes(capacity: u32) -> usize {
    7 * capacity as usize + 62
}
