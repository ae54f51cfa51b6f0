//! The calls as `include/room.h` declares them, for those who lend raw pointers.
//!
//! What a caller owes stands at the head of that file: a pointer and the length behind it describe bytes that may be read, and written
//! where the pointer is `*mut`; a buffer that a call writes overlaps no other of that call; with a length of 0 a pointer may be null.

use std::ffi::c_char;

/// 0 or a refusal, and what the call counts.
#[derive(Clone, Copy, Debug, PartialEq, Eq)]
#[repr(C)]
pub struct Reply {
    /// 0 where the call was accepted, else the number of the refusal.
    pub answer: u32,
    /// What each call says; 0 where it was refused.
    pub count: u32,
}

// The archive is linked by build.rs. Each is documented in the header, once.
#[allow(missing_docs)]
unsafe extern "C" {
    pub safe fn room_refusal_text(answer: u32) -> *const c_char;
    pub safe fn room_refusal_name(answer: u32) -> *const c_char;
    pub fn room_open(capacity: u32, store: *mut u8, store_length: usize) -> Reply;
    pub fn room_command(
        store: *mut u8,
        store_length: usize,
        command: *const u8,
        command_length: usize,
    ) -> Reply;
    pub fn room_pause(
        store: *const u8,
        store_length: usize,
        tape: *mut u8,
        tape_length: usize,
    ) -> Reply;
    pub fn room_resume(
        tape: *const u8,
        tape_length: usize,
        store: *mut u8,
        store_length: usize,
    ) -> Reply;
    pub fn room_board(
        store: *const u8,
        store_length: usize,
        console: u32,
        board: *mut u8,
        board_length: usize,
    ) -> Reply;
    pub fn room_student_pane(
        store: *const u8,
        store_length: usize,
        console: u32,
        pane: *mut u8,
        pane_length: usize,
    ) -> Reply;
    pub fn room_instructor_pane(
        store: *const u8,
        store_length: usize,
        console: u32,
        pane: *mut u8,
        pane_length: usize,
    ) -> Reply;
    pub fn room_heard(store: *const u8, store_length: usize, console: u32) -> Reply;
    pub fn room_common(store: *const u8, store_length: usize, first: u32, second: u32) -> Reply;
    pub fn room_origin(
        store: *const u8,
        store_length: usize,
        console: u32,
        strip: u32,
        cell: u32,
    ) -> Reply;
    pub fn room_mergeable(store: *const u8, store_length: usize) -> Reply;
    pub fn room_view_refusal(
        live: *const u8,
        live_length: usize,
        frozen: *const u8,
        frozen_length: usize,
        console: u32,
        choice: u32,
    ) -> Reply;
    pub fn room_view_at(
        live: *const u8,
        live_length: usize,
        frozen: *const u8,
        frozen_length: usize,
        console: u32,
        choice: u32,
    ) -> Reply;
}

/// One of the three calls that copy a board or a pane out.
pub type CopyOut = unsafe extern "C" fn(*const u8, usize, u32, *mut u8, usize) -> Reply;
