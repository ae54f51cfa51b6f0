// The implementations of the calls, each as one value: the model, the fast one and the unit.

use crate::calls::{self, Reply};
use crate::{fast, unit};

/// A call that copies a console's board or pane out of a store.
pub type CopyOut = fn(&[u8], u32, &mut [u8]) -> Reply;

/// One implementation of the calls.
#[derive(Clone, Copy)]
pub struct Calls {
    pub name: &'static str,
    pub open: fn(u32, &mut [u8]) -> Reply,
    pub command: fn(&mut [u8], &[u8]) -> Reply,
    pub pause: fn(&[u8], &mut [u8]) -> Reply,
    pub resume: fn(&[u8], &mut [u8]) -> Reply,
    pub board: CopyOut,
    pub student_pane: CopyOut,
    pub instructor_pane: CopyOut,
    pub heard: fn(&[u8], u32) -> Reply,
    pub common: fn(&[u8], u32, u32) -> Reply,
    pub origin: fn(&[u8], u32, u32, u32) -> Reply,
    pub mergeable: fn(&[u8]) -> Reply,
    pub view_refusal: fn(&[u8], &[u8], u32, u32) -> Reply,
    pub view_at: fn(&[u8], &[u8], u32, u32) -> Reply,
    pub view: for<'a> fn(&'a [u8], &'a [u8], u32, u32) -> &'a [u8],
}

pub const MODEL: Calls = Calls {
    name: "model",
    open: calls::open,
    command: calls::command,
    pause: calls::pause,
    resume: calls::resume,
    board: calls::board,
    student_pane: calls::student_pane,
    instructor_pane: calls::instructor_pane,
    heard: calls::heard,
    common: calls::common,
    origin: calls::origin,
    mergeable: calls::mergeable,
    view_refusal: calls::view_refusal,
    view_at: calls::view_at,
    view: calls::view,
};

pub const FAST: Calls = Calls {
    name: "fast",
    open: fast::open,
    command: fast::command,
    pause: fast::pause,
    resume: fast::resume,
    board: fast::board,
    student_pane: fast::student_pane,
    instructor_pane: fast::instructor_pane,
    heard: fast::heard,
    common: fast::common,
    origin: fast::origin,
    mergeable: fast::mergeable,
    view_refusal: fast::view_refusal,
    view_at: fast::view_at,
    view: fast::view,
};

pub const UNIT: Calls = Calls {
    name: "unit",
    open: unit::open,
    command: unit::command,
    pause: unit::pause,
    resume: unit::resume,
    board: unit::board,
    student_pane: unit::student_pane,
    instructor_pane: unit::instructor_pane,
    heard: unit::heard,
    common: unit::common,
    origin: unit::origin,
    mergeable: unit::mergeable,
    view_refusal: unit::view_refusal,
    view_at: unit::view_at,
    view: unit::view,
};
