// The test host: an independent model of the room unit, its bytes, its calls, generators of cases, a fast second implementation,
// the unit itself by the crate `room`, the limits of its speed, the comparison of both, and of the session program, with the model, the
// book of demand 3, the question which two can meet by its consequences, views of one of two stores and panes by what their calls say of
// each other, and rooms with other secrets, of which students must see nothing. The comparison also holds rooms with a hub to their
// promises: no 17, never stuck, and all of n consoles gathered on one head where n - 1 versions are free.

pub mod book;
pub mod calls;
pub mod compare;
pub mod fast;
pub mod gen;
pub mod implementations;
pub mod layout;
pub mod limits;
pub mod model;
pub mod panes;
pub mod rng;
pub mod secrets;
pub mod session;
pub mod unit;
pub mod verdicts;
pub mod views;
