// Generators of cases: command sequences, full rooms, rooms with a hub, stuck rooms, graphs as tapes, damaged tapes and stores, and what
// is lent beside a store.

mod clashing;
mod commands;
mod damaged_stores;
mod damaged_tapes;
mod graphs;
mod hub;
mod rooms;
mod stuck;

pub use clashing::{clashing_room, VALUES};
pub use commands::{
    any_command, entry_bytes, entry_command, hub_command, likely_command, some_strip,
    turnover_command, Change,
};
pub use damaged_stores::{damaged_store, garbage, plausible_store, store_beside};
pub use damaged_tapes::damaged_tape;
pub use graphs::{graph_tape, near_miss, random_graph};
pub use hub::{gathering, hub_room};
pub use rooms::{
    chain_of_entries, chain_of_merges, command_sequence, commands_from, full_of_entries,
    full_of_merges, full_through_hub, hub_from, hub_sequence, random_room, random_rooms, some_room,
    turnover_from,
};
pub use stuck::{
    agreeing_room, some_stuck_room, stuck_apart_room, stuck_room, STUCK_APART_VERSIONS,
    STUCK_VERSIONS,
};
