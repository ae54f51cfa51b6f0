// The calls that are measured, and the rooms that they are made in.

use crate::busy_room::busy_room;
use crate::measure::{
    bench, by_turns, judge, print_growth, print_judged, seconds, shortest_of, Work,
};
use crate::SEED;
use room_host::compare::{Call, ViewNumbers};
use room_host::gen::{self, STUCK_APART_VERSIONS, STUCK_VERSIONS};
use room_host::layout;
use room_host::limits::{Report, WITHOUT_HUB};
use room_host::model::{choice, code, tape_of, Room};
use room_host::rng::Rng;

const CAPACITIES: [usize; 3] = [64, 256, 1024];
/// Version records of the tapes.
const TAPE_VERSIONS: [usize; 3] = [64, 256, 1023];
const KINDS: [&str; 2] = ["entries", "merges"];

pub fn full_room(kind: &str, capacity: usize) -> Room {
    let rng = &mut Rng::new(SEED);
    match kind {
        "entries" => gen::full_of_entries(rng, capacity),
        _ => gen::full_of_merges(rng, capacity),
    }
}

/// The soundness test, by the question that costs little else.
pub fn bench_soundness(report: &mut Report) {
    for kind in KINDS {
        let works = CAPACITIES.map(|capacity| {
            let what = format!("soundness_{kind}_{capacity}");
            soundness_of(what, full_room(kind, capacity))
        });
        let times = works.each_ref().map(|work| bench(report, work));
        let what = format!("soundness_{kind}");
        let lengths = CAPACITIES.map(layout::store_bytes);
        print_growth(&what, "byte", CAPACITIES, lengths, times);
    }
}

fn soundness_of(what: String, room: Room) -> Work {
    let (first, second) = (0, 0);
    Work {
        what,
        call: Call::Common { first, second },
        room,
        input: Vec::new(),
    }
}

/// The soundness test of a full room with a hub, and what the hub adds to it: in one buffer, with and without the hub by turns.
pub fn bench_soundness_with_hub(report: &mut Report) {
    let what = "soundness_hub_1024";
    let room = gen::full_through_hub(&mut Rng::new(SEED), 1024);
    let mut store = layout::encode(&room);
    bench(report, &soundness_of(what.to_string(), room));
    let [with, without] = by_turns(|| {
        [1u16, 0].map(|hub| {
            store[layout::HUB_AT..layout::HUB_AT + 2].copy_from_slice(&hub.to_be_bytes());
            shortest_of(|| seconds(|| judge(&store)))
        })
    });
    print_judged(report, what, WITHOUT_HUB, with / without);
}

/// Resume of tapes of several lengths, and pause of the rooms they give.
pub fn bench_tapes(report: &mut Report) {
    for kind in KINDS {
        bench_tapes_of(report, "pause", Call::Pause, kind);
        bench_tapes_of(report, "resume", Call::Resume, kind);
    }
}

fn bench_tapes_of(report: &mut Report, name: &str, call: Call, kind: &str) {
    let what = format!("{name}_{kind}");
    let works = TAPE_VERSIONS.map(|versions| {
        let room = full_room(kind, versions + 1);
        Work {
            what: format!("{what}_{versions}"),
            call,
            input: tape_of(&room),
            room,
        }
    });
    let times = works.each_ref().map(|work| bench(report, work));
    print_growth(&what, "version", TAPE_VERSIONS, TAPE_VERSIONS, times);
}

/// Origins in the full rooms of the soundness test, and in the rooms with the longest walks: in a chain of entries a walk passes all
/// 1,024 versions, in a chain of merges all 511 merges and then versions 1 and 0. In the chains no entry writes the cell, and at each
/// merge a value of base, receiver and giver is compared.
pub fn bench_origins(report: &mut Report) {
    let chains = [gen::chain_of_entries(1024), gen::chain_of_merges(1024)];
    for (kind, chain) in KINDS.into_iter().zip(chains) {
        bench_origin(report, format!("origin_{kind}_1024"), full_room(kind, 1024));
        bench_origin(report, format!("origin_chain_of_{kind}_1024"), chain);
    }
}

fn bench_origin(report: &mut Report, what: String, room: Room) {
    let call = Call::Origin {
        console: 0,
        strip: 31,
        cell: 1,
    };
    let work = Work {
        what,
        call,
        room,
        input: Vec::new(),
    };
    bench(report, &work);
}

/// Which two can meet in rooms of 16 consoles: in those of the soundness test one of the first pairs can; in the others all 240 pairs are
/// tried in vain, in the rooms stuck apart with nearly all third consoles. The others that are full are chains of entries but for their
/// last versions, and so of the full rooms those whose soundness test is the shortest. A room of few versions has a shorter one still,
/// while the search costs the same whatever the room holds: the limit is that of full rooms.
pub fn bench_mergeable(report: &mut Report) {
    let rooms = [
        ("entries_1024", full_room("entries", 1024)),
        ("merges_1024", full_room("merges", 1024)),
        ("all_agree_1024", gen::agreeing_room(1024)),
        ("stuck_1024", gen::stuck_room(1024)),
        ("stuck_apart_1024", gen::stuck_apart_room(1024)),
        ("stuck_few", gen::stuck_room(STUCK_VERSIONS)),
        (
            "stuck_apart_few",
            gen::stuck_apart_room(STUCK_APART_VERSIONS),
        ),
    ];
    for (kind, mut room) in rooms {
        room.capacity = 1024;
        let work = Work {
            what: format!("mergeable_{kind}"),
            call: Call::Mergeable,
            room,
            input: Vec::new(),
        };
        bench(report, &work);
    }
}

/// The calls on a store of capacity 1,024 that holds 1,000 versions.
pub fn bench_calls(report: &mut Report) {
    let (room, commands) = busy_room();
    let mut bench_call = |what: &str, call: Call, input: Vec<u8>| {
        let work = Work {
            what: what.to_string(),
            call,
            room: room.clone(),
            input,
        };
        bench(report, &work);
    };
    bench_call("open", Call::Open { capacity: 1024 }, Vec::new());
    let console = 0;
    bench_call("board", Call::Board { console }, Vec::new());
    bench_call("student_pane", Call::StudentPane { console }, Vec::new());
    let instructor_pane = Call::InstructorPane { console };
    bench_call("instructor_pane", instructor_pane, Vec::new());
    bench_call("heard", Call::Heard { console }, Vec::new());
    let (first, second) = (0, 1);
    bench_call("common", Call::Common { first, second }, Vec::new());
    let origin = Call::Origin {
        console: 0,
        strip: 0,
        cell: 0,
    };
    bench_call("origin", origin, Vec::new());
    bench_call("mergeable", Call::Mergeable, Vec::new());
    for (what, input) in commands {
        bench_call(what, Call::Command, input);
    }
    bench_views(report, &room);
    bench_making_hub(report);
}

/// A view of each of two equal stores. It costs the soundness test of the one that is chosen: were both
/// tested it would be twice that. The call measured says the place, which is all that a view asks for.
fn bench_views(report: &mut Report, room: &Room) {
    for (what, choice) in [("view_live", choice::LIVE), ("view_frozen", choice::FROZEN)] {
        let view = ViewNumbers {
            console: 0,
            choice,
            is_of_one_store: false,
        };
        let work = Work {
            what: what.to_string(),
            call: Call::ViewAt(view),
            room: room.clone(),
            input: layout::encode(room),
        };
        bench(report, &work);
    }
}

/// The command that makes the hub, in a room of 1,000 versions whose forks and merges all went through console 0: the other room refuses it.
fn bench_making_hub(report: &mut Report) {
    let mut room = gen::full_through_hub(&mut Rng::new(SEED), 1000);
    room.capacity = 1024;
    room.hub = false;
    let work = Work {
        what: "hub".to_string(),
        call: Call::Command,
        room,
        input: vec![code::MAKE_HUB],
    };
    bench(report, &work);
}
