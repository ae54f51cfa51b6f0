// The paper's own cases, those of the requests, every refusal beside an accepted neighbour, and the book of demand 3, each run three
// times: on the model, on the unit and on the fast implementation. The files in paper/ make their calls by `tested`, or by all of them
// as one value, `TESTED`; each module here names both anew.

// One file three times is what is meant.
#![allow(clippy::duplicate_mod)]

#[path = "paper"]
mod model {
    use room_host::calls as tested;
    use room_host::implementations::MODEL as TESTED;
    mod book;
    mod bytes;
    mod cases;
    mod clashes;
    mod hub;
    mod leaving;
    mod mergeable;
    mod origins;
    mod panes;
    mod refusals;
    mod secrecy;
    mod store;
    mod view;
}

#[path = "paper"]
mod unit {
    use room_host::implementations::UNIT as TESTED;
    use room_host::unit as tested;
    mod book;
    mod bytes;
    mod cases;
    mod clashes;
    mod hub;
    mod leaving;
    mod mergeable;
    mod origins;
    mod panes;
    mod refusals;
    mod secrecy;
    mod store;
    mod view;
}

#[path = "paper"]
mod fast {
    use room_host::fast as tested;
    use room_host::implementations::FAST as TESTED;
    mod book;
    mod bytes;
    mod cases;
    mod clashes;
    mod hub;
    mod leaving;
    mod mergeable;
    mod origins;
    mod panes;
    mod refusals;
    mod secrecy;
    mod store;
    mod view;
}
