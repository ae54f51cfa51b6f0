// The unit and the fast implementation against the model, on fewer cases than the program `compare` runs; and some that count wrongly,
// name a wrong pair, mistake a hub, show a wrong part or a wrong pane, which must be found.

use room_host::calls::Reply;
use room_host::compare::{compare, seed, Effort};
use room_host::fast;
use room_host::implementations::{Calls, CopyOut, FAST, UNIT};
use room_host::panes;
use room_host::rng::Rng;
use room_host::views::{self, Asked};
use room_host::{gen, layout, verdicts};
use std::ops::RangeInclusive;

const EFFORT: Effort = Effort {
    rounds: 2,
    steps_at_1024: 8,
};

fn assert_differs(wrong: Calls) {
    let found = compare(wrong, seed(), EFFORT).err();
    let difference = found.unwrap_or_default();
    let name = wrong.name;
    let differs = [
        "replies differ",
        "store differs",
        "output differs",
        "view differs",
    ];
    assert!(
        differs.iter().any(|differs| difference.contains(differs)),
        "{name}: {difference}"
    );
}

fn check(tested: Calls) {
    let seed = seed();
    match compare(tested, seed, EFFORT) {
        Ok(tally) => println!(
            "{tally}model and {} agree in {} calls, {} pairs of call and answer met, seed {seed}",
            tested.name,
            tally.calls(),
            tally.pairs_met()
        ),
        Err(difference) => panic!("{difference}"),
    }
}

#[test]
fn the_unit_answers_and_writes_as_the_model() {
    check(UNIT);
}

#[test]
fn the_fast_implementation_answers_and_writes_as_the_model() {
    check(FAST);
}

/// The reply of the fast implementation to a command, with another count where it has this answer and the command one of these codes.
fn recounted(
    store: &mut [u8],
    command: &[u8],
    (answer, codes): (u32, RangeInclusive<u8>),
    count: fn(u32) -> u32,
) -> Reply {
    let reply = fast::command(store, command);
    let is_meant =
        reply.answer == answer && command.first().is_some_and(|code| codes.contains(code));
    Reply {
        count: if is_meant {
            count(reply.count)
        } else {
            reply.count
        },
        ..reply
    }
}

type CommandCall = fn(&mut [u8], &[u8]) -> Reply;

/// Commands that are obeyed rightly and counted wrongly.
const MISCOUNTED: [(&str, CommandCall); 7] = [
    ("no clash", |store, command| {
        recounted(store, command, (0, 0x09..=0x09), |_| 0)
    }),
    ("a clash too many", |store, command| {
        recounted(store, command, (0, 0x09..=0x09), |count| count + 1)
    }),
    ("64 in six bits", |store, command| {
        recounted(store, command, (0, 0x09..=0x09), |count| count % 64)
    }),
    ("an entry", |store, command| {
        recounted(store, command, (0, 0x02..=0x08), |_| 1)
    }),
    ("a fork", |store, command| {
        recounted(store, command, (0, 0x01..=0x01), |_| 1)
    }),
    ("a fast-forward or a leave", |store, command| {
        recounted(store, command, (0, 0x0A..=0x0B), |_| 1)
    }),
    ("a merge that is refused", |store, command| {
        recounted(store, command, (14, 0x09..=0x09), |_| 1)
    }),
];

#[test]
fn a_wrong_count_is_found() {
    for (name, command) in MISCOUNTED {
        let miscounting = Calls {
            name,
            command,
            ..FAST
        };
        assert_differs(miscounting);
    }
}

// ---------------------------------------------------------------- which two can meet

/// 2 or 3 for a pair of which a merge, with one of these answers, or a fast-forward passes for accepted.
fn tried(store: &[u8], receiver: usize, giver: usize, passing: &[u32]) -> Option<usize> {
    let answer = |code: u8| {
        let command = [code, receiver as u8, giver as u8];
        fast::command(&mut store.to_vec(), &command).answer
    };
    if passing.contains(&answer(0x09)) {
        Some(2)
    } else if answer(0x0A) == 0 {
        Some(3)
    } else {
        None
    }
}

/// The number of the first pair, by trying commands: pairs in this order, and a merge that passes for accepted with these answers.
fn first_pair(store: &[u8], order: fn(usize, usize) -> (usize, usize), passing: &[u32]) -> Reply {
    let right = fast::mergeable(store);
    if right.answer != 0 {
        return right;
    }
    let pairs = (0..256).map(|place| order(place / 16, place % 16));
    let mut of_two = pairs.filter(|(receiver, giver)| receiver != giver);
    let found = of_two.find_map(|(receiver, giver)| {
        let kind = tried(store, receiver, giver, passing)?;
        Some((256 * kind + 16 * receiver + giver) as u32)
    });
    let none = if right.count == 0 { 0 } else { 256 };
    Reply {
        answer: 0,
        count: found.unwrap_or(none),
    }
}

fn receivers_first(receiver: usize, giver: usize) -> (usize, usize) {
    (receiver, giver)
}

fn givers_first(giver: usize, receiver: usize) -> (usize, usize) {
    (receiver, giver)
}

fn falling(receiver: usize, giver: usize) -> (usize, usize) {
    (15 - receiver, 15 - giver)
}

/// The fast implementation's reply with another number where it is accepted.
fn renumbered(store: &[u8], number: fn(u32) -> u32) -> Reply {
    let reply = fast::mergeable(store);
    match reply.answer {
        0 => Reply {
            answer: 0,
            count: number(reply.count),
        },
        _ => reply,
    }
}

type MergeableCall = fn(&[u8]) -> Reply;

/// Wrong answers to the question which two can meet.
const MISNAMED: [(&str, MergeableCall); 9] = [
    ("givers before receivers", |store| {
        first_pair(store, givers_first, &[0, 18])
    }),
    ("falling", |store| first_pair(store, falling, &[0, 18])),
    ("17 is not asked", |store| {
        first_pair(store, receivers_first, &[0, 17, 18])
    }),
    ("15 is not asked", |store| {
        first_pair(store, receivers_first, &[0, 15, 18])
    }),
    ("18 is asked", |store| {
        first_pair(store, receivers_first, &[0])
    }),
    ("stuck where all agree", |store| {
        renumbered(store, |number| number.max(256))
    }),
    ("all agree where it is stuck", |store| {
        renumbered(store, |number| if number == 256 { 0 } else { number })
    }),
    ("kinds exchanged", |store| {
        renumbered(
            store,
            |number| if number < 512 { number } else { number ^ 256 },
        )
    }),
    ("giver and receiver exchanged", |store| {
        renumbered(store, |number| {
            number / 256 * 256 + number % 16 * 16 + number / 16 % 16
        })
    }),
];

fn misnaming(name: &'static str, mergeable: MergeableCall) -> Calls {
    Calls {
        name,
        mergeable,
        ..FAST
    }
}

#[test]
fn a_wrong_pair_is_found() {
    for (name, mergeable) in MISNAMED {
        assert_differs(misnaming(name, mergeable));
    }
}

#[test]
fn an_answer_without_a_store_is_found() {
    let answering = misnaming("any bytes", |store| Reply {
        answer: 0,
        ..fast::mergeable(store)
    });
    assert_differs(answering);
}

/// The commands alone disprove each wrong answer for a sound store, whatever the model says.
#[test]
fn a_wrong_pair_is_not_borne_out() {
    let rng = &mut Rng::new(28);
    let stuck = (0..3).map(|_| gen::some_stuck_room(rng)).collect();
    let rooms = [gen::random_rooms(29, 60), stuck].concat();
    let stores: Vec<Vec<u8>> = rooms.iter().map(layout::encode).collect();
    let is_disproved = |calls: &Calls| {
        let mut checks = stores.iter().map(|store| verdicts::check(calls, store));
        checks.any(|check| check.is_err())
    };
    for (name, mergeable) in MISNAMED {
        assert!(is_disproved(&misnaming(name, mergeable)), "{name}");
    }
    assert!(!is_disproved(&FAST));
}

/// The right order and the right tests by the same trying give no difference, so it is the errors above that are found.
#[test]
fn the_right_pair_by_trying_is_no_difference() {
    let trying = misnaming("trying", |store| {
        first_pair(store, receivers_first, &[0, 18])
    });
    compare(trying, seed(), EFFORT).expect("no difference");
}

// ---------------------------------------------------------------- hubs

/// The low byte of the hub's field.
const HUB_LOW_BYTE: usize = 3;

fn has_hub(store: &[u8]) -> bool {
    store.get(HUB_LOW_BYTE) == Some(&1)
}

/// A copy of the store with another value of the hub's field.
fn with_hub(store: &[u8], hub: u8) -> Vec<u8> {
    let mut changed = store.to_vec();
    if let Some(field) = changed.get_mut(HUB_LOW_BYTE) {
        *field = hub;
    }
    changed
}

/// Obeys as if there were no hub, and puts it back.
fn past_hub(store: &mut [u8], command: &[u8]) -> Reply {
    let mut free = with_hub(store, 0);
    let reply = fast::command(&mut free, command);
    store.copy_from_slice(&with_hub(&free, store[HUB_LOW_BYTE]));
    reply
}

/// The reply of the fast implementation, or another one where it has this answer, the command this code and the store a hub.
fn answered(
    store: &mut [u8],
    command: &[u8],
    (answer, code): (u32, u8),
    other: fn(&mut [u8], &[u8]) -> Reply,
) -> Reply {
    let reply = fast::command(store, command);
    let is_meant = reply.answer == answer && command.first() == Some(&code) && has_hub(store);
    if is_meant {
        other(store, command)
    } else {
        reply
    }
}

fn refused(answer: u32) -> Reply {
    Reply { answer, count: 0 }
}

/// Commands that mistake the hub.
const MISLED: [(&str, CommandCall); 10] = [
    ("forks past the hub", |store, command| {
        answered(store, command, (22, 0x01), past_hub)
    }),
    ("merges past the hub", |store, command| {
        answered(store, command, (22, 0x09), past_hub)
    }),
    ("fast-forwards past the hub", |store, command| {
        answered(store, command, (22, 0x0A), past_hub)
    }),
    ("14 before 22", |store, command| {
        answered(store, command, (22, 0x09), |store, command| {
            let free = fast::command(&mut with_hub(store, 0), command);
            refused(if free.answer == 14 { 14 } else { 22 })
        })
    }),
    ("22 before 12", |store, command| {
        answered(store, command, (12, 0x0A), |_, command| {
            let is_past_hub = command[1] != 0 && command[2] != 0;
            refused(if is_past_hub { 22 } else { 12 })
        })
    }),
    ("22 before 13", |store, command| {
        answered(store, command, (13, 0x01), |_, command| {
            refused(if command[2] != 0 { 22 } else { 13 })
        })
    }),
    ("a hub twice", |store, command| {
        let had_hub = has_hub(store);
        let reply = fast::command(store, command);
        match (reply.answer, command) {
            (0, [0x0C]) if had_hub => refused(23),
            _ => reply,
        }
    }),
    ("a hub that is only acknowledged", |store, command| {
        answered(store, command, (0, 0x0C), |store, _| {
            store[HUB_LOW_BYTE] = 0;
            refused(0)
        })
    }),
    ("a hub that any room can have", |store, command| {
        let reply = fast::command(store, command);
        if reply.answer == 23 {
            store[HUB_LOW_BYTE] = 1;
            return refused(0);
        }
        reply
    }),
    ("a hub that goes with a leave", |store, command| {
        answered(store, command, (0, 0x0B), |store, _| {
            store[HUB_LOW_BYTE] = 0;
            refused(0)
        })
    }),
];

/// The reply to a tape without the hub that it ends with, which is put into the store, where the tape gave this answer.
fn resumed_past_hub(tape: &[u8], store: &mut [u8], answer: u32, hub: u8) -> Reply {
    let reply = fast::resume(tape, store);
    let [without @ .., 0x25, 0x24] = tape else {
        return reply;
    };
    if reply.answer != answer {
        return reply;
    }
    let again = fast::resume(&[without, &[0x24]].concat(), store);
    if again.answer == 0 {
        store[HUB_LOW_BYTE] = hub;
    }
    again
}

/// Tapes, pauses and stores that mistake the hub.
fn mistaken() -> [Calls; 6] {
    let resuming = |name, resume| Calls {
        name,
        resume,
        ..FAST
    };
    [
        resuming("a tape's hub is let go", |tape, store| {
            resumed_past_hub(tape, store, 0, 0)
        }),
        resuming("a tape's hub is not judged", |tape, store| {
            resumed_past_hub(tape, store, 10, 1)
        }),
        resuming("a hub twice on a tape", |tape, store| {
            resumed_past_hub(tape, store, 7, 1)
        }),
        Calls {
            name: "a tape without the hub",
            pause: |store, tape| fast::pause(&with_hub(store, 0), tape),
            ..FAST
        },
        Calls {
            name: "a store's hub is not judged",
            heard: |store, console| fast::heard(&with_hub(store, 0), console),
            ..FAST
        },
        Calls {
            name: "only the low byte of the hub's field is read",
            heard: |store, console| {
                let mut low = store.to_vec();
                if let Some(high) = low.get_mut(HUB_LOW_BYTE - 1) {
                    *high = 0;
                }
                fast::heard(&low, console)
            },
            ..FAST
        },
    ]
}

#[test]
fn a_mistaken_hub_is_found() {
    for (name, command) in MISLED {
        let misled = Calls {
            name,
            command,
            ..FAST
        };
        assert_differs(misled);
    }
    mistaken().into_iter().for_each(assert_differs);
}

// ---------------------------------------------------------------- views

/// The live and the frozen store, the console and the choice.
type ViewOf<'a> = (&'a [u8], &'a [u8], u32, u32);
type ViewCall = fn(&[u8], &[u8], u32, u32) -> Reply;
type ViewPart = for<'a> fn(&'a [u8], &'a [u8], u32, u32) -> &'a [u8];

/// The reply of the fast implementation to a view, but this refusal where the condition holds.
fn refused_if(is_met: bool, answer: u32, (live, frozen, console, choice): ViewOf) -> Reply {
    if is_met {
        refused(answer)
    } else {
        fast::view_refusal(live, frozen, console, choice)
    }
}

/// Wrong answers why there is no view.
const MISREFUSED: [(&str, ViewCall); 13] = [
    ("the live store alone", |live, _, console, choice| {
        fast::view_refusal(live, live, console, choice)
    }),
    ("the choices exchanged", |live, frozen, console, choice| {
        fast::view_refusal(frozen, live, console, choice)
    }),
    ("both stores are judged", |live, frozen, console, choice| {
        let other = fast::view_refusal(frozen, live, console, choice);
        refused_if(other == refused(11), 11, (live, frozen, console, choice))
    }),
    ("absent in either store", |live, frozen, console, choice| {
        let other = fast::view_refusal(frozen, live, console, choice);
        refused_if(other == refused(12), 12, (live, frozen, console, choice))
    }),
    ("a choice of one bit", |live, frozen, console, choice| {
        fast::view_refusal(live, frozen, console, choice & 1)
    }),
    ("a choice of 8 bits", |live, frozen, console, choice| {
        fast::view_refusal(live, frozen, console, choice & 0xFF)
    }),
    ("a choice of 16 bits", |live, frozen, console, choice| {
        fast::view_refusal(live, frozen, console, choice & 0xFFFF)
    }),
    ("frozen if not live", |live, frozen, console, choice| {
        fast::view_refusal(live, frozen, console, choice.min(1))
    }),
    ("a console of 8 bits", |live, frozen, console, choice| {
        fast::view_refusal(live, frozen, console & 0xFF, choice)
    }),
    ("5 before 3", |live, frozen, console, choice| {
        refused_if(choice > 1, 5, (live, frozen, console, choice))
    }),
    ("11 before 5", |live, frozen, console, choice| {
        let is_unsound = fast::heard(live, console) == refused(11);
        let is_met = is_unsound && choice > 1;
        refused_if(is_met, 11, (live, frozen, console, choice))
    }),
    ("12 before 11", |live, frozen, console, choice| {
        let right = fast::view_refusal(live, frozen, console, choice);
        let is_met = right == refused(11) && console > 0;
        refused_if(is_met, 12, (live, frozen, console, choice))
    }),
    ("the place is counted", fast::view_at),
];

/// The place of the fast implementation, changed where a view is accepted.
fn misplaced((live, frozen, console, choice): ViewOf, place: fn(u32) -> u32) -> Reply {
    let reply = fast::view_at(live, frozen, console, choice);
    match reply.answer {
        0 => Reply {
            answer: 0,
            count: place(reply.count),
        },
        _ => reply,
    }
}

/// Wrong answers where a view is.
const MISPLACED: [(&str, ViewCall); 6] = [
    ("the block's place", |live, frozen, console, choice| {
        misplaced((live, frozen, console, choice), |place| place - 160)
    }),
    ("behind the header", |live, frozen, console, choice| {
        misplaced((live, frozen, console, choice), |place| place - 4096)
    }),
    ("the version", |live, frozen, console, choice| {
        misplaced((live, frozen, console, choice), |place| {
            (place - 4256) / 544
        })
    }),
    ("version 0", |live, frozen, console, choice| {
        misplaced((live, frozen, console, choice), |_| 4256)
    }),
    ("in the other store", |live, frozen, console, choice| {
        fast::view_at(frozen, live, console, choice)
    }),
    ("a place of no view", |live, frozen, console, choice| {
        let Reply { answer, count } = fast::view_at(live, frozen, console, choice);
        Reply {
            answer,
            count: count.max(4256),
        }
    }),
];

/// From some bytes before the board viewed on so many bytes of the store chosen; nothing where it is refused.
fn reframed<'a>(view: ViewOf<'a>, before: usize, length: usize) -> &'a [u8] {
    let (live, frozen, console, choice) = view;
    match fast::view_at(live, frozen, console, choice) {
        Reply { answer: 0, count } => {
            let chosen = [live, frozen][choice as usize];
            &chosen[count as usize - before..][..length]
        }
        _ => &[],
    }
}

/// Wrong parts.
const MISSHOWN: [(&str, ViewPart); 8] = [
    ("a copy", |live, frozen, console, choice| {
        let part = fast::view(live, frozen, console, choice);
        part.to_vec().leak()
    }),
    ("of the live store alone", |live, _, console, choice| {
        fast::view(live, live, console, choice)
    }),
    ("of the other store", |live, frozen, console, choice| {
        fast::view(frozen, live, console, choice)
    }),
    ("a byte short", |live, frozen, console, choice| {
        reframed((live, frozen, console, choice), 0, 383)
    }),
    ("with the ancestors", |live, frozen, console, choice| {
        reframed((live, frozen, console, choice), 128, 384 + 128)
    }),
    ("a strip early", |live, frozen, console, choice| {
        reframed((live, frozen, console, choice), 12, 384)
    }),
    ("without a store", |live, frozen, console, choice| {
        let right = fast::view_refusal(live, frozen, console, choice);
        match live.get(4256..4640) {
            Some(part) if right == refused(11) => part,
            _ => fast::view(live, frozen, console, choice),
        }
    }),
    ("nothing at all", |_, _, _, _| &[]),
];

/// The fast implementation with one of the wrong calls.
fn misviewing() -> Vec<Calls> {
    let refusing = MISREFUSED.map(|(name, view_refusal)| Calls {
        name,
        view_refusal,
        ..FAST
    });
    let placing = MISPLACED.map(|(name, view_at)| Calls {
        name,
        view_at,
        ..FAST
    });
    let showing = MISSHOWN.map(|(name, view)| Calls { name, view, ..FAST });
    [&refusing[..], &placing, &showing].concat()
}

#[test]
fn a_wrong_view_is_found() {
    misviewing().into_iter().for_each(assert_differs);
}

/// Views of two stores, the second of them also damaged, cut or missing, with either as the live one.
fn asked_of<'a>([one, other]: &'a [Vec<u8>; 2]) -> Vec<Asked<'a>> {
    let consoles = (0..17).chain([256]);
    let operands = consoles.flat_map(|console| [0, 1, 2, 256, 65_536].map(|c| (console, c)));
    let asked = |(console, choice)| {
        [(one, other), (other, one)].map(|(live, frozen)| Asked {
            live,
            frozen,
            console,
            choice,
        })
    };
    operands.flat_map(asked).collect()
}

/// The calls of a view alone disprove each wrong one of them, whatever the model says.
#[test]
fn a_wrong_view_does_not_fit() {
    let rng = &mut Rng::new(33);
    let rooms = gen::random_rooms(34, 60);
    let stores: Vec<Vec<u8>> = rooms.iter().map(layout::encode).collect();
    let beside = |two: &[Vec<u8>]| [two[0].clone(), gen::store_beside(rng, &two[1])];
    let lent: Vec<[Vec<u8>; 2]> = stores.windows(2).map(beside).collect();
    let is_disproved = |calls: &Calls| {
        let mut all_asked = lent.iter().flat_map(asked_of);
        all_asked.any(|asked| views::check(calls, asked).is_err())
    };
    for calls in misviewing() {
        assert!(is_disproved(&calls), "{}", calls.name);
    }
    assert!(!is_disproved(&FAST));
}

// ---------------------------------------------------------------- panes

/// The store, the console and the lent output.
type PaneOf<'a> = (&'a [u8], u32, &'a mut [u8]);

/// The student's pane of the fast implementation, with each strip made anew from the number of the strip, the board's and the pane's.
fn repainted(
    (store, console, pane): PaneOf,
    paint: fn(usize, [u8; 12], [u8; 12]) -> [u8; 12],
) -> Reply {
    let mut board = pane.to_vec();
    fast::board(store, console, &mut board);
    let reply = fast::student_pane(store, console, pane);
    let painted = &mut pane[..reply.count as usize];
    let (strips, _) = painted.as_chunks_mut();
    for (number, (strip, whole)) in strips.iter_mut().zip(board.as_chunks().0).enumerate() {
        *strip = paint(number, *whole, *strip);
    }
    reply
}

/// The strip of the pane, with one byte as this says.
fn with_byte(mut strip: [u8; 12], place: usize, byte: u8) -> [u8; 12] {
    strip[place] = byte;
    strip
}

/// Wrong panes of a student.
const MISPAINTED: [(&str, CopyOut); 16] = [
    ("the board", fast::board),
    ("mark 7 is hidden", |store, console, pane| {
        repainted((store, console, pane), |_, _, seen| {
            with_byte(seen, 5, seen[5] & 0x7F)
        })
    }),
    ("mark 8 is shown", |store, console, pane| {
        repainted((store, console, pane), |_, whole, seen| {
            with_byte(seen, 4, whole[4] & 0x01)
        })
    }),
    ("mark 15 is shown", |store, console, pane| {
        repainted((store, console, pane), |_, whole, seen| {
            with_byte(seen, 4, whole[4] & 0x80)
        })
    }),
    ("the low byte is hidden", |store, console, pane| {
        repainted((store, console, pane), |_, whole, seen| {
            with_byte(with_byte(seen, 4, whole[4]), 5, 0)
        })
    }),
    ("all marks are hidden", |store, console, pane| {
        repainted((store, console, pane), |_, _, seen| with_byte(seen, 5, 0))
    }),
    ("calls are shown", |store, console, pane| {
        repainted((store, console, pane), |_, whole, seen| {
            with_byte(seen, 7, whole[7])
        })
    }),
    ("calls from 256 on are shown", |store, console, pane| {
        repainted((store, console, pane), |_, whole, seen| {
            with_byte(seen, 6, whole[6])
        })
    }),
    ("alert counts are shown", |store, console, pane| {
        repainted((store, console, pane), |_, whole, seen| {
            with_byte(seen, 9, whole[9])
        })
    }),
    ("alert flags are shown", |store, console, pane| {
        repainted((store, console, pane), |_, whole, seen| {
            with_byte(seen, 10, whole[10])
        })
    }),
    ("strip 0 is forgotten", |store, console, pane| {
        repainted((store, console, pane), |number, whole, seen| match number {
            0 => whole,
            _ => seen,
        })
    }),
    ("strip 31 is forgotten", |store, console, pane| {
        repainted((store, console, pane), |number, whole, seen| match number {
            31 => whole,
            _ => seen,
        })
    }),
    ("headings are hidden", |store, console, pane| {
        repainted((store, console, pane), |_, _, seen| {
            with_byte(with_byte(seen, 2, 0), 3, 0)
        })
    }),
    ("what is hidden is not written", |store, console, pane| {
        let before = pane.to_vec();
        let reply = fast::student_pane(store, console, pane);
        if reply.answer == 0 {
            pane[6..11].copy_from_slice(&before[6..11]);
        }
        reply
    }),
    ("zeros behind the pane", |store, console, pane| {
        let reply = fast::student_pane(store, console, pane);
        if reply.answer == 0 {
            pane[384..].fill(0);
        }
        reply
    }),
    ("hides though it is refused", |store, console, pane| {
        let reply = fast::student_pane(store, console, pane);
        if reply.answer == 19 && pane.len() > 4 {
            pane[4] = 0;
        }
        reply
    }),
];

/// Wrong panes of an instructor.
const MISCOPIED: [(&str, CopyOut); 7] = [
    ("the student's", fast::student_pane),
    ("console 0 alone", |store, console, pane| {
        fast::board(store, console.min(16) / 16 * 16, pane)
    }),
    ("a console of 8 bits", |store, console, pane| {
        fast::board(store, console & 0xFF, pane)
    }),
    ("19 before 12", |store, console, pane| {
        let right = fast::board(store, console, pane);
        let is_short = right == refused(12) && pane.len() < 384;
        if is_short {
            refused(19)
        } else {
            right
        }
    }),
    ("12 before 11", |store, console, pane| {
        let right = fast::board(store, console, pane);
        let is_met = right == refused(11) && console > 0;
        if is_met {
            refused(12)
        } else {
            right
        }
    }),
    ("nothing is counted", |store, console, pane| Reply {
        count: 0,
        ..fast::board(store, console, pane)
    }),
    ("the whole output is counted", |store, console, pane| {
        let right = fast::board(store, console, pane);
        match right.answer {
            0 => Reply {
                answer: 0,
                count: pane.len() as u32,
            },
            _ => right,
        }
    }),
];

/// The fast implementation with one of the wrong panes.
fn mispainting() -> Vec<Calls> {
    let to_student = MISPAINTED.map(|(name, student_pane)| Calls {
        name,
        student_pane,
        ..FAST
    });
    let to_instructor = MISCOPIED.map(|(name, instructor_pane)| Calls {
        name,
        instructor_pane,
        ..FAST
    });
    [&to_student[..], &to_instructor].concat()
}

#[test]
fn a_wrong_pane_is_found() {
    mispainting().into_iter().for_each(assert_differs);
}

/// The board alone disproves each wrong pane, whatever the model says.
#[test]
fn a_wrong_pane_does_not_fit() {
    let rng = &mut Rng::new(36);
    let mut rooms = gen::random_rooms(37, 60);
    rooms.push(gen::chain_of_entries(300));
    let stores: Vec<Vec<u8>> = rooms.iter().map(layout::encode).collect();
    let damaged: Vec<Vec<u8>> = stores
        .iter()
        .map(|store| gen::store_beside(rng, store))
        .collect();
    let is_disproved = |calls: &Calls| {
        stores.iter().chain(&damaged).any(|store| {
            let consoles = (0..17).chain([256]);
            let asked =
                consoles.flat_map(|console| [383, 384, 390].map(|length| (console, length)));
            asked
                .into_iter()
                .any(|(console, length)| panes::check(calls, store, console, length).is_err())
        })
    };
    for calls in mispainting() {
        assert!(is_disproved(&calls), "{}", calls.name);
    }
    assert!(!is_disproved(&FAST));
}
