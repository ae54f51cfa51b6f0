// The model's own definitions, told in second ways on random rooms, and what the generators make.

use room_host::gen;
use room_host::layout::{self, encode};
use room_host::model::{
    cell_origin, console_board, decode, empty_board, parents, reported, room_of_tape,
    shown_to_instructor, shown_to_student, sound, sound_boards, step, tape_of, verdict, Ancestry,
    Board, Cell, Command, Entry, Room, Verdict, Version, Worked, CONSOLES, HUB, STRIPS,
};
use room_host::rng::Rng;
use room_host::secrets;
use std::collections::BTreeSet;

// ---------------------------------------------------------------- sound rooms

#[test]
fn two_hundred_rooms_come_back_from_tape_and_bytes() {
    for room in gen::random_rooms(1, 200) {
        assert!(sound(&room));
        assert_eq!(room_of_tape(&tape_of(&room)).as_ref(), Ok(&room));
        assert_eq!(layout::read(&encode(&room)).as_ref(), Some(&room));
    }
}

/// The accepted commands of a random sequence from opening on, each with the room after it.
fn accepted_steps(rng: &mut Rng, capacity: usize, length: usize) -> Vec<(Vec<u8>, Room)> {
    let (commands, _) = gen::command_sequence(rng, capacity, length);
    accepted_from(Room::opened(capacity), commands)
}

/// Those of these commands that are accepted, one after the other, each with the room after it.
fn accepted_from(mut room: Room, commands: Vec<Vec<u8>>) -> Vec<(Vec<u8>, Room)> {
    let mut steps = Vec::new();
    for command in commands {
        if let Ok(next) = decode(&command).and_then(|decoded| step(&room, &decoded)) {
            room = next;
            steps.push((command, room.clone()));
        }
    }
    steps
}

#[test]
fn every_step_keeps_the_room_sound() {
    let mut rng = Rng::new(3);
    for (command, room) in (0..40).flat_map(|_| accepted_steps(&mut rng, 48, 150)) {
        assert!(sound(&room), "{command:02X?}");
    }
}

/// Whether no hub stands between these two.
fn is_met(room: &Room, receiver: usize, giver: usize) -> bool {
    !room.hub || receiver == HUB || giver == HUB
}

/// The room with this merge, whatever would refuse it.
fn forced_merge(room: &Room, receiver: usize, giver: usize) -> Room {
    let head = |console: usize| room.head(console).expect("the console is present");
    let mut forced = room.clone();
    forced.capacity = 1024;
    forced.heads[receiver] = Some(forced.versions.len());
    forced.versions.push(Version::Merge {
        receiver: head(receiver),
        giver: head(giver),
    });
    forced
}

/// Refusal 17 stands exactly where the merge would leave two heads without a common version. With a hub the merges through it are looked at.
#[test]
fn refusal_17_is_exact() {
    let rooms = gen::random_rooms(4, 60);
    let merges = rooms.iter().flat_map(|room| {
        let pairs = |receiver| {
            room.present()
                .into_iter()
                .map(move |giver| (receiver, giver))
        };
        let merge = move |(receiver, giver)| (room, receiver, giver);
        room.present().into_iter().flat_map(pairs).map(merge)
    });
    let (mut torn, mut merged) = (0, 0);
    for (room, receiver, giver) in merges.filter(|&(room, one, other)| is_met(room, one, other)) {
        let is_sound = sound(&forced_merge(room, receiver, giver));
        match step(room, &Command::Merge { receiver, giver }) {
            Ok(_) | Err(18) => {
                assert!(is_sound);
                merged += 1;
            }
            Err(refusal) => {
                assert!(!is_sound);
                torn += usize::from(refusal == 17);
            }
        }
    }
    assert!(torn > 50 && merged > 50, "{torn} {merged}");
}

/// Each present console but 0 of some rooms, and the room after it has left, whatever would refuse it.
fn forced_leaves(rooms: &[Room]) -> impl Iterator<Item = (&Room, usize, Room)> {
    rooms.iter().flat_map(|room| {
        let students = room.present().into_iter().filter(|&console| console != 0);
        students.map(move |console| {
            let mut forced = room.clone();
            forced.heads[console] = None;
            (room, console, forced)
        })
    })
}

/// Refusal 21 stands exactly where the leave would leave a version that no head descends from.
#[test]
fn refusal_21_is_exact() {
    let rooms = gen::random_rooms(18, 60);
    let (mut kept, mut left) = (0, 0);
    for (room, console, forced) in forced_leaves(&rooms) {
        let after = step(room, &Command::Leave { console });
        if sound(&forced) {
            assert_eq!(after, Ok(forced));
            left += 1;
        } else {
            assert_eq!(after, Err(21));
            kept += 1;
        }
    }
    assert!(kept > 50 && left > 50, "{kept} {left}");
}

/// What is answered to a merge and to a fast-forward of every two of these consoles.
fn joining_answers(room: &Room, consoles: &[usize]) -> Vec<u32> {
    let answer = |command: Command| step(room, &command).err().unwrap_or(0);
    let answers = |receiver: usize, giver: usize| {
        [
            answer(Command::Merge { receiver, giver }),
            answer(Command::FastForward { receiver, giver }),
        ]
    };
    consoles
        .iter()
        .flat_map(|&one| consoles.iter().flat_map(move |&other| answers(one, other)))
        .collect()
}

/// A leave changes no answer to whoever remains: where a third console gives 17, it may leave only behind another that gives 17.
#[test]
fn a_leave_is_not_felt_by_whoever_remains() {
    let rooms = gen::random_rooms(19, 40);
    let (mut leaves, mut torn) = (0, 0);
    for (room, console, _) in forced_leaves(&rooms) {
        let Ok(after) = step(room, &Command::Leave { console }) else {
            continue;
        };
        let remaining = after.present();
        let answers = joining_answers(&after, &remaining);
        assert_eq!(joining_answers(room, &remaining), answers);
        leaves += 1;
        torn += answers.iter().filter(|&&answer| answer == 17).count();
    }
    assert!(leaves > 50 && torn > 50, "{leaves} {torn}");
}

/// A room of capacity 4 with these versions after version 0, and these heads from console 0 up.
fn small_room(later: &[Version], heads: &[Option<usize>]) -> Room {
    let mut room = Room::opened(4);
    room.versions.extend(later);
    room.heads[..heads.len()].copy_from_slice(heads);
    room
}

fn call_on(parent: usize) -> Version {
    Version::Entry(Entry {
        parent,
        code: 0x06,
        strip: 0,
        operand: 0,
    })
}

#[test]
fn sound_clause_by_clause() {
    let two = small_room(&[call_on(0), call_on(1)], &[Some(2)]);
    assert!(sound(&two));
    for (capacity, expected) in [
        (0, false),
        (2, false),
        (3, true),
        (1024, true),
        (1025, false),
    ] {
        let resized = Room {
            capacity,
            ..two.clone()
        };
        assert_eq!(sound(&resized), expected);
    }
    let forward = small_room(&[call_on(2), call_on(0)], &[Some(1)]);
    assert!(!sound(&forward), "a parent with a higher number");
    let own = small_room(&[call_on(1)], &[Some(1)]);
    assert!(!sound(&own), "a version that is its own parent");
    let second_start = small_room(&[Version::Start], &[Some(0), Some(1)]);
    assert!(!sound(&second_start));
    let mut without_start = small_room(&[], &[Some(0)]);
    without_start.versions[0] = call_on(0);
    assert!(!sound(&without_start));
    let without_0 = small_room(&[call_on(0)], &[None, Some(1)]);
    assert!(!sound(&without_0));
    assert_eq!(layout::read(&encode(&without_0)), None);
    let no_version = small_room(&[], &[Some(0), Some(1)]);
    assert!(!sound(&no_version), "a head that names no version");
    let mut nothing = Room::opened(4);
    nothing.versions.clear();
    assert!(!sound(&nothing));
}

#[test]
fn sound_with_a_hub() {
    // 1 and 2 have version 1 in common.
    let mut with_hub = small_room(&[call_on(0)], &[Some(0), Some(1), Some(1)]);
    assert!(sound(&with_hub));
    with_hub.hub = true;
    assert!(!sound(&with_hub), "console 0 is on version 0");
    with_hub.heads[0] = Some(1);
    assert!(sound(&with_hub));
}

/// For each version the set of its ancestors, made of its parents' sets.
fn ancestor_sets(room: &Room) -> Vec<BTreeSet<usize>> {
    let mut sets: Vec<BTreeSet<usize>> = Vec::new();
    for (number, version) in room.versions.iter().enumerate() {
        let elders = parents(version).flat_map(|parent| sets[parent].iter().copied());
        let set = elders.chain([number]).collect();
        sets.push(set);
    }
    sets
}

/// Whether a hub can be there, told by sets: what two other heads have heard alike console 0 has heard too.
fn hub_by_sets(room: &Room, sets: &[BTreeSet<usize>]) -> bool {
    let heads = room.present_heads();
    let is_heard =
        |one: usize, other: usize| (&sets[one] & &sets[other]).is_subset(&sets[heads[0]]);
    (0..heads.len()).all(|one| (0..one).all(|other| is_heard(heads[one], heads[other])))
}

/// Soundness of a graph whose fields are in range, told in another way: the ancestors that two versions share are
/// exactly the ancestors of some one version.
fn sound_by_sets(room: &Room) -> bool {
    let count = room.versions.len();
    let sets = ancestor_sets(room);
    if room.hub && !hub_by_sets(room, &sets) {
        return false;
    }
    let shared = |one: usize, other: usize| -> Option<usize> {
        let both: BTreeSet<usize> = sets[one].intersection(&sets[other]).copied().collect();
        (0..count).find(|&version| sets[version] == both)
    };
    let merges = room.versions.iter().all(|version| match *version {
        Version::Merge { receiver, giver } => {
            shared(receiver, giver).is_some_and(|base| base != receiver && base != giver)
        }
        _ => true,
    });
    let heads = room.present_heads();
    let commons = heads
        .iter()
        .all(|&one| heads.iter().all(|&other| shared(one, other).is_some()));
    let heard: BTreeSet<usize> = heads
        .iter()
        .flat_map(|&head| &sets[head])
        .copied()
        .collect();
    room.heads[0].is_some() && merges && commons && heard.len() == count
}

#[test]
fn sound_agrees_with_a_second_telling() {
    let mut rng = Rng::new(14);
    let mut seen = [0, 0];
    for _ in 0..3000 {
        let version_count = rng.between(1, 14);
        let room = gen::random_graph(&mut rng, version_count);
        assert_eq!(sound(&room), sound_by_sets(&room), "{room:?}");
        seen[usize::from(sound(&room))] += 1;
    }
    assert!(seen[0] > 500 && seen[1] > 500, "{seen:?}");
}

// ---------------------------------------------------------------- origins

/// A cell of a sound room's versions, and what its origins are told by in a second way.
struct CellOfRoom<'a> {
    room: &'a Room,
    ancestry: Ancestry<'a>,
    boards: Vec<Worked<Board>>,
    strip: usize,
    cell: Cell,
}

impl CellOfRoom<'_> {
    fn of(room: &Room, strip: usize, cell: Cell) -> CellOfRoom<'_> {
        let ancestry = Ancestry::new(room);
        let boards = sound_boards(room, &ancestry);
        CellOfRoom {
            room,
            ancestry,
            boards,
            strip,
            cell,
        }
    }

    fn value(&self, version: usize) -> u16 {
        self.cell.value(&self.boards[version].value[self.strip])
    }

    /// For each version, from 0 upward, the walk to its origin. A merge shows the value of one of its sides, and its walk goes by
    /// the receiver unless the receiver shows something else.
    fn walks(&self) -> Vec<Vec<usize>> {
        let mut walks: Vec<Vec<usize>> = Vec::new();
        for (number, version) in self.room.versions.iter().enumerate() {
            let next = match *version {
                Version::Start => None,
                Version::Entry(entry) if self.cell.is_written_by(&entry, self.strip) => None,
                Version::Entry(entry) => Some(entry.parent),
                Version::Merge { receiver, .. } if self.value(receiver) == self.value(number) => {
                    Some(receiver)
                }
                Version::Merge { giver, .. } => Some(giver),
            };
            let behind = next.map_or(&[][..], |next| &walks[next]);
            let walk = [&[number], behind].concat();
            walks.push(walk);
        }
        walks
    }

    /// The found entry is one that the head descends from and has written the value shown; where there is none, the value is 0.
    fn check_origin(&self, head: usize, origin: usize) {
        assert!(self.ancestry.is_ancestor(origin, head));
        let written = match self.room.versions[origin] {
            Version::Entry(entry) => {
                assert!(self.cell.is_written_by(&entry, self.strip));
                entry.operand
            }
            Version::Start => 0,
            Version::Merge { .. } => panic!("a merge is no origin"),
        };
        assert_eq!(self.value(head), written);
    }

    /// Of a merge, whether the receiver's value differs from the base's, and whether the giver's does.
    fn changed_sides(&self, version: usize) -> Option<[bool; 2]> {
        let Version::Merge { receiver, giver } = self.room.versions[version] else {
            return None;
        };
        let base = self.ancestry.lowest_common(receiver, giver)?;
        Some([receiver, giver].map(|side| self.value(side) != self.value(base)))
    }

    /// Checks the origin with each present console.
    fn check(&self, seen: &mut SeenOrigins) {
        let walks = self.walks();
        for console in self.room.present() {
            let head = self.room.head(console).expect("the console is present");
            let walk = &walks[head];
            let origin = cell_origin(self.room, console, self.strip, self.cell).expect("the same");
            assert_eq!(Some(&origin), walk.last());
            self.check_origin(head, origin);
            seen.origins[usize::from(origin > 0)] += 1;
            let merges = walk
                .iter()
                .filter_map(|&version| self.changed_sides(version));
            merges.for_each(|[receiver, giver]| {
                seen.merges[usize::from(receiver)][usize::from(giver)] += 1;
            });
        }
    }
}

/// How many origins were version 0 and how many above it, and how many merges the walks passed, by whether the receiver's side had
/// changed the cell and whether the giver's had.
#[derive(Debug, Default)]
struct SeenOrigins {
    origins: [usize; 2],
    merges: [[usize; 2]; 2],
}

#[test]
fn origins_have_written_what_is_shown() {
    let mut seen = SeenOrigins::default();
    for room in gen::random_rooms(16, 200) {
        for strip in [0, 1, 2, 7] {
            CellOfRoom::of(&room, strip, Cell::Level).check(&mut seen);
            CellOfRoom::of(&room, strip, Cell::Heading).check(&mut seen);
        }
    }
    assert!(seen.origins.iter().all(|&met| met > 1000), "{seen:?}");
    let mut merges = seen.merges.as_flattened().iter();
    assert!(merges.all(|&met| met > 200), "{seen:?}");
}

// ---------------------------------------------------------------- clashes

/// How many levels and headings show three values on the boards of these versions.
fn cells_of_three_values(boards: &[Worked<Board>], versions: [usize; 3]) -> usize {
    let shows_three = |strip: usize, cell: Cell| {
        let values = versions.map(|version| cell.value(&boards[version].value[strip]));
        BTreeSet::from(values).len() == 3
    };
    let cells = (0..STRIPS).flat_map(|strip| [(strip, Cell::Level), (strip, Cell::Heading)]);
    cells
        .filter(|&(strip, cell)| shows_three(strip, cell))
        .count()
}

/// Merges alone have clashes, in the cells in which base, receiver and giver show three values.
#[test]
fn clashes_are_cells_of_three_values() {
    let mut seen = [0; 3];
    for room in gen::random_rooms(21, 200) {
        let ancestry = Ancestry::new(&room);
        let boards = sound_boards(&room, &ancestry);
        for (number, version) in room.versions.iter().enumerate() {
            let Version::Merge { receiver, giver } = *version else {
                assert_eq!(boards[number].clashes, 0);
                continue;
            };
            let base = ancestry.lowest_common(receiver, giver).expect("a base");
            let clashes = cells_of_three_values(&boards, [base, receiver, giver]);
            assert_eq!(boards[number].clashes, clashes);
            seen[clashes.min(2)] += 1;
        }
    }
    let [none, one, more] = seen;
    assert!(none > 300 && one > 100 && more > 5, "{seen:?}");
}

#[test]
fn clashing_rooms_have_so_many_clashes() {
    let mut rng = Rng::new(22);
    for clashes in 0..=gen::VALUES {
        let room = gen::clashing_room(&mut rng, clashes);
        assert!(sound(&room));
        for (receiver, giver) in [(0, 1), (1, 0)] {
            let merge = Command::Merge { receiver, giver };
            let merged = step(&room, &merge).expect("neither is behind");
            let boards = sound_boards(&merged, &Ancestry::new(&merged));
            assert_eq!(reported(&merge, &boards), clashes);
        }
    }
}

// ---------------------------------------------------------------- panes

/// Of each present console of some rooms its board, and its board in another room that is made of the room.
fn boards_beside(rooms: &[Room], mut other_of: impl FnMut(&Room) -> Room) -> Vec<(Board, Board)> {
    let mut boards = vec![];
    for room in rooms {
        let other = other_of(room);
        assert!(sound(&other));
        for console in room.present() {
            let [one, other] = [room, &other].map(|room| console_board(room, console));
            boards.extend(one.zip(other));
        }
    }
    boards
}

/// A student's pane is the whole board of the room in which all that belongs to the instructor was never said: told by what entries
/// and merges make of other entries, and not by what is taken off a board.
#[test]
fn a_student_sees_the_board_of_a_room_without_secrets() {
    let rooms = gen::random_rooms(44, 200);
    let (mut hiding, mut showing, mut all) = (0, 0, 0);
    for (board, silent) in boards_beside(&rooms, secrets::silent_room) {
        assert_eq!(shown_to_student(&board), silent);
        assert_eq!(shown_to_student(&silent), silent);
        assert_eq!(shown_to_instructor(&board), board);
        hiding += usize::from(board != silent);
        showing += usize::from(silent != empty_board());
        all += usize::from(board == silent && board != empty_board());
    }
    let seen = [hiding, showing, all];
    assert!(seen.iter().all(|&met| met > 50), "{seen:?}");
}

/// Other secrets leave what a student sees, and mostly change what an instructor sees.
#[test]
fn rooms_with_other_secrets() {
    let (rng, rooms) = (&mut Rng::new(45), gen::random_rooms(46, 200));
    let boards = boards_beside(&rooms, |room| secrets::other_room(rng, room));
    let mut told_apart = 0;
    for (board, other) in &boards {
        assert_eq!(shown_to_student(board), shown_to_student(other));
        told_apart += usize::from(shown_to_instructor(board) != shown_to_instructor(other));
    }
    assert!(2 * told_apart > boards.len(), "{told_apart}");
}

/// Of an entry that no student sees the console stays and the strip, the code and the mark are any; all other commands are left.
#[test]
fn other_commands_are_secrets_too() {
    let rng = &mut Rng::new(47);
    let kept: [&[u8]; 9] = [
        &[],
        &[0x02, 3, 5, 0, 8],
        &[0x03, 3, 5, 0, 8],
        &[0x04, 3, 5, 7],
        &[0x05, 3, 5, 0],
        &[0x04, 3, 5, 16],
        &[0x06, 16, 5],
        &[0x07, 3],
        &[0x09, 8, 9],
    ];
    for command in kept {
        assert_eq!(secrets::other_command(rng, command), command);
    }
    let secret: [&[u8]; 5] = [
        &[0x04, 3, 5, 8],
        &[0x05, 3, 5, 15],
        &[0x06, 3, 5],
        &[0x07, 3, 5],
        &[0x08, 3, 5],
    ];
    let (mut kinds, mut strips) = (BTreeSet::new(), BTreeSet::new());
    for command in secret.into_iter().cycle().take(2000) {
        let other = secrets::other_command(rng, command);
        let &[code, console, strip, ref mark @ ..] = &other[..] else {
            panic!("{other:02X?}");
        };
        assert!(console == 3 && decode(&other).is_ok(), "{other:02X?}");
        kinds.insert((code, mark.to_vec()));
        strips.insert(strip);
    }
    let marks = |code: u8| (8..16).map(move |mark| (code, vec![mark]));
    let due = [(0x06, vec![]), (0x07, vec![]), (0x08, vec![])];
    assert_eq!(kinds, marks(4).chain(marks(5)).chain(due).collect());
    assert_eq!(strips.len(), STRIPS);
}

// ---------------------------------------------------------------- which two can meet

/// What two of these consoles can do, told by the sets of their heads' ancestors alone. The ancestors that two heads share are those of
/// their common version, so of a third one's two common versions one is behind the other where one shared set is within the other.
fn verdict_by_sets(
    heads: &[(usize, BTreeSet<usize>)],
    one: usize,
    other: usize,
) -> Option<Verdict> {
    let ((receiver, taking), (giver, giving)) = (&heads[one], &heads[other]);
    let (receiver, giver) = (*receiver, *giver);
    let is_torn = |(_, third): &(usize, BTreeSet<usize>)| {
        let (with_receiver, with_giver) = (third & taking, third & giving);
        !with_receiver.is_subset(&with_giver) && !with_giver.is_subset(&with_receiver)
    };
    if giving.is_subset(taking) {
        None
    } else if taking.is_subset(giving) {
        Some(Verdict::FastForward { receiver, giver })
    } else if heads.iter().any(is_torn) {
        None
    } else {
        Some(Verdict::Merge { receiver, giver })
    }
}

/// All the verdicts of a room, the giver changing faster.
fn verdicts_by_sets(room: &Room) -> Vec<Verdict> {
    let sets = ancestor_sets(room);
    let present = room.present().into_iter();
    let heads: Vec<(usize, BTreeSet<usize>)> = present
        .filter_map(|console| Some((console, sets[room.head(console)?].clone())))
        .collect();
    let pairs = (0..heads.len()).flat_map(|one| (0..heads.len()).map(move |other| (one, other)));
    pairs
        .filter(|&(one, other)| is_met(room, heads[one].0, heads[other].0))
        .filter_map(|(one, other)| verdict_by_sets(&heads, one, other))
        .collect()
}

/// The first of all verdicts is answered; where there is none, whether there is one head. Since of two that can merge each can be the
/// receiver, the first pair that merges has the lower console for it.
#[test]
fn verdicts_agree_with_a_second_telling() {
    let mut rng = Rng::new(25);
    let stuck = (0..30).map(|_| gen::some_stuck_room(&mut rng)).collect();
    let mut met = [0; 4];
    for room in [gen::random_rooms(26, 300), stuck].concat() {
        let found = verdict(&room);
        let heads = BTreeSet::from_iter(room.present_heads());
        let due = match (verdicts_by_sets(&room).first(), heads.len()) {
            (Some(&first), _) => first,
            (None, 1) => Verdict::AllAgree,
            (None, _) => Verdict::Stuck,
        };
        assert_eq!(found, due, "{room:?}");
        if let Verdict::Merge { receiver, giver } = found {
            assert!(receiver < giver, "{room:?}");
        }
        met[found.number() / 256] += 1;
    }
    assert!(met.iter().all(|&met| met > 20), "{met:?}");
}

/// A number that stands for an answer is the number of that answer. There are two answers without a pair, and two for each pair.
#[test]
fn numbers_of_verdicts() {
    let mut verdicts = 0;
    for number in 0..2000 {
        if let Some(verdict) = Verdict::of_number(number) {
            assert_eq!(verdict.number(), number as usize);
            verdicts += 1;
        }
    }
    assert_eq!(verdicts, 2 + 2 * 16 * 15);
}

/// The answers to a merge of each two of the first so many consoles.
fn merge_answers(room: &Room, consoles: usize) -> impl Iterator<Item = u32> + '_ {
    let answer = |receiver, giver| step(room, &Command::Merge { receiver, giver }).err();
    let pairs = (0..consoles).flat_map(move |one| (0..consoles).map(move |other| (one, other)));
    pairs
        .filter(|(receiver, giver)| receiver != giver)
        .map(move |(receiver, giver)| answer(receiver, giver).unwrap_or(0))
}

/// How many of the 240 pairs of two consoles have this answer to a merge.
fn merges_with(room: &Room, due: u32) -> usize {
    merge_answers(room, CONSOLES)
        .filter(|&answer| answer == due)
        .count()
}

#[test]
fn rooms_in_which_no_two_can_meet() {
    let rooms = [
        (gen::agreeing_room(64), Verdict::AllAgree, 240),
        // 8, 4 and 4 consoles on a head.
        (gen::stuck_room(64), Verdict::Stuck, 8 * 7 + 2 * 4 * 3),
        (gen::stuck_apart_room(128), Verdict::Stuck, 0),
    ];
    for (room, answer, on_one_head) in rooms {
        assert!(sound(&room));
        assert_eq!(room.versions.len(), room.capacity);
        assert_eq!(room.present().len(), CONSOLES);
        assert_eq!(verdict(&room), answer);
        assert_eq!(merges_with(&room, 14), on_one_head);
        assert_eq!(merges_with(&room, 17), 240 - on_one_head);
    }
    let mut rng = Rng::new(27);
    for _ in 0..30 {
        let room = gen::some_stuck_room(&mut rng);
        assert!(sound(&room));
        assert_eq!(verdict(&room), Verdict::Stuck);
    }
}

/// What makes the search long: of all third consoles the last two alone, and each of them, keep two others from merging.
/// The rooms without them are not sound, which no command looks at.
#[test]
fn the_last_two_keep_the_others_apart() {
    let mut room = gen::stuck_apart_room(128);
    room.capacity += 1;
    let answers_without = |gone: &[usize]| {
        let mut rest = room.clone();
        gone.iter().for_each(|&console| rest.heads[console] = None);
        BTreeSet::from_iter(merge_answers(&rest, CONSOLES - 2))
    };
    for gone in [&[][..], &[14], &[15]] {
        assert_eq!(answers_without(gone), BTreeSet::from([17]), "{gone:?}");
    }
    assert_eq!(answers_without(&[14, 15]), BTreeSet::from([0]));
}

// ---------------------------------------------------------------- rooms with a hub

/// So many rooms with a hub.
fn hub_rooms(seed: u64, count: usize) -> Vec<Room> {
    let rng = &mut Rng::new(seed);
    (0..count)
        .map(|_| {
            let (capacity, length) = (rng.between(1, 60), rng.below(120));
            gen::hub_room(rng, capacity, length)
        })
        .collect()
}

/// The same room in which console 0 is no hub.
fn without_hub(room: &Room) -> Room {
    Room {
        hub: false,
        ..room.clone()
    }
}

/// Refusal 23 stands exactly where two consoles have heard something alike that console 0 has not; and all that 0C changes is the hub.
#[test]
fn refusal_23_is_exact() {
    let (mut refused, mut entered) = (0, 0);
    for room in gen::random_rooms(31, 300) {
        let after = step(&room, &Command::MakeHub);
        if hub_by_sets(&room, &ancestor_sets(&room)) {
            let entering = without_hub(&room);
            assert_eq!(step(&entering, &Command::MakeHub), after);
            assert_eq!(after.map(|room| without_hub(&room)), Ok(entering));
            entered += 1;
        } else {
            assert_eq!(after, Err(23));
            refused += 1;
        }
    }
    assert!(refused > 50 && entered > 50, "{refused} {entered}");
}

/// What each merge and fast-forward is answered: 22 exactly where neither console is the hub, else as without a hub, and never 17.
#[test]
fn a_hub_changes_no_answer_but_to_22() {
    let mut met = [0; 24];
    for room in hub_rooms(32, 150) {
        let present = room.present();
        let of_two = |one: usize| present.iter().flat_map(move |&other| [(one, other); 2]);
        let pairs = present.iter().flat_map(|&one| of_two(one));
        let free_answers = joining_answers(&without_hub(&room), &present);
        let answers = joining_answers(&room, &present);
        for (((one, other), free), answer) in pairs.zip(free_answers).zip(answers) {
            let due = if is_met(&room, one, other) { free } else { 22 };
            assert_eq!(answer, due, "{one} and {other}: {room:?}");
            met[answer as usize] += 1;
        }
    }
    assert_eq!(met[17], 0);
    let often = [0, 14, 15, 16, 18, 22];
    assert!(often.into_iter().all(|answer| met[answer] > 100), "{met:?}");
}

/// A room that can have a hub names the same two with it and without it, and is never stuck.
#[test]
fn a_hub_changes_no_verdict() {
    let mut met = [0; 4];
    for room in hub_rooms(33, 200) {
        let found = verdict(&room);
        assert_eq!(found, verdict(&without_hub(&room)), "{room:?}");
        met[found.number() / 256] += 1;
    }
    let [agreeing, stuck, merging, forwarding] = met;
    assert_eq!(stuck, 0);
    assert!(agreeing > 10 && merging > 20 && forwarding > 20, "{met:?}");
}

/// A hub is for good, and every step keeps it possible.
#[test]
fn every_step_keeps_the_hub() {
    let mut rng = Rng::new(34);
    let (mut hubs, mut steps) = (0, 0);
    for _ in 0..30 {
        let opened = Room::opened(48);
        let (commands, _) = gen::hub_from(&mut rng, opened.clone(), 150);
        let mut had_hub = false;
        for (command, room) in accepted_from(opened, commands) {
            assert!(sound(&room) && sound_by_sets(&room), "{command:02X?}");
            assert!(room.hub || !had_hub, "{command:02X?}");
            had_hub = room.hub;
            steps += usize::from(had_hub);
        }
        hubs += usize::from(had_hub);
    }
    assert!(hubs > 25 && steps > 1000, "{hubs} {steps}");
}

/// With n consoles and n - 1 versions free at most 2(n - 1) commands, all accepted, bring all to one head.
#[test]
fn a_hub_gathers_all() {
    let mut longest = 0;
    for mut room in hub_rooms(35, 200) {
        let others = room.present().len() - 1;
        room.capacity = room.versions.len() + others;
        let commands = gen::gathering(&room);
        let count = commands.len();
        assert!(count <= 2 * others);
        let steps = accepted_from(room.clone(), commands);
        assert_eq!(steps.len(), count, "{room:?}");
        let (_, gathered) = steps.last().cloned().unwrap_or((vec![], room));
        assert_eq!(verdict(&gathered), Verdict::AllAgree);
        longest = longest.max(count);
    }
    assert!(longest > 12, "{longest}");
}

// ---------------------------------------------------------------- the generators

#[test]
fn full_rooms_of_entries() {
    for capacity in [64, 256, 1024] {
        let room = gen::full_of_entries(&mut Rng::new(6), capacity);
        assert!(sound(&room));
        assert_eq!(room.versions.len(), capacity);
        assert_eq!(room.present().len(), CONSOLES);
        assert_eq!(entry_count(&room), capacity - 1);
        assert_eq!(layout::read(&encode(&room)), Some(room));
    }
}

#[test]
fn full_rooms_with_a_merge_in_every_second_place() {
    for capacity in [64, 256, 1024] {
        let room = gen::full_of_merges(&mut Rng::new(7), capacity);
        assert!(sound(&room));
        assert_eq!(room.versions.len(), capacity);
        assert_eq!(room.present().len(), CONSOLES);
        let mut later = room.versions.iter().enumerate().skip(2);
        assert!(later.all(|(number, version)| {
            matches!(version, Version::Merge { .. }) == (number % 2 == 1)
        }));
        assert_eq!(layout::read(&encode(&room)), Some(room));
    }
}

#[test]
fn full_rooms_through_a_hub() {
    for capacity in [64, 256, 1024] {
        let room = gen::full_through_hub(&mut Rng::new(36), capacity);
        assert!(room.hub && sound(&room));
        assert_eq!(room.versions.len(), capacity);
        assert_eq!(room.present().len(), CONSOLES);
        let merges = capacity - 1 - entry_count(&room);
        assert_eq!(merges, capacity / 2 - 1);
    }
}

#[test]
fn rooms_with_a_hub_are_sound() {
    let rooms = hub_rooms(37, 200);
    assert!(rooms.iter().all(|room| room.hub && sound(room)));
    let merges = |room: &Room| room.versions.len() - 1 - entry_count(room);
    assert!(rooms.iter().filter(|room| merges(room) > 0).count() > 50);
}

#[test]
fn full_rooms_of_many_seeds_and_capacities() {
    for seed in 0..60 {
        let mut rng = Rng::new(seed);
        let capacity = rng.between(1, 64);
        assert!(sound(&gen::full_of_entries(&mut rng, capacity)));
        let room = gen::full_of_merges(&mut rng, capacity);
        assert!(sound(&room));
        let merges = capacity - 1 - entry_count(&room);
        assert_eq!(merges, (capacity / 2).saturating_sub(1));
    }
}

/// The versions on the walk from console 0's head to the origin of a cell that no entry writes.
fn longest_walk(room: &Room) -> usize {
    let head = room.head(0).expect("console 0 is present");
    CellOfRoom::of(room, 31, Cell::Heading).walks()[head].len()
}

#[test]
fn chains_are_full_rooms_with_long_walks() {
    let entries = gen::chain_of_entries(1024);
    assert!(sound(&entries));
    assert_eq!(entry_count(&entries), 1023);
    assert_eq!(longest_walk(&entries), 1024);
    let merges = gen::chain_of_merges(1024);
    assert!(sound(&merges));
    assert_eq!(merges.versions.len(), 1024);
    assert_eq!(entry_count(&merges), 512);
    assert_eq!(longest_walk(&merges), 511 + 2, "all merges, then 1 and 0");
}

fn entry_count(room: &Room) -> usize {
    let is_entry = |version: &&Version| matches!(version, Version::Entry(_));
    room.versions.iter().filter(is_entry).count()
}

#[test]
fn most_commands_of_a_sequence_are_accepted() {
    let mut rng = Rng::new(15);
    let mut accepted_codes = [0; 13];
    for (command, _) in (0..20).flat_map(|_| accepted_steps(&mut rng, 64, 100)) {
        accepted_codes[usize::from(command[0])] += 1;
    }
    assert!(accepted_codes[1..12].iter().all(|&count| count > 50));
    // A hub is for good, and would be in most rooms if it were made more often.
    assert!(accepted_codes[12] < 10);
    assert!(accepted_codes.iter().sum::<usize>() > 1400);
}

/// A room with turnover fills up to 16 consoles and empties again, over and over.
#[test]
fn consoles_come_and_go_for_long() {
    let opened = Room::opened(96);
    let (commands, _) = gen::turnover_from(&mut Rng::new(20), opened.clone(), 640);
    let (mut is_full, mut ebbs, mut leaves) = (false, 0, 0);
    for (command, room) in accepted_from(opened, commands) {
        assert!(sound(&room), "{command:02X?}");
        leaves += usize::from(command[0] == 0x0B);
        match room.present().len() {
            CONSOLES => is_full = true,
            0..=10 if is_full => {
                is_full = false;
                ebbs += 1;
            }
            _ => {}
        }
    }
    assert!(leaves > 60 && ebbs > 4, "{leaves} {ebbs}");
}

#[test]
fn graph_tapes_are_sound_and_unsound() {
    let mut rng = Rng::new(8);
    let mut answers = [0; 20];
    for _ in 0..1000 {
        let tape = gen::graph_tape(&mut rng);
        let answer = room_of_tape(&tape).err().unwrap_or(0);
        answers[answer as usize] += 1;
    }
    assert!(answers[0] > 200 && answers[10] > 200, "{answers:?}");
}

#[test]
fn what_is_lent_beside_a_store() {
    let mut rng = Rng::new(35);
    let earlier = encode(&gen::random_room(&mut rng, 12, 30));
    let (mut same, mut none, mut shorter, mut sound_others, mut others) = (0, 0, 0, 0, 0);
    for _ in 0..400 {
        let beside = gen::store_beside(&mut rng, &earlier);
        let kind = match layout::read(&beside) {
            Some(_) if beside == earlier => &mut same,
            Some(_) => &mut sound_others,
            None if beside.is_empty() => &mut none,
            None if earlier.starts_with(&beside) => &mut shorter,
            None => &mut others,
        };
        *kind += 1;
    }
    assert!(same > 200 && sound_others < 10, "{same} {sound_others}");
    assert!([none, shorter, others].iter().all(|&met| met > 20));
}
