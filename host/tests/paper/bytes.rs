// The store's bytes: the layout, round trips, damage, and buffers that hold no store.

use super::cases::stuck_store;
use super::store::{
    accepted, refused, resume, resumed, Store, FILLER, PRINTED_INPUT, PRINTED_TAPE,
};
use super::tested;
use room_host::gen;
use room_host::layout::{encode, store_bytes};
use room_host::model::{sound, tape_of};
use room_host::rng::Rng;

#[test]
fn the_layout_of_a_small_store() {
    let mut store = Store::open(64);
    store.say_all(&PRINTED_INPUT[..4]);
    assert_eq!(store.bytes[256..262], [0, 4, 0, 3, 0, 0], "heads 3 and 2");
    assert_eq!(store.bytes[288..294], [0, 3, 0, 3, 0, 0]);
    store.say_all(&PRINTED_INPUT[4..5]);
    let bytes = &store.bytes;
    assert_eq!(bytes[..6], [0, 64, 0, 0, 0, 4]);
    assert!(bytes[6..128].iter().all(|&byte| byte == 0));
    assert_eq!(bytes[128], 0b0110);
    assert_eq!(bytes[256..260], [0, 4, 0, 4]);
    assert_eq!(bytes[288..292], [0, 4, 0, 4]);
    assert!(bytes[292..4096].iter().all(|&byte| byte == 0));
    let block = |version: usize| &bytes[4096 + 544 * version..4096 + 544 * (version + 1)];
    assert!(block(0)[..32].iter().all(|&byte| byte == 0));
    assert_eq!(block(0)[32], 1);
    assert_eq!(block(1)[..10], [2, 5, 0, 100, 0, 0, 0, 0, 0, 0]);
    assert_eq!(block(1)[32], 0b0011);
    assert_eq!(block(2)[..10], [6, 5, 0, 0, 0, 0, 0, 0, 0, 0]);
    assert_eq!(block(2)[32], 0b0101);
    assert_eq!(block(3)[..10], [9, 0, 0, 0, 0, 1, 0, 2, 0, 0]);
    assert_eq!(block(3)[32], 0b1111);
    assert_eq!(block(3)[160 + 60..160 + 62], [0, 100]);
    assert_eq!(block(3)[160 + 66..160 + 68], [0, 1]);
    assert!(block(4).iter().all(|&byte| byte == 0));
}

#[test]
fn the_bytes_of_a_new_store() {
    let mut expected = [0; 4096 + 544];
    expected[..6].copy_from_slice(&[0, 1, 0, 0, 0, 1]);
    expected[256..258].copy_from_slice(&[0, 1]);
    expected[4096 + 32] = 1;
    assert_eq!(Store::open(1).bytes[..4640], expected);
}

/// Every changed bit of a store gives 11, save in the capacity, which may name a smaller sound store. Console 0 can't be the hub there, as 1
/// and 2 have version 4 in common, which it has not heard.
#[test]
fn every_changed_bit_is_seen() {
    let mut store = Store::open(6);
    store.say_all(&[
        &[0x01, 1, 0],
        &[0x02, 0, 5, 0, 100],
        &[0x06, 1, 5],
        &[0x09, 0, 1],
        &[0x04, 1, 5, 3],
        &[0x01, 2, 1],
    ]);
    let length = store_bytes(6);
    for bit in 16..8 * length {
        store.bytes[bit / 8] ^= 1 << (bit % 8);
        assert_eq!(store.heard(0), refused(11), "bit {bit}");
        store.bytes[bit / 8] ^= 1 << (bit % 8);
    }
    assert_eq!(store.heard(0), accepted(2));
}

#[test]
fn bytes_behind_the_store_have_no_influence() {
    let mut rng = Rng::new(5);
    let exact = encode(&gen::random_room(&mut rng, 30, 40));
    let mut longer = exact.clone();
    longer.extend((0..700).map(|_| rng.byte()));
    let command = [0x01, 15, 0];
    let (mut one, mut other) = (exact.clone(), longer.clone());
    assert_eq!(
        tested::command(&mut one, &command),
        tested::command(&mut other, &command)
    );
    assert_eq!(other[..exact.len()], one);
    assert_eq!(other[exact.len()..], longer[exact.len()..]);
}

#[test]
fn opening_and_resuming_replace_a_running_room() {
    let fresh = Store::open(64);
    let mut store = stuck_store();
    assert_eq!(tested::open(64, &mut store.bytes), accepted(0));
    assert_eq!(store.bytes, fresh.bytes);
    assert_eq!(tested::resume(&PRINTED_TAPE, &mut store.bytes), accepted(0));
    assert_eq!(store.tape(), PRINTED_TAPE);
}

#[test]
fn two_hundred_rooms_come_back_from_their_tapes() {
    for room in gen::random_rooms(1, 200) {
        let store = Store::of_room(&room);
        assert_eq!(store.tape(), tape_of(&room));
        let mut again = vec![FILLER; store.bytes.len()];
        assert_eq!(tested::resume(&store.tape(), &mut again), accepted(0));
        assert_eq!(again, store.bytes);
    }
}

#[test]
fn damaged_tapes_never_trap() {
    let mut rng = Rng::new(9);
    let mut answers = [0; 20];
    for _ in 0..2000 {
        let tape = gen::graph_tape(&mut rng);
        let damaged = gen::damaged_tape(&mut rng, &tape);
        let answer = match resumed(&damaged) {
            Ok(store) => {
                assert_eq!(store.tape(), damaged, "one room has one tape");
                0
            }
            Err(refusal) => refusal,
        };
        answers[answer as usize] += 1;
    }
    let often = |answer: usize| answers[answer] > 20;
    assert!([0, 7, 8, 9, 10].into_iter().all(often), "{answers:?}");
}

/// Whether bytes are taken for a store; where they are, its tape must give back every byte of it and leave those behind it.
fn is_taken(bytes: &[u8]) -> bool {
    let mut tape = [FILLER; 8000];
    let reply = tested::pause(bytes, &mut tape);
    if reply == refused(11) {
        return false;
    }
    assert_eq!(reply.answer, 0);
    let length = store_bytes(usize::from(u16::from_be_bytes([bytes[0], bytes[1]])));
    let inverted: Vec<u8> = bytes.iter().map(|byte| !byte).collect();
    let mut again = inverted.clone();
    let tape = &tape[..reply.count as usize];
    assert_eq!(tested::resume(tape, &mut again), accepted(0));
    assert!(again[..length] == bytes[..length] && again[length..] == inverted[length..]);
    true
}

#[test]
fn damaged_stores_are_refused_or_still_stores() {
    let mut rng = Rng::new(10);
    let (mut taken, mut refused_ones) = (0, 0);
    let stores = gen::random_rooms(11, 40)
        .into_iter()
        .flat_map(|room| vec![encode(&room); 30]);
    for store in stores {
        if is_taken(&gen::damaged_store(&mut rng, &store)) {
            taken += 1;
        } else {
            refused_ones += 1;
        }
    }
    assert!(taken > 5 && refused_ones > 500, "{taken} {refused_ones}");
}

#[test]
fn plausible_stores_are_taken_exactly_where_sound() {
    let mut rng = Rng::new(12);
    let (mut taken, mut refused_ones) = (0, 0);
    for _ in 0..600 {
        let version_count = rng.between(1, 12);
        let room = gen::random_graph(&mut rng, version_count);
        let store = gen::plausible_store(&room);
        let reply = tested::common(&store, 0, 0);
        if sound(&room) {
            assert_eq!(reply.answer, 0);
            taken += 1;
        } else {
            assert_eq!(reply, refused(11));
            refused_ones += 1;
        }
    }
    assert!(taken > 50 && refused_ones > 50, "{taken} {refused_ones}");
}

#[test]
fn garbage_never_traps() {
    let mut rng = Rng::new(13);
    for _ in 0..300 {
        let bytes = gen::garbage(&mut rng, 20_000);
        assert_eq!(tested::common(&bytes, 0, 0), refused(11));
        assert_ne!(resume(&bytes), 0);
    }
}
