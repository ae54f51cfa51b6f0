// Each refusal, and a neighbour that is accepted.

use super::cases::store_of_three_consoles;
use super::store::{
    accepted, refused, resume, tape_with, Store, CALL_ON_0, FILLER, HEAD_0_ON_0, PRINTED_INPUT,
    PRINTED_TAPE,
};
use super::tested;
use room_host::layout::store_bytes;

#[test]
fn refusal_1_no_such_command() {
    let mut store = Store::open(4);
    let of_a_tape = [0x20, 0, 4];
    let commands = [
        &[][..],
        &[0x00],
        &[0x00, 2, 0],
        &[0x0D],
        &[0x0D, 1],
        &[0x0D, 0, 0],
        &of_a_tape,
        &[0xFF; 5],
    ];
    for command in commands {
        assert_eq!(store.say(command), 1);
    }
    assert_eq!(store.say(&[0x01, 1, 0]), 0);
    assert_eq!(store.say(&[0x06, 0, 0]), 0);
    assert_eq!(store.say(&[0x0A, 1, 0]), 0);
    assert_eq!(store.say(&[0x0B, 1]), 0);
    assert_eq!(store.say(&[0x0C]), 0);
}

#[test]
fn refusal_2_length() {
    let neighbours: [&[u8]; 8] = [
        &[0x01, 1, 0],
        &[0x02, 0, 0, 0, 0],
        &[0x03, 0, 0, 0, 0],
        &[0x04, 0, 0, 0],
        &[0x05, 0, 0, 0],
        &[0x06, 0, 0],
        &[0x07, 0, 0],
        &[0x08, 0, 0],
    ];
    let mut store = Store::open(16);
    for command in neighbours {
        let mut shorter = (1..command.len()).map(|length| &command[..length]);
        assert!(shorter.all(|cut| store.say(cut) == 2));
        assert_eq!(store.say(&[command, &[0]].concat()), 2);
        assert_eq!(store.say(command), 0);
    }
    assert_eq!(store.say(&[0x09, 0]), 2);
    assert_eq!(store.say(&[0x09, 0, 1, 0]), 2);
    assert_eq!(store.say(&[0x0A, 1]), 2);
    assert_eq!(store.say(&[0x0A, 1, 0, 0]), 2);
    assert_eq!(store.say(&[0x0A, 1, 0]), 0);
    assert_eq!(store.say(&[0x0B]), 2);
    assert_eq!(store.say(&[0x0B, 1, 0]), 2);
    assert_eq!(store.say(&[0x0B, 0, 0]), 2);
    assert_eq!(store.say(&[0x0B, 1]), 0);
    assert_eq!(store.say(&[0x0C, 0]), 2);
    assert_eq!(store.say(&[0x0C, 0x0C]), 2);
    assert_eq!(store.say(&[0x0C, 0, 0]), 2);
    assert_eq!(store.say(&[0x0C]), 0);
}

#[test]
fn refusal_3_console() {
    let mut store = Store::open(4);
    assert_eq!(store.say(&[0x01, 16, 0]), 3);
    assert_eq!(store.say(&[0x01, 15, 16]), 3);
    assert_eq!(store.say(&[0x01, 15, 0]), 0);
    assert_eq!(store.say(&[0x06, 16, 0]), 3);
    assert_eq!(store.say(&[0x06, 15, 0]), 0);
    assert_eq!(store.say(&[0x09, 0, 16]), 3);
    assert_eq!(store.say(&[0x0A, 16, 0]), 3);
    assert_eq!(store.heard(16), refused(3));
    assert_eq!(store.heard(256), refused(3));
    assert_eq!(store.heard(15), accepted(1));
    assert_eq!(store.common(1, 16), refused(3));
    assert_eq!(store.common(u32::MAX, 0), refused(3));
    assert_eq!(store.common(0, 15), accepted(0));
    assert_eq!(tested::board(&store.bytes, 16, &mut []), refused(3));
    for too_high in [16, 256, 65_536 + 15, u32::MAX] {
        assert_eq!(store.origin(too_high, 0, 0), refused(3));
    }
    assert_eq!(store.origin(15, 0, 0), accepted(0));
    assert_eq!(store.say(&[0x0A, 0, 15]), 0);
    for too_high in [16, 16 + 15, 255] {
        assert_eq!(store.say(&[0x0B, too_high]), 3);
    }
    assert_eq!(store.say(&[0x0B, 15]), 0);
}

#[test]
fn refusal_4_strip() {
    let mut store = Store::open(16);
    for code in 0x02..=0x08 {
        let length = [5, 5, 4, 4, 3, 3, 3][code as usize - 2];
        let command = |strip: u8| [code, 0, strip, 0, 0][..length].to_vec();
        assert_eq!(store.say(&command(32)), 4);
        assert_eq!(store.say(&command(31)), 0);
    }
    for too_high in [32, 256, 256 + 31, 65_536 + 31, u32::MAX] {
        assert_eq!(store.origin(0, too_high, 0), refused(4));
    }
    assert_eq!(store.origin(0, 31, 0), accepted(1));
}

#[test]
fn refusal_5_operand() {
    let mut store = Store::open(16);
    let cases: [(&[u8], &[u8]); 4] = [
        (&[0x02, 0, 0, 0x02, 0x59], &[0x02, 0, 0, 0x02, 0x58]),
        (&[0x03, 0, 0, 0x01, 0x69], &[0x03, 0, 0, 0x01, 0x68]),
        (&[0x04, 0, 0, 16], &[0x04, 0, 0, 15]),
        (&[0x05, 0, 0, 16], &[0x05, 0, 0, 15]),
    ];
    for (too_high, highest) in cases {
        assert_eq!(store.say(too_high), 5);
        assert_eq!(store.say(highest), 0);
    }
    for too_high in [2, 3, 256, 256 + 1, 65_536, 65_536 + 1, u32::MAX] {
        assert_eq!(store.origin(0, 0, too_high), refused(5));
    }
    assert_eq!(store.origin(0, 0, 0), accepted(1));
    assert_eq!(store.origin(0, 0, 1), accepted(2));
}

#[test]
fn refusal_6_same_console() {
    let mut store = Store::open(4);
    for code in [0x01, 0x09, 0x0A] {
        assert_eq!(store.say(&[code, 0, 0]), 6);
        assert_eq!(store.say(&[code, 7, 7]), 6);
    }
    assert_eq!(store.say(&[0x01, 7, 0]), 0);
    assert_eq!(store.common(7, 7), accepted(0));
}

#[test]
fn refusal_7_no_tape() {
    let tape = PRINTED_TAPE;
    assert_eq!(resume(&tape), 0);
    for length in 0..tape.len() {
        assert_eq!(resume(&tape[..length]), 7);
    }
    assert_eq!(resume(&[&tape[..], &[0x24]].concat()), 7);
    assert_eq!(resume(&[&tape[..], &[0]].concat()), 7);
    assert_eq!(resume(&tape[3..]), 7, "no start");
    assert_eq!(resume(&tape_with(&[])), 7, "no head");
    assert_eq!(resume(&tape_with(&[&CALL_ON_0])), 7, "no head");
    assert_eq!(resume(&tape_with(&[&HEAD_0_ON_0, &CALL_ON_0])), 7);
    let merge = [0x22, 0, 0, 0, 0];
    assert_eq!(resume(&tape_with(&[&HEAD_0_ON_0, &merge])), 7);
    assert_eq!(resume(&tape_with(&[&HEAD_0_ON_0, &[0x26]])), 7);
    let command = [0x06, 0, 0];
    assert_eq!(resume(&tape_with(&[&command, &HEAD_0_ON_0])), 7);
    assert_eq!(resume(&tape_with(&[&[0x20, 4, 0], &HEAD_0_ON_0])), 7);
    assert_eq!(resume(&tape_with(&[&HEAD_0_ON_0, &[0x24]])), 7);
    assert_eq!(resume(&tape_with(&[&[0x25], &HEAD_0_ON_0])), 7);
    assert_eq!(resume(&tape_with(&[&HEAD_0_ON_0])), 0);
    assert_eq!(resume(&tape_with(&[&HEAD_0_ON_0, &[0x25]])), 0);
}

#[test]
fn refusal_8_capacity() {
    let tape = |high: u8, low: u8| [0x20, high, low, 0x23, 0, 0, 0, 0x24];
    assert_eq!(resume(&tape(0, 0)), 8);
    assert_eq!(resume(&tape(4, 1)), 8);
    assert_eq!(resume(&tape(0xFF, 0xFF)), 8);
    assert_eq!(resume(&tape(0, 1)), 0);
    assert_eq!(resume(&tape(4, 0)), 0);
    let mut lent = vec![FILLER; store_bytes(1025)];
    for capacity in [0, 1025, 65_537, u32::MAX] {
        assert_eq!(tested::open(capacity, &mut lent), refused(8));
        assert!(lent.iter().all(|&byte| byte == FILLER));
    }
    assert_eq!(tested::open(1, &mut lent), accepted(0));
    assert_eq!(tested::open(1024, &mut lent), accepted(0));
    assert_eq!(lent[store_bytes(1024)..], [FILLER; 544]);
}

#[test]
fn refusal_9_versions_out_of_range() {
    let entry = |entry: [u8; 7]| resume(&tape_with(&[&entry, &[0x23, 0, 0, 1]]));
    assert_eq!(entry([0x21, 0, 1, 0x06, 0, 0, 0]), 9, "its own parent");
    assert_eq!(entry([0x21, 0, 0, 0x06, 0, 0, 0]), 0);
    assert_eq!(entry([0x21, 0, 0, 0x01, 0, 0, 0]), 9);
    assert_eq!(entry([0x21, 0, 0, 0x02, 0, 0, 0]), 0);
    assert_eq!(entry([0x21, 0, 0, 0x09, 0, 0, 0]), 9);
    assert_eq!(entry([0x21, 0, 0, 0x08, 0, 0, 0]), 0);
    assert_eq!(entry([0x21, 0, 0, 0x02, 32, 0, 0]), 9);
    assert_eq!(entry([0x21, 0, 0, 0x02, 31, 0, 0]), 0);
    assert_eq!(entry([0x21, 0, 0, 0x02, 0, 0x02, 0x59]), 9);
    assert_eq!(entry([0x21, 0, 0, 0x02, 0, 0x02, 0x58]), 0);
    assert_eq!(entry([0x21, 0, 0, 0x03, 0, 0x01, 0x69]), 9);
    assert_eq!(entry([0x21, 0, 0, 0x03, 0, 0x01, 0x68]), 0);
    assert_eq!(entry([0x21, 0, 0, 0x04, 0, 0x01, 0x00]), 9);
    assert_eq!(entry([0x21, 0, 0, 0x04, 0, 0, 15]), 0);
    assert_eq!(entry([0x21, 0, 0, 0x05, 0, 0, 16]), 9);
    assert_eq!(entry([0x21, 0, 0, 0x05, 0, 0, 15]), 0);
    for code in 0x06..=0x08 {
        assert_eq!(entry([0x21, 0, 0, code, 0, 0, 1]), 9);
        assert_eq!(entry([0x21, 0, 0, code, 0, 0, 0]), 0);
    }
    let second = |parent: u8| {
        let entry = [0x21, 0, parent, 0x06, 0, 0, 0];
        resume(&tape_with(&[&CALL_ON_0, &entry, &[0x23, 0, 0, 2]]))
    };
    assert_eq!(second(2), 9, "its own parent");
    assert_eq!(second(1), 0);
}

#[test]
fn refusal_9_merge_parents_and_counts() {
    let merge = |merge: [u8; 5]| {
        let head = [0x23, 0, 0, 3];
        resume(&tape_with(&[&CALL_ON_0, &CALL_ON_0, &merge, &head]))
    };
    assert_eq!(merge([0x22, 0, 1, 0, 3]), 9);
    assert_eq!(merge([0x22, 0, 3, 0, 1]), 9);
    assert_eq!(merge([0x22, 0, 1, 0, 2]), 0);
    let small = |capacity: u8| {
        let start = [0x20, 0, capacity];
        let end = [0x23, 0, 0, 1, 0x24];
        resume(&[&start[..], &CALL_ON_0, &end].concat())
    };
    assert_eq!(small(0), 8);
    assert_eq!(small(1), 9);
    assert_eq!(small(2), 0);
    let many = CALL_ON_0.repeat(65_536);
    assert_eq!(resume(&tape_with(&[&many, &HEAD_0_ON_0])), 9);
}

#[test]
fn refusal_9_heads() {
    let heads = |heads: &[[u8; 4]]| resume(&tape_with(&[&CALL_ON_0, &heads.concat()]));
    let head = |console: u8, version: u8| [0x23, console, 0, version];
    assert_eq!(heads(&[head(1, 1)]), 9);
    assert_eq!(heads(&[head(0, 2)]), 9);
    assert_eq!(heads(&[head(0, 1)]), 0);
    assert_eq!(heads(&[head(0, 1), head(0, 1)]), 9);
    assert_eq!(heads(&[head(0, 1), head(2, 1), head(1, 1)]), 9);
    assert_eq!(heads(&[head(0, 1), head(16, 1)]), 9);
    assert_eq!(heads(&[head(0, 1), head(15, 0)]), 0);
    let sixteen: Vec<[u8; 4]> = (0..16).map(|console| head(console, 1)).collect();
    assert_eq!(heads(&sixteen), 0);
    let seventeen: Vec<[u8; 4]> = (0..17).map(|console| head(console, 1)).collect();
    assert_eq!(heads(&seventeen), 9);
}

#[test]
fn refusal_10_no_sound_store() {
    let tape = |records: &[&[u8]]| resume(&tape_with(records));
    let on_1 = [0x21, 0, 1, 0x06, 0, 0, 0];
    assert_eq!(tape(&[&CALL_ON_0, &HEAD_0_ON_0]), 10, "version 1 lost");
    assert_eq!(tape(&[&CALL_ON_0, &[0x23, 0, 0, 1]]), 0);
    let lost_below = [&CALL_ON_0[..], &CALL_ON_0, &[0x23, 0, 0, 2]];
    assert_eq!(tape(&lost_below), 10, "version 1 lost below head 2");
    let two_heads = [[0x23, 0, 0, 1], [0x23, 1, 0, 2]].concat();
    assert_eq!(tape(&[&CALL_ON_0, &CALL_ON_0, &two_heads]), 0);
    let same_twice = [0x22, 0, 1, 0, 1];
    assert_eq!(tape(&[&CALL_ON_0, &same_twice, &[0x23, 0, 0, 2]]), 10);
    let receiver_behind = [0x22, 0, 0, 0, 1];
    assert_eq!(tape(&[&CALL_ON_0, &receiver_behind, &[0x23, 0, 0, 2]]), 10);
    let behind = [0x22, 0, 1, 0, 2];
    assert_eq!(tape(&[&CALL_ON_0, &on_1, &behind, &[0x23, 0, 0, 3]]), 10);
    assert_eq!(
        tape(&[&CALL_ON_0, &CALL_ON_0, &behind, &[0x23, 0, 0, 3]]),
        0
    );
}

#[test]
fn refusal_11_no_sound_store() {
    let mut store = Store::open(2);
    let short = &store.bytes[..store_bytes(2) - 1];
    assert_eq!(tested::heard(short, 0), refused(11));
    assert_eq!(tested::origin(short, 0, 0, 0), refused(11));
    let exact = &store.bytes[..store_bytes(2)];
    assert_eq!(tested::heard(exact, 0), accepted(0));
    assert_eq!(tested::origin(exact, 0, 0, 0), accepted(0));
    for length in [0, 1, 2, 3, 4, 5, 255, 4095, 4096, 4097] {
        assert_eq!(tested::common(&store.bytes[..length], 0, 0), refused(11));
    }
    let zeros = vec![0; store_bytes(1024)];
    assert_eq!(tested::pause(&zeros, &mut [0; 99]), refused(11));
    assert_eq!(tested::board(&zeros, 0, &mut [0; 384]), refused(11));
    assert_eq!(tested::origin(&zeros, 0, 0, 0), refused(11));
    store.bytes[6] = 1;
    assert_eq!(store.say(&[0x06, 0, 0]), 11);
    assert_eq!(store.say(&[0x0C]), 11);
    store.bytes[6] = 0;
    assert_eq!(store.say(&[0x06, 0, 0]), 0);
}

#[test]
fn refusal_12_absent_console() {
    let mut store = Store::open(8);
    store.say_all(&[&[0x01, 2, 0], &[0x06, 0, 0]]);
    let absent: [&[u8]; 8] = [
        &[0x01, 3, 1],
        &[0x01, 2, 1],
        &[0x06, 1, 0],
        &[0x09, 1, 0],
        &[0x09, 0, 1],
        &[0x0A, 1, 0],
        &[0x0A, 0, 1],
        &[0x0B, 1],
    ];
    for command in absent {
        assert_eq!(store.say(command), 12);
    }
    assert_eq!(store.heard(1), refused(12));
    assert_eq!(store.common(1, 0), refused(12));
    assert_eq!(store.common(0, 1), refused(12));
    assert_eq!(store.common(1, 1), refused(12));
    assert_eq!(tested::board(&store.bytes, 1, &mut []), refused(12));
    assert_eq!(store.origin(1, 31, 1), refused(12));
    assert_eq!(store.origin(1, 31, 2), refused(5));
    assert_eq!(store.origin(1, 32, 2), refused(4));
    assert_eq!(store.say(&[0x01, 1, 0]), 0);
    assert_eq!(store.heard(1), accepted(1));
    assert_eq!(store.origin(1, 31, 1), accepted(0));
}

#[test]
fn refusal_13_present_console() {
    let mut store = Store::open(1);
    assert_eq!(store.say(&[0x01, 1, 0]), 0);
    assert_eq!(store.say(&[0x01, 1, 0]), 13);
    assert_eq!(store.say(&[0x01, 0, 1]), 13);
    assert_eq!(store.say(&[0x01, 2, 1]), 0);
}

#[test]
fn refusals_14_15_16_who_is_behind() {
    let mut store = Store::open(8);
    store.say_all(&[&[0x01, 1, 0]]);
    assert_eq!(store.say(&[0x09, 0, 1]), 14, "equal heads");
    assert_eq!(store.say(&[0x0A, 0, 1]), 14, "equal heads");
    store.say_all(&[&[0x06, 0, 0]]);
    assert_eq!(store.say(&[0x09, 0, 1]), 14);
    assert_eq!(store.say(&[0x0A, 0, 1]), 14);
    assert_eq!(store.say(&[0x09, 1, 0]), 15);
    assert_eq!(store.say(&[0x0A, 1, 0]), 0);
    store.say_all(&[&[0x06, 0, 0], &[0x06, 1, 0]]);
    assert_eq!(store.say(&[0x0A, 1, 0]), 16);
    assert_eq!(store.say(&[0x0A, 0, 1]), 16);
    assert_eq!(store.say(&[0x09, 0, 1]), 0);
    assert_eq!(store.say(&[0x0A, 1, 0]), 0);
}

#[test]
fn refusal_17_before_18() {
    let mut store = store_of_three_consoles(64);
    assert_eq!(store.say(&[0x09, 0, 1]), 17);
    let mut full = store_of_three_consoles(6);
    assert_eq!(full.say(&[0x09, 0, 1]), 17);
    assert_eq!(full.say(&[0x06, 0, 1]), 18);
    assert_eq!(full.say(&[0x0A, 0, 2]), 0);
    assert_eq!(full.say(&[0x01, 9, 1]), 0);
}

#[test]
fn refusal_17_needs_the_third_console() {
    let mut store = Store::open(64);
    store.say_all(&[&[0x01, 1, 0], &[0x01, 2, 0]]);
    store.say_all(&[&[0x06, 0, 0], &[0x06, 1, 0], &[0x06, 2, 0], &[0x09, 2, 0]]);
    assert_eq!(store.say(&[0x09, 0, 1]), 0, "2 has heard 0 alone");
}

#[test]
fn refusal_18_no_version_left() {
    let commands: [&[u8]; 3] = [&[0x01, 1, 0], &[0x06, 0, 0], &[0x06, 1, 0]];
    let mut store = Store::open(3);
    store.say_all(&commands);
    assert_eq!(store.say(&[0x09, 0, 1]), 18);
    assert_eq!(store.say(&[0x06, 0, 0]), 18);
    assert_eq!(store.say(&[0x06, 2, 0]), 12);
    let mut roomier = Store::open(4);
    roomier.say_all(&commands);
    assert_eq!(roomier.say(&[0x09, 0, 1]), 0);
}

#[test]
fn refusal_19_short_buffers() {
    let mut store = Store::open(64);
    store.say_all(&PRINTED_INPUT[..5]);
    let mut tape = [FILLER; 31];
    assert_eq!(tested::pause(&store.bytes, &mut tape[..30]), refused(19));
    assert_eq!(tape, [FILLER; 31]);
    assert_eq!(tested::pause(&store.bytes, &mut tape), accepted(31));
    let mut board = [FILLER; 384];
    assert_eq!(
        tested::board(&store.bytes, 0, &mut board[..383]),
        refused(19)
    );
    assert_eq!(board, [FILLER; 384]);
    assert_eq!(tested::board(&store.bytes, 0, &mut board), accepted(384));
    let mut longer = [FILLER; 386];
    assert_eq!(tested::board(&store.bytes, 0, &mut longer), accepted(384));
    assert_eq!(
        (&longer[..384], &longer[384..]),
        (&board[..], &[FILLER; 2][..])
    );
    let mut lent = vec![FILLER; store_bytes(64)];
    let short = store_bytes(64) - 1;
    assert_eq!(tested::open(64, &mut lent[..short]), refused(19));
    assert_eq!(tested::resume(&tape, &mut lent[..short]), refused(19));
    assert!(lent.iter().all(|&byte| byte == FILLER));
    assert_eq!(tested::open(64, &mut lent), accepted(0));
    assert_eq!(tested::resume(&tape, &mut lent), accepted(0));
    assert_eq!(lent, store.bytes[..store_bytes(64)]);
}

/// Console 0 never leaves, whoever else is there, and in a full room too.
#[test]
fn refusal_20_console_0_leaves() {
    let mut store = Store::open(2);
    assert_eq!(store.say(&[0x0B, 0]), 20, "alone");
    store.say_all(&[&[0x01, 1, 0]]);
    assert_eq!(store.say(&[0x0B, 0]), 20, "another console on its head");
    store.say_all(&[&[0x06, 1, 0]]);
    assert_eq!(store.say(&[0x0B, 0]), 20, "another head descends from it");
    store.say_all(&[&[0x0A, 0, 1]]);
    assert_eq!(store.say(&[0x0B, 1]), 0);
    assert_eq!(store.heads(), [1]);
}

/// The last test: in a full room too, and after 12.
#[test]
fn refusal_21_no_other_head_descends() {
    let mut store = Store::open(2);
    store.say_all(&[&[0x01, 1, 0], &[0x06, 1, 0]]);
    assert_eq!(store.say(&[0x06, 1, 0]), 18);
    assert_eq!(store.say(&[0x0B, 1]), 21);
    assert_eq!(store.say(&[0x0B, 2]), 12, "it has no head");
    store.say_all(&[&[0x0A, 0, 1]]);
    assert_eq!(store.say(&[0x0B, 1]), 0);
    assert_eq!(store.say(&[0x0B, 1]), 12);
}

/// Through console 0 alone, once it is the hub; the neighbours are accepted in a room without one.
#[test]
fn refusal_22_not_through_the_hub() {
    let past_hub: [&[u8]; 3] = [&[0x01, 3, 1], &[0x09, 1, 2], &[0x0A, 4, 1]];
    let mut store = Store::open(8);
    store.say_all(&[&[0x01, 4, 0], &[0x01, 1, 0], &[0x01, 2, 0]]);
    store.say_all(&[&[0x06, 1, 0], &[0x06, 2, 0], &[0x06, 0, 0]]);
    for command in past_hub {
        assert_eq!(store.clone().say(command), 0);
    }
    store.say_all(&[&[0x0C]]);
    for command in past_hub {
        assert_eq!(store.say(command), 22);
    }
    store.say_all(&[&[0x01, 3, 0], &[0x09, 1, 0], &[0x0A, 4, 0]]);
}

/// The last test of 0C, which has no other of the room, and so in a full room too: 1 and 2 have version 1 in common.
#[test]
fn refusal_23_the_room_cannot_enter() {
    let mut store = Store::open(2);
    store.say_all(&[&[0x01, 1, 0], &[0x06, 1, 0], &[0x01, 2, 1]]);
    assert_eq!(store.say(&[0x06, 0, 0]), 18);
    assert_eq!(store.say(&[0x0C]), 23);
    store.say_all(&[&[0x0A, 0, 1]]);
    assert_eq!(store.say(&[0x0C]), 0);
}

/// The order of the tests; it rises but for 20, which comes right after 6, and 22, which comes right after 13.
#[test]
fn the_first_refusal_is_given() {
    let mut garbage = vec![FILLER; 50];
    let cases: [(&[u8], u32); 16] = [
        (&[0x0D, 99], 1),
        (&[0x0C, 99], 2),
        (&[0x0C], 11),
        (&[0x0B], 2),
        (&[0x0B, 0, 0], 2),
        (&[0x0B, 16], 3),
        (&[0x0B, 0], 20),
        (&[0x0B, 1], 11),
        (&[0x02, 0xFF], 2),
        (&[0x01, 16, 16], 3),
        (&[0x04, 16, 32, 16], 3),
        (&[0x04, 0, 32, 16], 4),
        (&[0x02, 0, 0, 0xFF, 0xFF], 5),
        (&[0x09, 3, 3], 6),
        (&[0x09, 3, 4], 11),
        (&[0x06, 0, 0], 11),
    ];
    for (command, answer) in cases {
        assert_eq!(tested::command(&mut garbage, command), refused(answer));
    }
    assert_eq!(tested::heard(&garbage, 16), refused(3));
    assert_eq!(tested::heard(&garbage, 15), refused(11));
    assert_eq!(tested::common(&garbage, 16, 1), refused(3));
    assert_eq!(tested::common(&garbage, 0, 1), refused(11));
    assert_eq!(tested::board(&garbage, 16, &mut []), refused(3));
    assert_eq!(tested::board(&garbage, 0, &mut []), refused(11));
    assert_eq!(tested::origin(&garbage, 16, 32, 2), refused(3));
    assert_eq!(tested::origin(&garbage, 15, 32, 2), refused(4));
    assert_eq!(tested::origin(&garbage, 15, 31, 2), refused(5));
    assert_eq!(tested::origin(&garbage, 15, 31, 1), refused(11));
    assert_eq!(tested::pause(&garbage, &mut []), refused(11));
    assert_eq!(tested::open(0, &mut []), refused(8));
    assert_eq!(tested::open(1, &mut []), refused(19));
    assert_eq!(tested::open(1024, &mut []), refused(19));
    let lost = tape_with(&[&CALL_ON_0, &HEAD_0_ON_0]);
    assert_eq!(tested::resume(&lost, &mut []), refused(10));
    let head_of_none = [0x20, 0, 1, 0x23, 0, 0, 1, 0x24];
    assert_eq!(tested::resume(&head_of_none, &mut []), refused(9));
    let no_capacity_no_end = [0x20, 0, 0, 0x23, 0, 0, 0];
    assert_eq!(tested::resume(&no_capacity_no_end, &mut []), refused(7));
    let no_capacity_bad_head = [0x20, 0, 0, 0x23, 9, 0, 0, 0x24];
    assert_eq!(tested::resume(&no_capacity_bad_head, &mut []), refused(8));
}
