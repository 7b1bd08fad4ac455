//! "Order: 1, 6 for the desk, 2, 3, 4, 6 for start and acts, 5. A refusal
//! changes no byte": two faults at once, in the order of precedence.

mod common;

use common::*;
use paper::desk;
use paper::lines;
use paper::numbers::Answer;

/// A call that is lent all three buffers.
type Call = fn(&mut Desk) -> Answer;

/// The calls but opening, each with another fault at hand.
const CALLS: [Call; 6] = [
    |desk| desk.take(0x94, 0x20),
    |desk| desk.select(1),
    |desk| desk.select(0),
    |desk| desk.select(3),
    |desk| desk.back(0),
    |desk| desk.back(60_000),
];

/// Desks with every other fault: none, invalid, full, full and without start.
fn desks() -> Vec<Desk> {
    let good = Desk::after("9425 C849");
    let mut invalid = good.clone();
    invalid.desk[ZEROS.start] = 1;
    let mut full = good.clone();
    full.set_acts(16_000);
    let mut both = full.clone();
    both.desk[SELECTED] = 3;
    vec![good, invalid, full, both]
}

#[test]
fn a_wrong_length_of_any_buffer_is_1_before_all_else() {
    let spoil: [fn(&mut Desk); 8] = [
        |desk| desk.desk.truncate(1_983),
        |desk| desk.desk.push(0),
        |desk| desk.desk.clear(),
        |desk| desk.log.truncate(47_999),
        |desk| desk.log.push(0),
        |desk| desk.tray.truncate(31_743),
        |desk| desk.tray.push(0),
        |desk| desk.tray.clear(),
    ];
    for desk in desks() {
        for spoil in spoil {
            let mut desk = desk.clone();
            spoil(&mut desk);
            for call in CALLS {
                desk.refuses(LENGTH, call);
            }
            desk.refuses(LENGTH, |desk| {
                desk::open(&mut desk.desk, &mut desk.log, &mut desk.tray)
            });
        }
    }
}

#[test]
fn an_invalid_desk_is_6_before_2_3_and_4() {
    for mut desk in [desks().remove(1), desks().remove(3)] {
        for call in CALLS {
            desk.refuses(INVALID, call);
        }
        for row in [0, 1, 15, 16, 255] {
            desk.refuses(INVALID, |desk| desk.row(row));
        }
    }
}

#[test]
fn a_wrong_channel_is_2_before_3() {
    let mut full = desks().remove(2);
    for channel in [0, 3, 255] {
        full.refuses(RANGE, |desk| desk.select(channel));
    }
    for channel in [1, 2] {
        full.refuses(FULL, |desk| desk.select(channel));
    }
    full.refuses(FULL, |desk| desk.take(0x94, 0x20));
}

#[test]
fn back_too_far_is_4_before_6_of_start_and_acts() {
    let mut full = desks().remove(2);
    full.refuses(TOO_FAR, |desk| desk.back(16_001));
    full.refuses(INVALID, |desk| desk.back(0));
    full.refuses(INVALID, |desk| desk.back(14_000));
    // Act 1 and 2 are well formed, act 3 is not, and no slot is kept.
    full.refuses(INVALID, |desk| desk.back(15_997));
    assert_eq!(full.back(15_998), Ok(2));
}

#[test]
fn a_bad_act_and_a_bad_start_are_both_6() {
    let mut desk = Desk::after("9425 C849");
    desk.feed_up_to(1_003);
    let good = desk.clone();
    desk.act_mut(1_002)[0] = 3;
    desk.refuses(INVALID, |desk| desk.back(0));
    desk.refuses(INVALID, |desk| desk.back(1));
    assert_eq!(desk.clone().back(2), Ok(1_001));
    desk.slot_mut(1)[2] = 0;
    desk.refuses(INVALID, |desk| desk.back(0));
    desk.refuses(INVALID, |desk| desk.back(2));
    desk.refuses(INVALID, |desk| desk.back(3));
    assert_eq!(desk.back(4), Ok(999));
    let mut then = good;
    assert_eq!(then.back(4), Ok(999));
    assert!(desk == then);
}

#[test]
fn a_start_with_another_slots_count_is_6() {
    let mut desk = Desk::after("9425 C849");
    desk.feed_up_to(2_001);
    let first = desk.slot(1).to_vec();
    desk.slot_mut(2).copy_from_slice(&first);
    desk.refuses(INVALID, |desk| desk.back(0));
    desk.refuses(INVALID, |desk| desk.back(1));
    assert_eq!(desk.back(2), Ok(1_999));
}

#[test]
fn row_refuses_1_then_6_then_2() {
    let mut desk = Desk::after("9425 C849");
    for row in [0, 16, 255] {
        desk.refuses(RANGE, |desk| desk.row(row));
    }
    for row in 1..=15 {
        assert_eq!(desk.row(row), Ok(if row == 15 { 2 } else { 0 }));
    }
    desk.desk[ZEROS.start] = 1;
    desk.refuses(INVALID, |desk| desk.row(0));
    desk.desk.push(0);
    desk.refuses(LENGTH, |desk| desk.row(0));
}

#[test]
fn view_refuses_1_for_either_length_and_then_6() {
    let mut desk = Desk::after("9429 C849");
    let mut out = [0xA5; 960];
    assert_eq!(desk::view_into(&desk.desk, &mut out), Ok(0));
    assert_eq!(out, desk.desk[64..1024]);
    out.fill(0xA5);
    desk.desk[ZEROS.start] = 1;
    assert_eq!(desk::view_into(&desk.desk, &mut out), INVALID);
    for length in [0, 959] {
        assert_eq!(desk::view_into(&desk.desk, &mut out[..length]), LENGTH);
    }
    desk.desk.pop();
    assert_eq!(desk::view_into(&desk.desk, &mut out), LENGTH);
    assert_eq!(out, [0xA5; 960]);
}

#[test]
fn opening_refuses_only_with_1_and_cures_every_other_fault() {
    for mut desk in desks() {
        let answer = desk::open(&mut desk.desk, &mut desk.log, &mut desk.tray);
        assert_eq!(answer, Ok(0));
        assert_eq!(desk, Desk::open());
    }
}

#[test]
fn a_line_is_written_to_5_bytes_only() {
    let mut out = [0xA5; 6];
    for length in [0, 4, 6] {
        assert_eq!(lines::write(&mut out[..length], 0x94, 0x20), LENGTH);
        assert_eq!(out, [0xA5; 6]);
    }
    assert_eq!(lines::write(&mut out[..5], 0x94, 0xAF), Ok(0));
    assert_eq!(&out, b"94AF\n\xA5");
}

#[test]
fn a_short_line_is_5_never_1() {
    for short in ["9", "94", "942", "9420", "\n", "94\n"] {
        assert_eq!(lines::read(short.as_bytes()), LINE, "{short:?}");
    }
    assert_eq!(lines::read(b""), Ok(0));
    assert_eq!(lines::read(b"9420\n"), Ok(0x9420));
    assert_eq!(lines::read(b"FFFF\nrest"), Ok(0xFFFF));
    assert_eq!(lines::read(b"0000\n"), Ok(0));
}

#[test]
fn every_pair_written_is_read_back() {
    for pair in 0..=0xFFFFu16 {
        let mut line = [0; 5];
        let [first, second] = pair.to_be_bytes();
        lines::write(&mut line, first, second).unwrap();
        assert_eq!(line[..4], *format!("{pair:04X}").as_bytes());
        assert_eq!(lines::read(&line), Ok(pair));
    }
}
