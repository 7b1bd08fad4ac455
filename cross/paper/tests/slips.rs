//! "Slips our trainees make": one test for each.

mod common;

use common::*;

#[test]
fn a_run_is_dated_from_the_frame_that_shows_it_and_not_from_rcl() {
    let text = register(&reel("9420 9420 C849 942F 942F"));
    assert_eq!(text, "from to row codes\n00004 00005 15 4849\n");
}

#[test]
fn a_repeat_is_compared_with_the_pair_before_and_not_across_a_null() {
    let text_row = |pairs| Desk::after(pairs).displayed();
    assert_eq!(text_row("94A7 C180 94AD 94AD 8080"), "14@1 41");
    assert_eq!(text_row("94A7 C180 94AD 8080 94AD"), "13@1 41");
    assert_eq!(text_row("94A7 C180 94AD 94E0 94AD"), "13@1 41");
}

#[test]
fn flash_on_writes_its_space() {
    let desk = Desk::after("9420 C180 94A8 C280");
    assert_eq!(desk.hidden(), "15@1 418042");
    assert_eq!(desk.pens(HIDDEN, 15, 1..4), [0x00, 0x20, 0x20]);
}

#[test]
fn a_tray_slot_is_zero_after_a_step_back_below_it() {
    let mut desk = Desk::after("9425 C849");
    desk.feed_up_to(2_001);
    assert_eq!(desk.back(2), Ok(1_999));
    assert!(desk.slot(2).iter().all(|&byte| byte == 0));
    assert_eq!(desk.slot(1)[..2], 1_000u16.to_le_bytes());
    assert_eq!(desk.back(1_000), Ok(999));
    assert!(desk.tray.iter().all(|&byte| byte == 0));
}

#[test]
fn an_unassigned_code_leaves_the_streams_channel_alone() {
    // Channel 2: 14h 22h, 14h 23h, 10h 60h, 17h 20h, 17h 24h, 12h 20h.
    for unassigned in ["1CA2", "1C23", "98E0", "1F20", "1FA4", "1A20"] {
        let desk = Desk::after(&format!("9420 {unassigned} C849"));
        assert_eq!(desk.desk[STREAM], 1, "{unassigned}");
        assert_eq!(desk.hidden(), "15@1 4849", "{unassigned}");
    }
    let desk = Desk::after("9420 19BF C849");
    assert_eq!((desk.desk[STREAM], desk.hidden().as_str()), (2, ""));
}
