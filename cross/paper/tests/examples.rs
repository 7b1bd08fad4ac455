//! "Examples; those with P are proved", the paper's reel and its printed
//! register, and the examples not marked.

mod common;

use common::*;

#[test]
fn p01_pop_on_text_waits_in_the_non_displayed_memory() {
    let desk = Desk::after("9420 9420 C849");
    assert_eq!(desk.hidden(), "15@1 4849");
    assert_eq!(desk.displayed(), "");
}

const PAPERS_REEL: &str = "9420 9420 9470 9470 C849 942F 942F 8080 8080 942C 942C";

#[test]
fn p02_the_same_screen_after_frames_6_and_7() {
    let six = Desk::after(&PAPERS_REEL[..5 * 6]);
    let seven = Desk::after(&PAPERS_REEL[..5 * 7]);
    assert_eq!((six.acts(), seven.acts()), (6, 7));
    assert_eq!(six.displayed(), "15@1 4849");
    assert_eq!(six.desk[64..1024], seven.desk[64..1024]);
}

#[test]
fn p03_a_doubled_carriage_return_is_one_and_a_third_empties_the_window() {
    let mut desk = Desk::after("9425 C849 94AD 94AD");
    assert_eq!(desk.displayed(), "14@1 4849");
    desk.feed("94AD");
    assert_eq!(desk.displayed(), "");
}

#[test]
fn p04_column_32_is_written_again() {
    let desk = Desk::after("9420 94FE C1C2 43C4 4580");
    assert_eq!(desk.hidden(), "15@29 41424345");
    assert_eq!(desk.cursor(POP_ON), [15, 32, 0]);
}

#[test]
fn p05_a_bad_first_byte_writes_a_block() {
    assert_eq!(Desk::after("9420 4849").hidden(), "15@1 7F49");
}

#[test]
fn p06_a_damaged_repeat_is_dropped_but_not_across_a_null() {
    assert_eq!(Desk::after("9420 1420").hidden(), "");
    assert_eq!(Desk::after("9420 8080 1420").hidden(), "15@1 7F20");
}

#[test]
fn p07_text_of_the_other_channel_is_not_written() {
    let desk = Desk::after("9420 1C20 C849");
    assert_eq!(
        (desk.hidden(), desk.displayed()),
        (String::new(), String::new())
    );
    assert_eq!(desk.desk[STYLE], 2);
}

#[test]
fn p08_three_attribute_spaces_and_a_red_italic_underlined_flashing_letter() {
    let desk = Desk::after("9420 91A8 912F 94A8 C180");
    assert_eq!(desk.hidden(), "15@1 80808041");
    assert_eq!(desk.pens(HIDDEN, 15, 1..5), [0x04, 0x1C, 0x3C, 0x3C]);
}

#[test]
fn p09_a_roll_up_code_after_rcl_keeps_text_and_column() {
    let desk = Desk::after("9425 C849 9420 9425");
    assert_eq!(desk.displayed(), "15@1 4849");
    assert_eq!(desk.cursor(ROLL_UP), [15, 3, 0]);
}

#[test]
fn p10_a_preamble_moves_the_window() {
    let mut desk = Desk::after("9425 C849 94AD C849");
    assert_eq!(desk.displayed(), "14@1 4849; 15@1 4849");
    desk.feed("9770");
    assert_eq!(desk.displayed(), "9@1 4849; 10@1 4849");
}

#[test]
fn p11_backspace_at_column_1_does_nothing() {
    let desk = Desk::after("9420 94A1");
    assert_eq!(desk.cursor(POP_ON), [15, 1, 0]);
    assert_eq!(
        (desk.hidden(), desk.displayed()),
        (String::new(), String::new())
    );
}

#[test]
fn p12_10h_60h_is_unassigned() {
    assert_eq!(Desk::after("9420 10E0").cursor(POP_ON), [15, 1, 0]);
}

#[test]
fn p13_a_step_back_leaves_the_bytes_of_the_shorter_story() {
    let mut desk = Desk::after("9420 C849");
    assert_eq!(desk.back(1), Ok(1));
    desk.feed("43C4");
    assert_eq!(desk, Desk::after("9420 43C4"));
}

#[test]
fn the_papers_reel_prints_the_papers_register() {
    assert_eq!(
        register(&reel(PAPERS_REEL)),
        "from to row codes\n00006 00009 15 4849\n"
    );
}

#[test]
fn the_fresh_record_is_zeros_but_for_channel_1_rows_15_columns_1() {
    let mut record = [0; 1984];
    record[SELECTED] = 1;
    for cursor in [ROLL_UP, POP_ON, PAINT_ON] {
        record[cursor] = 15;
        record[cursor + 1] = 1;
    }
    let desk = Desk::open();
    assert_eq!(desk.desk, record);
    assert_eq!(paper::desk::fresh_record(), record);
    assert!(desk.log.iter().chain(&desk.tray).all(|&byte| byte == 0));
}

#[test]
fn acts_999_1000_1001_and_back_across_them() {
    let mut desk = Desk::after("9425 C849");
    desk.feed_up_to(998);
    desk.feed("43C4");
    let at_999 = desk.clone();
    assert_eq!(desk.acts(), 999);
    assert!(desk.tray.iter().all(|&byte| byte == 0));

    desk.feed("C1C2");
    let at_1000 = desk.clone();
    assert_eq!(desk.slot(1), desk.desk);
    assert!(desk.tray[1984..].iter().all(|&byte| byte == 0));

    desk.feed("4580");
    let at_1001 = desk.clone();
    assert_eq!(desk.slot(1), at_1000.desk);
    assert_eq!(desk.displayed(), "15@1 48494344414245");

    for (k, then) in [(0, &at_1001), (1, &at_1000), (2, &at_999)] {
        let mut desk = at_1001.clone();
        assert_eq!(desk.back(k), Ok(1001 - k as u16));
        assert!(desk == *then, "back {k}");
    }
    let mut desk = at_1000.clone();
    assert_eq!(desk.back(1), Ok(999));
    assert!(desk == at_999);
    desk.feed("C1C2 4580");
    assert!(desk == at_1001);
}

#[test]
fn the_16000th_act_and_one_more() {
    let mut desk = Desk::after("9425");
    desk.feed_up_to(15_999);
    assert_eq!(desk.take(0xC8, 0x49), Ok(16_000));
    assert_eq!(desk.slot(16), desk.desk);
    assert_eq!(desk.log[47_997..], [1, 0xC8, 0x49]);
    for s in 1..=16 {
        assert_eq!(desk.slot(s)[..2], (1000 * s as u16).to_le_bytes());
    }
    desk.refuses(FULL, |desk| desk.take(0x80, 0x80));
    desk.refuses(FULL, |desk| desk.select(1));
    assert_eq!(desk.back(0), Ok(16_000));
    assert_eq!(desk.back(1), Ok(15_999));
    assert!(desk.slot(16).iter().all(|&byte| byte == 0));
    assert_eq!(desk.select(2), Ok(16_000));
    assert_eq!(desk.slot(16), desk.desk);
}

#[test]
fn back_by_all_and_by_one_more() {
    let mut desk = Desk::after("9425 C849 94AD");
    desk.refuses(TOO_FAR, |desk| desk.back(4));
    desk.refuses(TOO_FAR, |desk| desk.back(u32::MAX));
    desk.refuses(TOO_FAR, |desk| desk.back(65_536 + 1));
    assert_eq!(desk.back(3), Ok(0));
    assert_eq!(desk, Desk::open());
    desk.refuses(TOO_FAR, |desk| desk.back(1));
    assert_eq!(desk.back(0), Ok(0));
}

#[test]
fn back_by_all_from_above_a_slot() {
    let mut desk = Desk::after("9425 C849");
    desk.feed_up_to(2_003);
    assert_eq!(desk.back(2_003), Ok(0));
    assert_eq!(desk, Desk::open());
}

#[test]
fn channel_0_and_channel_3() {
    let mut desk = Desk::after("9420");
    desk.refuses(RANGE, |desk| desk.select(0));
    desk.refuses(RANGE, |desk| desk.select(3));
    assert_eq!(desk.select(1), Ok(2));
    assert_eq!(desk.select(2), Ok(3));
}

#[test]
fn a_short_log_with_channel_3_gives_1() {
    let mut desk = Desk::open();
    desk.log.pop();
    desk.refuses(LENGTH, |desk| desk.select(3));
}
