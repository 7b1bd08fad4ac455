//! The points that the paper leaves open, settled in docs/DECISIONS.md: a test for each that a test can show.

mod common;

use common::*;
use paper::desk;
use paper::lines::{self, Reader};
use paper::numbers::{Answer, Refusal};

/// How many carriage returns acted: RU4, a letter, then these pairs.
fn returns(pairs: &str) -> usize {
    let shown = Desk::after(&format!("94A7 C180 {pairs}")).displayed();
    let rows = ["15@1 41", "14@1 41", "13@1 41", "12@1 41", ""];
    rows.iter().position(|&row| row == shown).unwrap()
}

// Pair rules.

#[test]
fn rule_1_looks_at_expected_as_it_was_before_this_pair() {
    assert_eq!(Desk::after("9420 1420").hidden(), "");
    assert_eq!(Desk::after("9420 1420 1420").hidden(), "15@1 7F20");
}

#[test]
fn a_null_pair_clears_expected() {
    let desk = Desk::after("9420 8080");
    assert_eq!(desk.desk[EXPECTED..EXPECTED + 2], [0, 0]);
    assert_eq!(returns("94AD 8080 94AD"), 2);
}

#[test]
fn a_repeat_clears_expected_so_three_and_four_give_two() {
    assert_eq!(returns("94AD"), 1);
    assert_eq!(returns("94AD 94AD"), 1);
    assert_eq!(returns("94AD 94AD 94AD"), 2);
    assert_eq!(returns("94AD 94AD 94AD 94AD"), 2);
    assert_eq!(returns("94AD 94AD 94AD 94AD 94AD"), 3);
}

#[test]
fn a_damaged_repeat_clears_expected_too() {
    assert_eq!(returns("94AD 14AD"), 1);
    assert_eq!(returns("94AD 14AD 94AD"), 2);
}

#[test]
fn bad_second_low_second_and_unassigned_clear_expected() {
    assert_eq!(returns("94AD 942D 94AD"), 2);
    assert_eq!(returns("94AD 94A2 94AD"), 2);
    assert_eq!(returns("94AD 9401 94AD"), 2);
}

#[test]
fn text_clears_expected() {
    let desk = Desk::after("94A7 C180 94AD 80C2 94AD");
    assert_eq!(desk.displayed(), "13@1 41; 14@1 42");
    let desk = Desk::after("9420 C849");
    assert_eq!(desk.desk[EXPECTED..EXPECTED + 2], [0, 0]);
}

#[test]
fn a_pair_of_the_other_channel_becomes_expected_with_its_channel_in_a() {
    let desk = Desk::after("9420 1CAD");
    assert_eq!(desk.desk[EXPECTED..EXPECTED + 2], [0x1C, 0x2D]);
    assert_eq!(returns("94AD 1CAD 94AD"), 2);
    assert_eq!(returns("94AD 1CAD 1CAD 94AD"), 2);
}

#[test]
fn rule_1_drops_a_damaged_repeat_of_the_other_channels_pair() {
    // No run reaches this record: the stream is channel 1's.
    let mut desk = Desk::after("9420");
    desk.desk[EXPECTED..EXPECTED + 2].copy_from_slice(&[0x1C, 0x2D]);
    let mut other = desk.clone();
    desk.feed("9CAD");
    assert_eq!(desk.hidden(), "");
    other.feed("9CAE");
    assert_eq!(other.hidden(), "15@1 7F2E");
}

#[test]
fn rule_1_does_not_look_at_a() {
    assert_eq!(Desk::after("9420 0020").hidden(), "");
    assert_eq!(Desk::after("9420 FF20").hidden(), "");
    assert_eq!(Desk::after("9420 00A0").hidden(), "15@1 7F7F");
}

#[test]
fn edm_and_enm_act_without_style_and_in_text() {
    let both = "9429 C180 9420 C280";
    assert_eq!(Desk::after(both).displayed(), "15@1 41");
    assert_eq!(Desk::after(both).hidden(), "15@1 42");
    let text = Desk::after(&format!("{both} 942A 942C 94AE"));
    assert_eq!(
        (text.displayed().as_str(), text.hidden().as_str()),
        ("", "")
    );
    let mut no_style = Desk::after(both);
    no_style.desk[STYLE] = 0;
    no_style.feed("942C 94AE");
    assert_eq!(no_style.displayed() + &no_style.hidden(), "");
}

#[test]
fn edm_and_enm_of_the_other_channel_do_not_act() {
    let desk = Desk::after("9429 C180 9420 C280 1C2C 1CAE");
    assert_eq!(
        (desk.displayed().as_str(), desk.hidden().as_str()),
        ("15@1 41", "15@1 42")
    );
}

#[test]
fn text_starts_and_ends_only_by_codes_that_act() {
    assert_eq!(Desk::after("9420 1C2A").desk[TEXT], 0);
    assert_eq!(Desk::after("9420 942A 1C20").desk[TEXT], 1);
    for end in ["9420", "9429", "9425", "9426", "94A7", "942F"] {
        assert_eq!(Desk::after(&format!("9420 942A {end}")).desk[TEXT], 0);
    }
    for keep in [
        "94A1", "94A4", "94A8", "942A", "94AB", "942C", "94AD", "94AE",
    ] {
        assert_eq!(Desk::after(&format!("9420 942A {keep}")).desk[TEXT], 1);
    }
}

#[test]
fn tr_and_rtd_need_no_style_and_change_nothing_but_text() {
    for (start, b) in [("942A", 0x2A), ("94AB", 0x2B)] {
        let mut fresh = Desk::open();
        let mut then = fresh.clone();
        then.feed(start);
        fresh.set_acts(1);
        fresh.desk[STREAM] = 1;
        fresh.desk[TEXT] = 1;
        fresh.desk[EXPECTED..EXPECTED + 2].copy_from_slice(&[0x14, b]);
        assert_eq!(then.desk, fresh.desk);
    }
}

#[test]
fn one_gate_for_blocks_text_specials_and_attribute_spaces() {
    let all = "9137 C849 4849 8049 80C8 91A8 94A8";
    let expect = |pairs: &str, shown: &str| {
        let desk = Desk::after(&format!("{pairs} {all}"));
        assert_eq!(desk.displayed(), shown, "{pairs}");
    };
    expect("9429", "15@1 9748497F4949488080");
    expect("", "");
    expect("9429 942A", "");
    expect("94AB", "");
    // Text of the other channel does not pass, codes of this one do.
    let desk = Desk::after("9429 1C29 C849 4849 8049");
    assert_eq!(desk.displayed(), "");
}

// What the codes do.

#[test]
fn an_attribute_space_at_column_32_overwrites_column_32() {
    for space in ["91A8", "94A8"] {
        let desk = Desk::after(&format!("9420 94FE C1C2 43C4 {space}"));
        assert_eq!(desk.hidden(), "15@29 41424380");
        assert_eq!(desk.cursor(POP_ON)[1], 32);
    }
}

#[test]
fn a_preamble_sets_the_pen_and_cells_already_there_keep_theirs() {
    let desk = Desk::after("9420 91A8 C1C2 94F2 43C4");
    assert_eq!(desk.hidden(), "15@1 804142004344");
    assert_eq!(desk.pens(HIDDEN, 15, 1..7), [4, 4, 4, 0, 0, 0]);
    let desk = Desk::after("9420 9468 C180 94E0");
    assert_eq!(desk.pens(HIDDEN, 15, 1..3), [4, 0]);
    assert_eq!(desk.cursor(POP_ON), [15, 1, 0]);
}

#[test]
fn roll_up_deeper_than_fits_lowers_the_base_row_and_keeps_column_and_pen() {
    let mut desk = Desk::after("9425 9140 C849");
    assert_eq!(desk.displayed(), "2@1 4849");
    desk.feed("94A7");
    assert_eq!(desk.displayed(), "4@1 4849");
    assert_eq!(desk.cursor(ROLL_UP), [4, 3, 0]);
    assert_eq!(desk.desk[DEPTH], 4);
    desk.feed("94AD");
    assert_eq!(desk.displayed(), "3@1 4849");
    assert_eq!(desk.cursor(ROLL_UP), [4, 1, 0]);
}

#[test]
fn carriage_return_in_a_window_whose_top_is_row_1() {
    let mut desk = Desk::after("94A7 91E0 C180 94AD C280");
    assert_eq!(desk.displayed(), "3@1 41; 4@1 42");
    for shown in ["2@1 41; 3@1 42", "1@1 41; 2@1 42", "1@1 42", ""] {
        desk.feed("94AD 94AD");
        assert_eq!(desk.displayed(), shown);
    }
}

#[test]
fn no_row_is_lost_above_row_1() {
    let mut desk = Desk::after("9426 C180 94AD C280 94AD 4380");
    assert_eq!(desk.displayed(), "13@1 41; 14@1 42; 15@1 43");
    desk.feed("91E0");
    assert_eq!(desk.displayed(), "1@1 41; 2@1 42; 3@1 43");
    desk.feed("94E0");
    assert_eq!(desk.displayed(), "13@1 41; 14@1 42; 15@1 43");
}

#[test]
fn a_preamble_on_the_same_base_row_sets_column_and_pen_only() {
    let mut desk = Desk::after("9425 C180 94AD C280");
    let before = desk.displayed();
    desk.feed("94F3");
    assert_eq!(desk.displayed(), before);
    desk.feed("9468");
    assert_eq!(desk.displayed(), before);
    assert_eq!(desk.cursor(ROLL_UP), [15, 1, 4]);
    desk.feed("94F2");
    assert_eq!(desk.cursor(ROLL_UP), [15, 5, 0]);
}

#[test]
fn roll_up_eoc_edm_and_enm_leave_the_other_cursors_alone() {
    let cursors = "9420 9240 91A8 C849 9429 154F C849 C849";
    let before = Desk::after(cursors);
    assert_eq!(before.cursor(POP_ON), [3, 4, 4]);
    assert_eq!(before.cursor(PAINT_ON), [5, 5, 0x18]);
    for code in ["9425", "94A7", "942F", "942C", "94AE", "9420", "9429"] {
        let after = Desk::after(&format!("{cursors} {code}"));
        assert_eq!(after.cursor(POP_ON), before.cursor(POP_ON), "{code}");
        assert_eq!(after.cursor(PAINT_ON), before.cursor(PAINT_ON), "{code}");
    }
}

#[test]
fn roll_up_with_the_mark_set_keeps_its_own_cursor_and_pen() {
    let mut desk = Desk::after("9425 97E0 91A8 C849");
    let before = desk.cursor(ROLL_UP);
    assert_eq!(before, [10, 4, 4]);
    desk.feed("94A7");
    assert_eq!(desk.cursor(ROLL_UP), before);
    // EOC clears the mark: the next roll-up starts afresh.
    desk.feed("942F 9426");
    assert_eq!(desk.cursor(ROLL_UP), [15, 1, 0]);
}

#[test]
fn edm_and_rcl_keep_the_mark() {
    let desk = Desk::after("9425 97E0 C849 942C 9420 9425");
    assert_eq!(desk.desk[MARK], 1);
    assert_eq!(desk.cursor(ROLL_UP), [10, 3, 0]);
    assert_eq!(Desk::after("9425 9429").desk[MARK], 0);
    assert_eq!(Desk::after("9425 942F").desk[MARK], 0);
}

#[test]
fn carriage_return_outside_roll_up_does_nothing_at_all() {
    for (style, place) in [("9420", POP_ON), ("9429", PAINT_ON)] {
        let before = Desk::after(&format!("{style} 91A8 C849"));
        let mut after = before.clone();
        after.feed("94AD");
        assert_eq!(after.cursor(place), [15, 4, 4]);
        assert_eq!(after.desk[64..], before.desk[64..]);
    }
}

#[test]
fn selecting_gives_the_fresh_state_with_that_channel() {
    for channel in [1, 2] {
        let mut desk = Desk::after("9425 C849 94AD 9420 91A8 C849 942A");
        assert_eq!(desk.select(channel), Ok(8));
        let mut fresh = Desk::open();
        fresh.desk[SELECTED] = channel;
        fresh.set_acts(8);
        assert_eq!(desk.desk, fresh.desk);
        assert_eq!(desk.log[21..24], [2, channel, 0]);
    }
}

#[test]
fn after_selecting_the_repeat_acts_again() {
    let mut desk = Desk::after("9420");
    desk.select(1).unwrap();
    desk.feed("9420");
    assert_eq!(desk.desk[STYLE], 2);
    desk.select(2).unwrap();
    desk.feed("9420 C849 1C20 C849");
    assert_eq!(desk.hidden(), "15@1 4849");
}

// Validity and calls.

/// The desk with some bytes of its record changed.
fn changed(base: &Desk, changes: &[(usize, u8)]) -> Desk {
    let mut desk = base.clone();
    for &(place, byte) in changes {
        desk.desk[place] = byte;
    }
    desk
}

/// Whether a call takes the desk.
fn taken(mut desk: Desk) -> bool {
    let row = desk.row(1);
    let take = desk.take(0x80, 0x80);
    assert_eq!(take.err(), row.err());
    assert!(matches!(row, Ok(_) | INVALID));
    row.is_ok()
}

/// Whether the record with some bytes changed is valid.
fn valid(base: &Desk, changes: &[(usize, u8)]) -> bool {
    taken(changed(base, changes))
}

/// Whether it is with some cells changed: the counts are made right beside
/// them, so that the cells decide.
fn valid_cells(base: &Desk, changes: &[(usize, u8)]) -> bool {
    let mut desk = changed(base, changes);
    count_cells(&mut desk.desk);
    taken(desk)
}

#[test]
fn bytes_49_to_63_are_zero() {
    let desk = Desk::after("9420 C849");
    for place in ZEROS {
        assert!(!valid(&desk, &[(place, 1)]) && !valid(&desk, &[(place, 0x80)]));
    }
    assert!(valid(&desk, &[]));
}

#[test]
fn with_the_mark_set_displayed_cells_lie_in_the_window() {
    let desk = Desk::after("9425 C849");
    for row in 1..=15 {
        let shown = Desk::place(DISPLAYED, row, 7);
        let hidden = Desk::place(HIDDEN, row, 7);
        assert_eq!(valid_cells(&desk, &[(shown, 0x41)]), row >= 14, "{row}");
        assert!(valid_cells(&desk, &[(hidden, 0x41)]), "{row}");
        assert_eq!(valid_cells(&desk, &[(shown, 0x41), (DEPTH, 4)]), row >= 12);
    }
    // A base row near the top: the window fits, or it is none.
    let text = Desk::place(DISPLAYED, 15, 1);
    for (base, fits) in [(2, false), (3, false), (4, true)] {
        let top = [(ROLL_UP, base), (DEPTH, 4)];
        let empty = [(text, 0), (text + 2, 0)];
        let first = (Desk::place(DISPLAYED, 1, 7), 0x41);
        assert!(!valid(&desk, &top));
        assert_eq!(valid_cells(&desk, &[top, empty].concat()), fits, "{base}");
        let shown = [&top[..], &empty, &[first]].concat();
        assert_eq!(valid_cells(&desk, &shown), fits, "{base}");
    }
}

#[test]
fn mark_depth_base_row_and_style_belong_together() {
    let desk = Desk::after("8080");
    for style in 0..=4 {
        for mark in 0..=2 {
            for depth in 0..=5 {
                for base in 0..=16 {
                    let ranges = style <= 3 && mark <= 1 && matches!(depth, 0 | 2..=4);
                    let rows = (1..=15).contains(&base);
                    let mark_rule = mark == 0 || (depth >= 2 && base >= depth);
                    let style_rule = match style {
                        1 => mark == 1,
                        3 => mark == 0,
                        _ => true,
                    };
                    let fields = [(STYLE, style), (MARK, mark), (DEPTH, depth)];
                    let changes = [&fields[..], &[(ROLL_UP, base)]].concat();
                    let rule = ranges && rows && mark_rule && style_rule;
                    assert_eq!(valid(&desk, &changes), rule, "{changes:?}");
                }
            }
        }
    }
}

#[test]
fn all_three_cursors_have_rows_1_to_15_and_columns_1_to_32() {
    let desk = Desk::after("9420 C849");
    for cursor in [ROLL_UP, POP_ON, PAINT_ON] {
        for byte in 0..=255u8 {
            assert_eq!(valid(&desk, &[(cursor, byte)]), (1..=15).contains(&byte));
            assert_eq!(
                valid(&desk, &[(cursor + 1, byte)]),
                (1..=32).contains(&byte)
            );
        }
    }
}

#[test]
fn with_the_mark_clear_base_row_and_depth_are_free_of_each_other() {
    let desk = Desk::after("9429 C849");
    for row in 1..=15 {
        for depth in [0, 2, 3, 4] {
            assert!(valid(&desk, &[(ROLL_UP, row), (DEPTH, depth)]));
        }
    }
}

#[test]
fn expected_is_none_or_an_assigned_pair_without_parity() {
    let desk = Desk::after("9420 C849");
    let expected = |a, b| valid(&desk, &[(EXPECTED, a), (EXPECTED + 1, b)]);
    assert!(expected(0, 0) && expected(0x14, 0x2D) && expected(0x1C, 0x2D));
    assert!(!expected(0, 0x2D) && !expected(0x14, 0) && !expected(0x14, 0xAD));
    assert!(!expected(0x94, 0x2D) && !expected(0x14, 0x22) && !expected(0x20, 0x41));
    assert!(expected(0x10, 0x5F) && !expected(0x10, 0x60) && !expected(0x18, 0x60));
}

#[test]
fn cell_pens_obey_the_rule_of_cursor_pens() {
    let desk = Desk::after("9420 C849");
    let cell = Desk::place(HIDDEN, 15, 1) + 1;
    for pen in 0..=255u8 {
        let rule = pen & 7 <= 6 && pen < 64;
        for place in [ROLL_UP + 2, POP_ON + 2, PAINT_ON + 2, cell] {
            assert_eq!(valid(&desk, &[(place, pen)]), rule, "{place} {pen:02X}");
        }
    }
}

#[test]
fn cell_codes_and_empty_cells() {
    let desk = Desk::after("9420 C849");
    for memory in [DISPLAYED, HIDDEN] {
        for (row, column) in [(1, 1), (8, 20), (15, 32)] {
            let cell = Desk::place(memory, row, column);
            for code in 0..=255u8 {
                let rule = matches!(code, 0 | 0x20..=0x80 | 0x90..=0x9F);
                assert_eq!(valid_cells(&desk, &[(cell, code)]), rule, "{code:02X}");
            }
            assert!(!valid_cells(&desk, &[(cell, 0), (cell + 1, 1)]));
        }
    }
}

#[test]
fn take_select_row_and_view_never_look_at_log_and_tray() {
    let clean = Desk::after("9425 C849");
    let mut dirty = clean.clone();
    dirty.log.fill(0xEE);
    dirty.tray.fill(0xEE);
    assert_eq!(dirty.take(0xC1, 0xC2), Ok(3));
    assert_eq!(dirty.select(2), Ok(4));
    assert_eq!(dirty.row(15), Ok(0));
    assert_eq!(desk::view(&dirty.desk).unwrap().len(), 960);
    assert_eq!(dirty.log[6..12], [1, 0xC1, 0xC2, 2, 2, 0]);
    assert!(dirty.log[..6].iter().all(|&byte| byte == 0xEE));
    assert!(dirty.log[12..].iter().all(|&byte| byte == 0xEE));
    assert!(dirty.tray.iter().all(|&byte| byte == 0xEE));
}

#[test]
fn the_slot_of_the_new_act_is_overwritten_whatever_it_held() {
    let mut desk = Desk::after("9425 C849");
    desk.tray.fill(0xEE);
    desk.set_acts(1_999);
    assert_eq!(desk.take(0xC1, 0xC2), Ok(2_000));
    assert_eq!(desk.slot(2), desk.desk);
    assert!(desk
        .slot(1)
        .iter()
        .chain(desk.slot(3))
        .all(|&byte| byte == 0xEE));
}

/// A desk after 2,005 acts with text before, between and after the slots.
fn two_slots() -> Desk {
    let mut desk = Desk::after("9425 C849");
    desk.feed_up_to(1_500);
    desk.feed("C1C2");
    desk.feed_up_to(2_000);
    desk.feed("94AD 43C4 4580 8080 C180");
    desk
}

#[test]
fn back_looks_only_at_slot_s_and_the_acts_it_needs() {
    let good = two_slots();
    let mut desk = good.clone();
    desk.slot_mut(1).fill(0xEE);
    desk.log[..6_000].fill(0xEE);
    desk.act_mut(2_005).fill(0xEE);
    desk.tray[2 * 1984..].fill(0xEE);
    assert_eq!(desk.back(1), Ok(2_004));
    assert_eq!(desk.displayed(), "14@1 48494142; 15@1 434445");
    assert!(desk.slot(1).iter().all(|&byte| byte == 0xEE));
    assert!(desk.log[..6_000].iter().all(|&byte| byte == 0xEE));
    assert!(desk.log[3 * 2_004..].iter().all(|&byte| byte == 0));
    assert!(desk.tray[2 * 1984..].iter().all(|&byte| byte == 0));
    assert_eq!(desk.slot(2), good.slot(2));
}

#[test]
fn where_m_is_1000_s_no_act_is_needed_but_the_slot_must_be_valid() {
    let mut desk = two_slots();
    desk.log.fill(0xEE);
    let mut bad = desk.clone();
    assert_eq!(desk.back(5), Ok(2_000));
    assert_eq!(desk.desk, desk.slot(2));
    bad.slot_mut(2)[0] ^= 1;
    bad.refuses(INVALID, |desk| desk.back(5));
    bad.slot_mut(2)[0] ^= 1;
    bad.slot_mut(2)[ZEROS.start] = 1;
    bad.refuses(INVALID, |desk| desk.back(5));
}

#[test]
fn back_0_makes_the_record_anew_and_clears_what_lies_after() {
    let good = two_slots();
    let mut desk = good.clone();
    desk.desk[Desk::place(DISPLAYED, 15, 1)] = 0x5A;
    desk.desk[TEXT] = 1;
    desk.log[3 * 2_005..].fill(0xEE);
    desk.tray[2 * 1984..].fill(0xEE);
    assert_eq!(desk.back(0), Ok(2_005));
    assert!(desk == good);
}

#[test]
fn a_well_formed_act_is_1_and_two_bytes_or_2_channel_0() {
    let good = Desk::after("9420 8080 8080");
    let answer = |act: [u8; 3]| {
        let mut desk = good.clone();
        desk.act_mut(2).copy_from_slice(&act);
        desk.back(0)
    };
    for act in [[1, 0, 0], [1, 255, 255], [2, 1, 0], [2, 2, 0]] {
        assert_eq!(answer(act), Ok(3), "{act:?}");
    }
    for act in [
        [0, 0, 0],
        [2, 0, 0],
        [2, 3, 0],
        [2, 1, 1],
        [3, 1, 0],
        [255, 0, 0],
    ] {
        assert_eq!(answer(act), INVALID, "{act:?}");
    }
}

#[test]
fn a_start_is_not_compared_with_the_log_before_it() {
    let mut desk = two_slots();
    let other = Desk::place(DISPLAYED, 15, 30);
    desk.slot_mut(2)[other] = 0x5A;
    count_cells(desk.slot_mut(2));
    assert_eq!(desk.back(5), Ok(2_000));
    assert_eq!(desk.desk[other], 0x5A);
}

#[test]
fn orders_between_2_and_3_and_between_4_and_6() {
    let mut full = Desk::open();
    full.set_acts(16_000);
    full.refuses(RANGE, |desk| desk.select(3));
    full.refuses(FULL, |desk| desk.select(2));
    full.refuses(TOO_FAR, |desk| desk.back(16_001));
    full.refuses(INVALID, |desk| desk.back(16_000 - 1));
    full.set_acts(16_001);
    full.refuses(INVALID, |desk| desk.take(0x80, 0x80));
    full.refuses(INVALID, |desk| desk.select(3));
}

#[test]
fn r32_the_parameters_of_the_calls() {
    type Three<T> = fn(&mut [u8], &mut [u8], &mut [u8], T) -> Answer;
    let _: fn(&[u8], u8) -> Answer = desk::row;
    let _: fn(&[u8]) -> Result<&[u8], Refusal> = desk::view;
    let _: Three<u8> = desk::select;
    let _: Three<u32> = desk::back;
}

#[test]
fn what_the_calls_give() {
    let mut desk = Desk::open();
    assert_eq!(desk.take(0x94, 0x25), Ok(1));
    assert_eq!(desk.take(0xC8, 0x49), Ok(2));
    assert_eq!((desk.row(15), desk.row(14)), (Ok(2), Ok(0)));
    assert_eq!(desk.select(1), Ok(3));
    assert_eq!(desk.back(2), Ok(1));
    assert_eq!(lines::write(&mut [0; 5], 0x94, 0x20), Ok(0));
    assert_eq!(
        desk::open(&mut desk.desk, &mut desk.log, &mut desk.tray),
        Ok(0)
    );
}

#[test]
fn the_reader_at_the_end_and_on_5() {
    let reel = reel("9420 C849");
    let mut reader = Reader::new(&reel);
    assert_eq!(reader.next_pair(), Ok(Some((0x94, 0x20))));
    assert_eq!(reader.next_pair(), Ok(Some((0xC8, 0x49))));
    for _ in 0..3 {
        assert_eq!(reader.next_pair(), Ok(None));
    }
    let mut reader = Reader::new(b"9420\nC849\r\n8080\n");
    assert_eq!(reader.next_pair(), Ok(Some((0x94, 0x20))));
    for _ in 0..3 {
        assert_eq!(reader.next_pair(), Err(Refusal::Line));
    }
}

#[test]
fn the_view_is_bytes_64_to_1023_of_the_record_itself() {
    let mut desk = Desk::after("9429 C849");
    let part = desk::view(&desk.desk).unwrap();
    assert_eq!(part.as_ptr_range(), desk.desk[64..1024].as_ptr_range());
    desk.desk[ZEROS.start] = 1;
    assert_eq!(desk::view(&desk.desk), Err(Refusal::Invalid));
    assert_eq!(desk::view(&desk.desk[1..]), Err(Refusal::Length));
    assert_eq!(desk::view(&[]), Err(Refusal::Length));
}

// Register.

/// The register after the header.
fn body(reel: &[u8]) -> String {
    let text = register(reel);
    text.strip_prefix("from to row codes\n").unwrap().to_owned()
}

#[test]
fn refused_names_the_bad_lines_own_frame() {
    assert_eq!(body(b"9420\n9420\nXXXX\n"), "refused 00003 5\n");
    assert_eq!(body(b"XXXX\n"), "refused 00001 5\n");
    let text = body(b"9429\nC849\n8080\n80\n");
    assert_eq!(text, "00002 00003 15 4849\nrefused 00004 5\n");
}

#[test]
fn any_byte_after_16000_lines_gives_3() {
    let mut full = b"9429\nC849\n".to_vec();
    full.extend(b"8080\n".repeat(15_998));
    assert_eq!(body(&full), "00002 16000 15 4849\n");
    for more in [&b"8080\n"[..], b"x", b"\n", b"80", b"\r"] {
        let reel = [&full[..], more].concat();
        assert_eq!(body(&reel), "00002 16000 15 4849\nrefused 16001 3\n");
    }
}

#[test]
fn pens_count_in_equality() {
    // The same letter at the same place, once white and once red.
    let text = body(&reel("9429 C180 9468 C180"));
    assert_eq!(text, "00002 00003 15 41\n00004 00004 15 41\n");
}

#[test]
fn spaces_are_non_empty_cells() {
    for (space, code) in [("8020", "20"), ("9120", "80"), ("91B9", "99")] {
        let pairs = format!("9429 {space}");
        assert_eq!(body(&reel(&pairs)), format!("00002 00002 15 {code}\n"));
        assert_eq!(Desk::after(&pairs).row(15), Ok(1));
    }
}

#[test]
fn empty_cells_before_the_first_are_not_printed_and_between_are_00() {
    let text = body(&reel("9429 94F2 97A1 C180 97A2 C280"));
    assert_eq!(text, "00004 00005 15 41\n00006 00006 15 41000042\n");
}

#[test]
fn one_space_between_fields_and_a_line_feed_after_every_line() {
    assert_eq!(register(b""), "from to row codes\n");
    assert_eq!(register(b"?"), "from to row codes\nrefused 00001 5\n");
    let text = register(&reel("9425 C180 94AD C280"));
    let lines = [
        "from to row codes",
        "00002 00002 15 41",
        "00003 00003 14 41",
        "00004 00004 14 41",
        "00004 00004 15 42",
    ];
    assert_eq!(text, lines.map(|line| line.to_owned() + "\n").concat());
}

#[test]
fn every_kind_of_bad_line_is_5_at_its_own_frame() {
    let bad: [&[u8]; 12] = [
        b"9420\r\n",
        b"942f\n",
        b"\n",
        b"\xEF\xBB\xBF9420\n",
        b"9420",
        b"942",
        b"942\n",
        b"94200\n",
        b" 9420\n",
        b"9420 \n",
        b"94G0\n",
        b"9420\0",
    ];
    for line in bad {
        for good in 0..3u16 {
            let reel = [b"8080\n".repeat(usize::from(good)), line.to_vec()].concat();
            let refused = format!("refused {:05} 5\n", good + 1);
            assert_eq!(body(&reel), refused, "{line:?}");
            let reel = [reel, b"8080\n".to_vec()].concat();
            assert!(body(&reel) == refused || line == b"9420", "{line:?}");
        }
    }
}
