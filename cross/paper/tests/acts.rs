//! "What the codes do", line by line.

mod common;

use common::*;

#[test]
fn mid_row_codes_set_the_pen_and_write_a_space_with_it() {
    // White to magenta, plain and underlined, then italics, all from red.
    let codes = [
        "9120", "91A1", "91A2", "9123", "91A4", "9125", "9126", "91A7", "91A8", "9129", "912A",
        "91AB", "912C", "91AD", "91AE", "912F",
    ];
    for (number, code) in (0u8..).zip(codes) {
        let desk = Desk::after(&format!("9420 91A8 94A8 {code}"));
        let style = if number < 14 { number / 2 } else { 4 | 8 };
        let pen = style | (number % 2) << 4;
        assert_eq!(desk.hidden(), "15@1 808080");
        assert_eq!(desk.pens(HIDDEN, 15, 3..4), [pen], "{code}");
        assert_eq!(desk.cursor(POP_ON), [15, 4, pen], "{code}");
    }
}

#[test]
fn a_special_character_is_60h_more_than_b() {
    let desk = Desk::after("9429 91B0 9131 913D 913E 91BF 91B9");
    assert_eq!(desk.displayed(), "15@1 90919D9E9F99");
}

#[test]
fn special_characters_are_doubled_like_the_rest() {
    assert_eq!(Desk::after("9429 9137 9137").displayed(), "15@1 97");
    assert_eq!(Desk::after("9429 9137 9137 9137").displayed(), "15@1 9797");
    assert_eq!(Desk::after("9429 9137 8080 9137").displayed(), "15@1 9797");
}

#[test]
fn tabs_move_right_keep_cells_and_stop_at_32() {
    let desk = Desk::after("9429 C1C2 4344 94E0 97A1 C480");
    assert_eq!(desk.displayed(), "15@1 4144437F");
    let columns = |pairs: &str| Desk::after(pairs).cursor(PAINT_ON)[1];
    assert_eq!(columns("9429 97A1"), 2);
    assert_eq!(columns("9429 97A2"), 3);
    assert_eq!(columns("9429 9723"), 4);
    assert_eq!(columns("9429 94FE 9723"), 32);
    assert_eq!(columns("9429 94FE 97A2 97A1 97A2"), 32);
}

#[test]
fn backspace_empties_the_cell_to_the_left() {
    let desk = Desk::after("9429 C1C2 94A1");
    assert_eq!(desk.displayed(), "15@1 41");
    assert_eq!(desk.cursor(PAINT_ON)[1], 2);
}

#[test]
fn backspace_from_column_32_empties_31_whether_32_is_written_or_not() {
    let three = Desk::after("9429 94FE C1C2 4380 94A1");
    assert_eq!(three.displayed(), "15@29 4142");
    let four = Desk::after("9429 94FE C1C2 43C4 94A1");
    assert_eq!(four.displayed(), "15@29 41420044");
    assert_eq!(four.cursor(PAINT_ON)[1], 31);
}

#[test]
fn delete_to_end_takes_the_cursors_cell_too() {
    let desk = Desk::after("9429 C1C2 43C4 94E0 97A1 94A4");
    assert_eq!(desk.displayed(), "15@1 41");
    assert_eq!(desk.cursor(PAINT_ON)[1], 2);
    let full = Desk::after("9429 94FE C1C2 43C4 94A4");
    assert_eq!(full.displayed(), "15@29 414243");
}

#[test]
fn eoc_exchanges_the_memories_and_sets_pop_on() {
    let mut desk = Desk::after("9429 C1C2 9420 43C4 942F");
    assert_eq!(desk.displayed(), "15@1 4344");
    assert_eq!(desk.hidden(), "15@1 4142");
    assert_eq!(desk.desk[STYLE], 2);
    desk.feed("8080 942F");
    assert_eq!(
        (desk.displayed(), desk.hidden()),
        ("15@1 4142".into(), "15@1 4344".into())
    );
    let alone = Desk::after("942F C1C2");
    assert_eq!((alone.desk[STYLE], alone.hidden()), (2, "15@1 4142".into()));
}

#[test]
fn edm_and_enm_empty_their_own_memory() {
    let both = "9429 C1C2 9420 43C4";
    let edm = Desk::after(&format!("{both} 942C"));
    assert_eq!(
        (edm.displayed(), edm.hidden()),
        ("".into(), "15@1 4344".into())
    );
    let enm = Desk::after(&format!("{both} 94AE"));
    assert_eq!(
        (enm.displayed(), enm.hidden()),
        ("15@1 4142".into(), "".into())
    );
}

#[test]
fn roll_up_with_the_mark_clear_empties_both_memories() {
    for start in ["9429 C1C2 9420 43C4", "9420 43C4 942F C1C2"] {
        let desk = Desk::after(&format!("{start} 9426"));
        assert_eq!((desk.displayed(), desk.hidden()), ("".into(), "".into()));
        assert_eq!(desk.cursor(ROLL_UP), [15, 1, 0]);
        assert_eq!(desk.desk[STYLE..=DEPTH], [1, 0, 1, 3]);
    }
}

#[test]
fn roll_up_with_the_mark_set_empties_the_non_displayed_memory_only() {
    let desk = Desk::after("9425 C1C2 9420 43C4 9426");
    assert_eq!(
        (desk.displayed(), desk.hidden()),
        ("15@1 4142".into(), "".into())
    );
    assert_eq!(desk.cursor(ROLL_UP), [15, 3, 0]);
}

#[test]
fn a_lower_window_loses_its_top_rows() {
    let four = "94A7 C180 94AD C280 94AD 4380 94AD C480";
    assert_eq!(
        Desk::after(four).displayed(),
        "12@1 41; 13@1 42; 14@1 43; 15@1 44"
    );
    let three = Desk::after(&format!("{four} 9426"));
    assert_eq!(three.displayed(), "13@1 42; 14@1 43; 15@1 44");
    let two = Desk::after(&format!("{four} 9425 94A7"));
    assert_eq!(two.displayed(), "14@1 43; 15@1 44");
}

#[test]
fn carriage_return_rolls_within_the_window_and_sets_column_and_pen() {
    let mut desk = Desk::after("9425 91A8 C180 94AD C280");
    assert_eq!(desk.displayed(), "14@1 8041; 15@1 42");
    assert_eq!(desk.pens(DISPLAYED, 14, 1..3), [4, 4]);
    assert_eq!(desk.pens(DISPLAYED, 15, 1..2), [0]);
    desk.feed("94AD");
    assert_eq!(desk.displayed(), "14@1 42");
    assert_eq!(desk.cursor(ROLL_UP), [15, 1, 0]);
}

#[test]
fn the_window_goes_to_every_row_and_back() {
    let shown = |base: usize| format!("{}@1 41; {}@1 42; {base}@1 43", base - 2, base - 1);
    for (row, code) in (1..).zip(PREAMBLES) {
        let mut desk = Desk::after("9426 C180 94AD C280 94AD 4380");
        let base = row.max(3);
        desk.feed(code);
        assert_eq!(desk.displayed(), shown(base), "{code}");
        assert_eq!(desk.cursor(ROLL_UP), [base as u8, 1, 0]);
        let mut returned = desk.clone();
        returned.feed("94AD");
        assert_eq!(returned.desk[ROLL_UP], base as u8);
        desk.feed("8080 94E0");
        assert_eq!(desk.displayed(), shown(15), "{code}");
    }
}

#[test]
fn a_preamble_in_pop_on_and_paint_on_moves_the_cursor_alone() {
    for (style, place) in [("9420", POP_ON), ("9429", PAINT_ON)] {
        let desk = Desk::after(&format!("{style} C1C2 154F 43C4"));
        let shown = if place == POP_ON {
            desk.hidden()
        } else {
            desk.displayed()
        };
        assert_eq!(shown, "5@1 4344; 15@1 4142");
        assert_eq!(desk.cursor(place), [5, 3, 0x18]);
    }
}

#[test]
fn a_preamble_ends_flash() {
    let desk = Desk::after("9420 94A8 94E0");
    assert_eq!(desk.cursor(POP_ON), [15, 1, 0]);
}

#[test]
fn in_text_no_caption_code_moves_the_cursor_and_rcl_resumes_where_it_stood() {
    let mut desk = Desk::after("9420 C1C2 942A");
    for code in [
        "9140", "91A8", "9137", "97A1", "94A1", "94A4", "94A8", "94AD", "43C4",
    ] {
        desk.feed(code);
        assert_eq!(desk.cursor(POP_ON), [15, 3, 0], "{code}");
        assert_eq!(desk.hidden(), "15@1 4142", "{code}");
    }
    desk.feed("9420 43C4");
    assert_eq!(desk.hidden(), "15@1 41424344");
}

#[test]
fn without_a_style_no_caption_code_acts() {
    let mut desk = Desk::open();
    for code in [
        "9140", "91A8", "9137", "97A1", "94A1", "94A4", "94A8", "94AD", "43C4",
    ] {
        desk.feed(code);
        for cursor in [ROLL_UP, POP_ON, PAINT_ON] {
            assert_eq!(desk.cursor(cursor), [15, 1, 0], "{code}");
        }
        assert_eq!(desk.displayed() + &desk.hidden(), "", "{code}");
    }
}

#[test]
fn a_preamble_in_text_or_without_a_style_still_becomes_expected() {
    let desk = Desk::after("9440");
    assert_eq!(desk.desk[EXPECTED..EXPECTED + 2], [0x14, 0x40]);
    assert_eq!(desk.desk[STREAM], 1);
}

#[test]
fn with_channel_2_selected_its_codes_act_and_channel_1s_do_not() {
    let mut desk = Desk::open();
    desk.select(2).unwrap();
    desk.feed("1C29 C1C2 9429 43C4 1CA8 C480");
    assert_eq!(desk.displayed(), "15@1 41428044");
    assert_eq!(desk.desk[STREAM], 2);
    desk.feed("942C");
    assert_eq!(desk.row(15), Ok(4));
    desk.feed("1C2C");
    assert_eq!(desk.row(15), Ok(0));
}

#[test]
fn a_from_00h_to_0fh_is_ignored_and_the_second_byte_is_text() {
    let desk = Desk::after("9429 01C1 8F42 0243 8080 8015");
    // 8Fh is good; 42h and 43h: one bad, one good; 15h is good and below 20h.
    assert_eq!(desk.displayed(), "15@1 417F43");
}

#[test]
fn a_control_byte_with_a_bad_or_low_second_byte_does_nothing_else() {
    for pair in ["94A0", "9401", "1C20"] {
        let desk = Desk::after(&format!("9429 {pair}"));
        assert_eq!(desk.desk[STYLE], 3);
        assert_eq!(desk.displayed(), "");
    }
}
