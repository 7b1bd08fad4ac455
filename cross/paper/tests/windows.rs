//! "Windows off the top", sentence by sentence.

mod common;

use common::*;
use gen::prng::Prng;
use gen::records::odd_record;
use gen::traffic::structured;

/// RU2 to RU4.
const ROLL_UPS: [(usize, &str); 3] = [(2, "9425"), (3, "9426"), (4, "94A7")];

/// Four lines that no two rows share: letters, a colour, a tab, and last a pen
/// and a column that no code but a tab leaves behind.
const LINES: [&str; 4] = [
    "C1C2",
    "91A8 43C4 4580",
    "9723 C849 91B9",
    "91A8 94A8 C1C2 97A1",
];

/// Where the last line leaves column and pen: red, with flash.
const COLUMN_AND_PEN: [u8; 2] = [6, 0x24];

/// The code that sets this depth.
fn roll_up(depth: usize) -> &'static str {
    ROLL_UPS[depth - 2].1
}

/// The preamble of this row.
fn preamble(row: usize) -> &'static str {
    PREAMBLES[row - 1]
}

/// A desk whose window, of this depth and on this base row, has a line in every
/// row, the last of the four at the base row.
fn filled(base: usize, depth: usize) -> Desk {
    let mut desk = Desk::after(roll_up(depth));
    desk.feed(preamble(base));
    for (number, line) in LINES[4 - depth..].iter().enumerate() {
        if number > 0 {
            desk.feed("94AD 94AD");
        }
        desk.feed(line);
    }
    let [column, pen] = COLUMN_AND_PEN;
    assert_eq!(desk.cursor(ROLL_UP), [base as u8, column, pen]);
    assert!((1..=15).all(|row| is_empty(&desk, row) != (base + 1 - depth..=base).contains(&row)));
    desk
}

/// The bytes of a displayed row.
fn bytes(desk: &Desk, row: usize) -> &[u8] {
    let start = Desk::place(DISPLAYED, row, 1);
    &desk.desk[start..start + 64]
}

/// Whether no cell of a displayed row is filled.
fn is_empty(desk: &Desk, row: usize) -> bool {
    bytes(desk, row).iter().all(|&byte| byte == 0)
}

/// Shows that so many rows stand at the same distance from the base row as
/// before, and that all else displayed is empty.
fn rows_keep_their_distance(before: &Desk, after: &Desk, rows: usize) {
    let base = |desk: &Desk| usize::from(desk.desk[ROLL_UP]);
    let (from, to) = (base(before), base(after));
    for row in 1..=15 {
        if (to + 1 - rows..=to).contains(&row) {
            assert!(bytes(after, row) == bytes(before, from + row - to), "{row}");
        } else {
            assert!(is_empty(after, row), "{row}");
        }
    }
}

/// Every window that fits: base row and depth.
fn windows() -> impl Iterator<Item = (usize, usize)> {
    (2..=4).flat_map(|depth| (depth..=15).map(move |base| (base, depth)))
}

// "A news tape sets base row 2 with four rows, and we lose lines"

#[test]
fn the_news_tape_loses_no_line() {
    let tape = "94A7 94A7 91E0 91E0 C1C2 94AD 94AD 43C4 94AD 94AD C849 94AD 94AD 4580";
    let desk = Desk::after(tape);
    assert_eq!(desk.displayed(), "1@1 4142; 2@1 4344; 3@1 4849; 4@1 45");
    assert_eq!(desk.cursor(ROLL_UP), [4, 2, 0]);
}

// "a base row above the depth's fit is lowered to the row equal to the depth,
// at a preamble"

#[test]
fn a_preamble_from_every_window_to_every_row_keeps_every_row() {
    for (base, depth) in windows() {
        let before = filled(base, depth);
        for row in 1..=15 {
            let mut after = before.clone();
            after.feed(preamble(row));
            let lowered = row.max(depth) as u8;
            assert_eq!(after.cursor(ROLL_UP), [lowered, 1, 0], "{row} {depth}");
            assert_eq!(usize::from(after.desk[DEPTH]), depth);
            rows_keep_their_distance(&before, &after, depth);
        }
    }
}

#[test]
fn a_lowered_preamble_sets_column_and_pen_as_any_other() {
    for (depth, code) in ROLL_UPS {
        // Row 1: underlined cyan, white italics, indent 12 underlined.
        for (pair, column, pen) in [("91C7", 1, 0x13), ("91CE", 1, 0x08), ("9157", 13, 0x10)] {
            let desk = Desk::after(&format!("{code} C849 {pair}"));
            assert_eq!(desk.cursor(ROLL_UP), [depth as u8, column, pen], "{pair}");
            assert_eq!(desk.displayed(), format!("{depth}@1 4849"));
        }
    }
}

#[test]
fn a_preamble_before_any_text_is_lowered_too() {
    for (depth, code) in ROLL_UPS {
        for row in 1..=15 {
            let desk = Desk::after(&format!("{code} {} C849", preamble(row)));
            assert_eq!(desk.displayed(), format!("{}@1 4849", row.max(depth)));
        }
    }
}

#[test]
fn a_preamble_that_does_not_act_lowers_nothing() {
    // In Text, of the other channel, with a bad second byte; then a repeat.
    for pairs in ["942A 91E0", "19E0", "8080 9160"] {
        let desk = Desk::after(&format!("94A7 9770 C849 {pairs}"));
        assert_eq!(desk.desk[ROLL_UP], 10, "{pairs}");
        assert_eq!(desk.displayed(), "10@1 4849", "{pairs}");
    }
    let desk = Desk::after("94A7 91E0 91E0 C849");
    assert_eq!(desk.displayed(), "4@1 4849");
}

// "and when RU makes the window deeper, and the whole window moves with it"

#[test]
fn every_roll_up_on_every_window_moves_it_only_where_it_does_not_fit() {
    for (base, depth) in windows() {
        for (asked, code) in ROLL_UPS {
            let before = filled(base, depth);
            let mut after = before.clone();
            after.feed(code);
            let [column, pen] = COLUMN_AND_PEN;
            let lowered = base.max(asked) as u8;
            assert_eq!(after.cursor(ROLL_UP), [lowered, column, pen]);
            assert_eq!(usize::from(after.desk[DEPTH]), asked);
            rows_keep_their_distance(&before, &after, depth.min(asked));
        }
    }
}

#[test]
fn roll_up_lowers_from_pop_on_and_from_text_too() {
    for (base, depth) in windows() {
        for (asked, code) in ROLL_UPS {
            for between in ["9420 C849", "942A", "9420 94AB"] {
                let mut before = filled(base, depth);
                before.feed(between);
                let mut after = before.clone();
                after.feed(code);
                let [column, pen] = COLUMN_AND_PEN;
                let lowered = base.max(asked) as u8;
                assert_eq!(after.cursor(ROLL_UP), [lowered, column, pen]);
                assert_eq!(after.hidden(), "");
                rows_keep_their_distance(&before, &after, depth.min(asked));
            }
        }
    }
}

#[test]
fn roll_up_leaves_the_other_cursors_where_it_lowers_its_own() {
    let desk = Desk::after("9420 9140 C849 9425 9140 C180 94A7");
    assert_eq!(desk.cursor(ROLL_UP), [4, 2, 0]);
    assert_eq!(desk.cursor(POP_ON), [1, 3, 0]);
    assert_eq!(desk.cursor(PAINT_ON), [15, 1, 0]);
}

// The readings of the request, in their order (docs/DECISIONS.md).

#[test]
fn r1_the_window_of_the_old_depth_moves_and_the_new_rows_are_empty() {
    let mut desk = Desk::after("9425 91E0 C180 94AD C280 97A2");
    assert_eq!(desk.displayed(), "1@1 41; 2@1 42");
    desk.feed("94A7");
    assert_eq!(desk.displayed(), "3@1 41; 4@1 42");
    assert_eq!(desk.cursor(ROLL_UP), [4, 4, 0]);
    // What is typed comes behind the tab, and the new rows are rolled into.
    desk.feed("4380 94AD 94AD C480 94AD 94AD 4580");
    let rows = "1@1 41; 2@1 42000043; 3@1 44; 4@1 45";
    assert_eq!(desk.displayed(), rows);
}

#[test]
fn r1_pen_and_column_stay_at_a_deeper_roll_up() {
    let desk = Desk::after("9425 9140 91A8 97A2 9426 C180");
    assert_eq!(desk.displayed(), "3@1 80000041");
    assert_eq!(desk.pens(DISPLAYED, 3, 1..5), [4, 0, 0, 4]);
    assert_eq!(desk.cursor(ROLL_UP), [3, 5, 4]);
}

#[test]
fn r2_a_deeper_roll_up_that_fits_and_a_shallower_one_move_nothing() {
    // At the edge: base row 4 takes four rows, 3 three, and 4 stays for two.
    for (pairs, shown) in [
        ("9425 92E0 C180 94AD C280 94A7", "3@1 41; 4@1 42"),
        ("9425 9240 C180 94AD C280 9426", "2@1 41; 3@1 42"),
        ("94A7 9140 C180 94AD C280 94AD 4380 9425", "3@1 42; 4@1 43"),
        (
            "94A7 9140 C180 94AD C280 94AD 4380 9426",
            "2@1 41; 3@1 42; 4@1 43",
        ),
        ("9426 9140 C180 94AD C280 94AD 4380 9425", "2@1 42; 3@1 43"),
    ] {
        assert_eq!(Desk::after(pairs).displayed(), shown, "{pairs}");
    }
}

#[test]
fn r3_the_asked_row_is_forgotten() {
    let mut desk = Desk::after("94A7 91E0 C849 9425");
    assert_eq!(desk.displayed(), "4@1 4849");
    assert_eq!(desk.cursor(ROLL_UP), [4, 3, 0]);
    desk.feed("94AD 94AD C180");
    assert_eq!(desk.displayed(), "3@1 4849; 4@1 41");
    // Asked again, row 2 takes the two rows.
    desk.feed("91E0");
    assert_eq!(desk.displayed(), "1@1 4849; 2@1 41");
}

#[test]
fn r4_a_preamble_in_pop_on_sets_its_row_as_it_is_while_the_mark_is_set() {
    for (depth, code) in ROLL_UPS {
        for row in 1..=15 {
            let pairs = format!("{code} 9140 C849 9420 {} C180", preamble(row));
            let desk = Desk::after(&pairs);
            assert_eq!(desk.desk[MARK], 1);
            assert_eq!(desk.cursor(POP_ON), [row as u8, 2, 0]);
            assert_eq!(desk.hidden(), format!("{row}@1 41"));
            assert_eq!(desk.displayed(), format!("{depth}@1 4849"));
            assert_eq!(desk.cursor(ROLL_UP), [depth as u8, 3, 0]);
        }
    }
}

#[test]
fn r4_a_preamble_in_paint_on_sets_its_row_as_it_is() {
    for (_, code) in ROLL_UPS {
        for row in 1..=15 {
            let desk = Desk::after(&format!("{code} 9429 {} C180", preamble(row)));
            assert_eq!(desk.cursor(PAINT_ON), [row as u8, 2, 0]);
            assert_eq!(desk.displayed(), format!("{row}@1 41"));
        }
    }
}

#[test]
fn r5_with_the_mark_clear_base_row_and_depth_are_free() {
    for pairs in ["9429 C849", "9420 C849", "94A7 91E0 9429", "9425 942F"] {
        for base in 1..=15 {
            for depth in [0, 2, 3, 4] {
                let mut desk = Desk::after(pairs);
                desk.desk[ROLL_UP] = base;
                desk.desk[DEPTH] = depth;
                let shown = desk.displayed();
                let acts = desk.acts();
                assert_eq!(desk.take(0x80, 0x80), Ok(acts + 1), "{pairs}");
                assert_eq!(desk.desk[ROLL_UP..=ROLL_UP], [base]);
                assert_eq!(desk.displayed(), shown);
                // Roll-up begins anew, whatever the record held.
                desk.feed("9426");
                assert_eq!(desk.cursor(ROLL_UP), [15, 1, 0]);
            }
        }
    }
}

#[test]
fn r6_a_record_of_before_is_6() {
    // A window cut off at row 1: base row 2, four rows, text in both.
    let mut desk = Desk::after("94A7 92E0 94AD C180 94AD C280");
    desk.desk[DISPLAYED..HIDDEN].rotate_left(128);
    count_cells(&mut desk.desk);
    desk.desk[ROLL_UP] = 2;
    assert_eq!(desk.displayed(), "1@1 41; 2@1 42");
    refused_by_all(&mut desk);
}

// "A valid record with the mark set has its base row no smaller than its
// depth."

#[test]
fn with_the_mark_set_a_base_row_one_too_small_is_6_and_an_equal_one_is_taken() {
    for (depth, code) in ROLL_UPS {
        for style in ["", "9420", "942A"] {
            let good = Desk::after(&format!("{code} {} C849 {style}", preamble(depth)));
            assert_eq!(usize::from(good.desk[ROLL_UP]), depth);
            assert_eq!(good.clone().take(0x80, 0x80), Ok(good.acts() + 1));
            for base in 1..depth {
                let mut desk = good.clone();
                desk.desk[ROLL_UP] = base as u8;
                refused_by_all(&mut desk);
                // Without a cell, too: it is the base row that decides.
                desk.desk[DISPLAYED..HIDDEN].fill(0);
                count_cells(&mut desk.desk);
                refused_by_all(&mut desk);
                desk.desk[ROLL_UP] = depth as u8;
                assert_eq!(desk.row(depth as u8), Ok(0));
            }
        }
    }
}

#[test]
fn a_depth_one_too_large_is_6_with_the_mark_set() {
    for (depth, code) in &ROLL_UPS[..2] {
        let good = Desk::after(&format!("{code} {} C849", preamble(*depth)));
        for deeper in depth + 1..=4 {
            let mut desk = good.clone();
            desk.desk[DEPTH] = deeper as u8;
            refused_by_all(&mut desk);
            desk.desk[ROLL_UP] = deeper as u8;
            assert_eq!(desk.row(*depth as u8), Ok(2));
        }
    }
}

#[test]
fn a_start_of_a_step_back_with_a_base_row_too_small_is_6() {
    for (depth, code) in ROLL_UPS {
        let mut good = Desk::after(&format!("{code} 9140 C849"));
        good.feed_up_to(1_002);
        for base in 1..=depth {
            let mut desk = good.clone();
            desk.slot_mut(1)[ROLL_UP] = base as u8;
            if base == depth {
                assert_eq!(desk.back(1), Ok(1_001));
            } else {
                desk.refuses(INVALID, |desk| desk.back(0));
                desk.refuses(INVALID, |desk| desk.back(1));
                desk.refuses(INVALID, |desk| desk.back(2));
                assert_eq!(desk.back(3), Ok(999));
            }
        }
    }
}

#[test]
fn after_every_act_on_any_valid_record_the_window_fits() {
    let mut lowered = 0;
    for seed in 0..2_000 {
        let mut desk = Desk::open();
        desk.desk = odd_record(seed, 500);
        for (first, second) in structured(!seed, 20) {
            let before = desk.desk[ROLL_UP];
            desk.take(first, second).unwrap();
            let [depth, base] = [desk.desk[DEPTH], desk.desk[ROLL_UP]];
            assert!(desk.desk[MARK] == 0 || base >= depth);
            lowered += u32::from(base != before && base == depth);
        }
    }
    assert!(lowered >= 100, "{lowered}");
}

// A step back over what the request changes.

#[test]
fn a_step_back_over_a_lowered_window_gives_the_desk_of_before() {
    let mut prng = Prng::new(4);
    for (base, depth) in windows() {
        let before = filled(base, depth);
        let row = prng.within(1, 3);
        for code in [preamble(row), roll_up(4), roll_up(3)] {
            let mut desk = before.clone();
            desk.feed(code);
            let moved = desk.clone();
            desk.feed("4580");
            assert_eq!(desk.back(1), Ok(moved.acts()));
            assert!(desk == moved);
            assert_eq!(desk.back(1), Ok(before.acts()));
            assert!(desk == before);
        }
    }
}
