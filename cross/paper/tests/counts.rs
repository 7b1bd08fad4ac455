//! "How full is each row", sentence by sentence.

mod common;

use common::*;
use gen::prng::Prng;
use gen::records::odd_record;
use gen::traffic::structured;
use paper::desk;

/// The bytes at the ends of both lists: rows 1 and 15 of the displayed memory,
/// and of the other.
const ENDS: [usize; 4] = [19, 33, 34, 48];

/// The rows whose count is not 0, as `14:2 15:3`.
fn rows(counts: &[u8]) -> String {
    let rows = (1..).zip(counts).filter(|(_, &count)| count != 0);
    let texts: Vec<String> = rows.map(|(row, count)| format!("{row}:{count}")).collect();
    texts.join(" ")
}

/// The counts of the displayed rows and of the others.
fn counts(desk: &Desk) -> (String, String) {
    (rows(&desk.desk[19..34]), rows(&desk.desk[34..49]))
}

/// Each story, from fresh, and the counts after it.
fn hold(stories: &[(&str, &str, &str)]) {
    for &(pairs, displayed, others) in stories {
        let expected = (displayed.to_owned(), others.to_owned());
        assert_eq!(counts(&Desk::after(pairs)), expected, "{pairs}");
    }
}

/// Letters in rows 1 and 15 of both memories, of each another number.
fn lettered() -> Desk {
    let desk = Desk::after("9420 9140 C1C2 94E0 C1C2 4380 942F 9140 C1C2 43C4 94E0 C1C2 43C4 4580");
    assert_eq!(counts(&desk), ("1:2 15:3".into(), "1:4 15:5".into()));
    desk
}

/// What no count may be where this one is right: one more, one less, the
/// largest byte, and the same with its highest bit set.
fn wrong(right: u8) -> [u8; 4] {
    [right + 1, right.wrapping_sub(1), 255, right | 0x80]
}

// "bytes 19 to 33 for the displayed rows, 34 to 48 for the others"

#[test]
fn row_1_stands_first_and_the_displayed_rows_before_the_others() {
    for (style, first) in [("9429", 19), ("9420", 34)] {
        for (row, preamble) in PREAMBLES.iter().enumerate() {
            let desk = Desk::after(&format!("{style} {preamble} C1C2 4380"));
            let mut expected = [0; 45];
            expected[first - 19 + row] = 3;
            assert_eq!(desk.desk[19..64], expected, "{style} {preamble}");
        }
    }
}

// "how many cells of each row are filled"

#[test]
fn spaces_attribute_spaces_and_transparent_spaces_are_filled() {
    // 20h, 7Fh by itself and for a bad byte, 80h by a mid-row code and by FON,
    // 90h, 99h, 9Fh.
    for one in [
        "8020", "807F", "8041", "9120", "94A8", "91B0", "91B9", "91BF",
    ] {
        hold(&[
            (&format!("9429 {one}"), "15:1", ""),
            (&format!("9420 {one}"), "", "15:1"),
        ]);
    }
}

#[test]
fn a_full_row_counts_32_and_an_empty_one_0() {
    let full = format!("9429 {}", "C1C2 ".repeat(16));
    hold(&[(&full, "15:32", ""), ("9429", "", ""), ("", "", "")]);
    // What is written past column 32 stays in it.
    hold(&[(&format!("{full} C1C2"), "15:32", "")]);
}

// "every act keeps them right"

#[test]
fn typing_keeps_the_counts() {
    hold(&[
        ("9429 C849", "15:2", ""),
        ("9425 C849", "15:2", ""),
        ("9420 C849", "", "15:2"),
        // a cell that is written again is no other cell
        ("9429 C849 94E0 C1C2", "15:2", ""),
        ("9429 94FE C1C2 43C4 4580", "15:4", ""),
        // columns that a tab or an indent passes over are not filled
        ("9429 C180 97A2 C280", "15:2", ""),
        ("9429 94F2 C180", "15:1", ""),
        // nothing is written without a style, in Text, or by the other channel
        ("C849", "", ""),
        ("9429 942A C849", "", ""),
        ("9429 1C29 C849", "", ""),
    ]);
}

#[test]
fn bs_and_der_keep_the_counts() {
    hold(&[
        ("9429 C849 94A1", "15:1", ""),
        ("9420 C849 94A1", "", "15:1"),
        // at column 1, and over a cell that is empty already
        ("9429 C849 94E0 94A1", "15:2", ""),
        ("9429 C849 97A1 94A1", "15:2", ""),
        ("9429 C1C2 43C4 94E0 97A1 94A4", "15:1", ""),
        ("9420 C1C2 43C4 94E0 94A4", "", ""),
        ("9429 94FE C1C2 43C4 94A4", "15:3", ""),
        ("9429 C849 94A4", "15:2", ""),
    ]);
}

#[test]
fn carriage_returns_take_the_counts_along() {
    hold(&[
        ("9426 C849 94AD", "14:2", ""),
        ("9426 C849 94AD C180 94AD 8020", "13:2 14:1 15:1", ""),
        ("9425 C849 94AD C180 94AD", "14:1", ""),
        ("94A7 91E0 C849 94AD C180 94AD", "2:2 3:1", ""),
        ("9425 9140 C849 94AD C180 94AD", "1:1", ""),
        ("9429 C849 94AD", "15:2", ""),
    ]);
}

#[test]
fn erasing_and_exchanging_take_the_counts_along() {
    let both = "9429 C849 9240 C180 9420 C1C2 4380";
    let with = |code: &str| format!("{both} {code}");
    hold(&[
        (both, "3:1 15:2", "15:3"),
        (&with("942C"), "", "15:3"),
        (&with("94AE"), "3:1 15:2", ""),
        (&with("942F"), "15:3", "3:1 15:2"),
        (&with("942F 8080 942F"), "3:1 15:2", "15:3"),
        (&with("942A 942F"), "15:3", "3:1 15:2"),
        (&with("1C2C 1CAE 1C2F"), "3:1 15:2", "15:3"),
    ]);
}

#[test]
fn a_moved_window_takes_the_counts_along() {
    let three = "9426 C180 94AD C849 94AD C1C2 4380";
    let with = |code: &str| format!("{three} {code}");
    hold(&[
        (three, "13:1 14:2 15:3", ""),
        (&with("9770"), "8:1 9:2 10:3", ""),
        (&with("94F2"), "13:1 14:2 15:3", ""),
        (&with("9440"), "12:1 13:2 14:3", ""),
        // a base row above the fit is lowered, and no row is lost
        (&with("91E0"), "1:1 2:2 3:3", ""),
        (&with("9140 94E0"), "13:1 14:2 15:3", ""),
        (&with("9140 94A7"), "2:1 3:2 4:3", ""),
        (&with("9140 9425"), "2:2 3:3", ""),
    ]);
}

#[test]
fn roll_up_empties_rows_and_their_counts() {
    let four = "94A7 C180 94AD C849 94AD C1C2 4380 94AD C1C2 43C4";
    let with = |code: &str| format!("{four} {code}");
    hold(&[
        (four, "12:1 13:2 14:3 15:4", ""),
        (&with("9426"), "13:2 14:3 15:4", ""),
        (&with("9425 94A7"), "14:3 15:4", ""),
        (&with("9420 C849 9425"), "14:3 15:4", ""),
        // the mark clear: both memories
        ("9429 C849 9420 C180 9425", "", ""),
    ]);
}

#[test]
fn resuming_a_style_or_text_leaves_the_counts() {
    let both = "9429 C849 9420 C180";
    for code in ["9420", "9429", "942A", "94AB", "9140", "97A1", "94AD"] {
        hold(&[(&format!("{both} {code}"), "15:2", "15:1")]);
    }
    hold(&[("9425 C849 9420 C180", "15:2", "15:1")]);
}

#[test]
fn selecting_and_stepping_back_make_the_counts_anew() {
    let mut desk = lettered();
    let mut selected = desk.clone();
    assert_eq!(selected.select(2), Ok(15));
    assert_eq!(counts(&selected), (String::new(), String::new()));
    assert_eq!(selected.back(1), Ok(14));
    assert!(selected.desk == desk.desk);
    assert_eq!(desk.back(7), Ok(7));
    assert_eq!(counts(&desk), ("1:2 15:3".into(), "".into()));
    assert_eq!(desk.back(1), Ok(6));
    assert_eq!(counts(&desk), ("".into(), "1:2 15:3".into()));
    assert_eq!(desk.back(6), Ok(0));
    assert!(desk == Desk::open());
}

#[test]
fn a_slot_is_kept_with_its_counts_and_given_back_with_them() {
    let mut desk = lettered();
    desk.feed_up_to(1_000);
    assert_eq!(desk.slot(1)[19..49], desk.desk[19..49]);
    desk.feed("942C");
    assert_eq!(desk.back(1), Ok(1_000));
    assert_eq!(counts(&desk), ("1:2 15:3".into(), "1:4 15:5".into()));
}

#[test]
fn after_every_act_on_any_valid_record_the_counts_are_those_of_the_cells() {
    for seed in 0..2_000 {
        let mut desk = Desk::open();
        desk.desk = odd_record(seed, 500);
        for (first, second) in structured(!seed, 20) {
            desk.take(first, second).unwrap();
            let mut counted = desk.desk.clone();
            count_cells(&mut counted);
            assert_eq!(desk.desk[19..64], counted[19..64]);
        }
        for row in 1..=15 {
            assert_eq!(desk.row(row), Ok(desk.desk[18 + usize::from(row)].into()));
        }
    }
}

// "A record is valid only if they are."

#[test]
fn a_wrong_count_is_6_in_every_call() {
    for good in [lettered(), Desk::open()] {
        for place in ENDS {
            for byte in wrong(good.desk[place]) {
                let mut desk = good.clone();
                desk.desk[place] = byte;
                refused_by_all(&mut desk);
                desk.desk[place] = good.desk[place];
                assert_eq!(desk.take(0x80, 0x80), Ok(good.acts() + 1));
            }
        }
    }
}

#[test]
fn every_other_byte_is_a_wrong_count() {
    let good = lettered();
    for place in 19..49 {
        for byte in 0..=255 {
            let mut desk = good.clone();
            desk.desk[place] = byte;
            let right = byte == good.desk[place];
            assert_eq!(desk.row(15), if right { Ok(3) } else { INVALID });
        }
    }
}

#[test]
fn a_wrong_count_in_the_start_of_a_step_back_is_6() {
    let mut good = lettered();
    good.feed_up_to(2_001);
    for place in ENDS {
        for byte in wrong(good.slot(2)[place]) {
            let mut desk = good.clone();
            desk.slot_mut(2)[place] = byte;
            desk.refuses(INVALID, |desk| desk.back(0));
            desk.refuses(INVALID, |desk| desk.back(1));
            // Slot 1 is the start of these acts, and slot 2 is not needed.
            assert_eq!(desk.clone().back(2), Ok(1_999));
            desk.slot_mut(2)[place] = good.slot(2)[place];
            assert_eq!(desk.back(0), Ok(2_001));
            assert!(desk == good);
        }
    }
}

#[test]
fn counts_of_other_rows_or_of_the_other_memory_are_6() {
    let good = lettered();
    let exchanges: [fn(&mut [u8]); 4] = [
        |record| record.swap(19, 33),
        |record| record.swap(34, 48),
        |record| record.swap(33, 48),
        |record| record[19..49].rotate_left(15),
    ];
    for exchange in exchanges {
        let mut desk = good.clone();
        exchange(&mut desk.desk);
        refused_by_all(&mut desk);
        exchange(&mut desk.desk);
        assert!(desk == good);
        assert_eq!(desk.row(1), Ok(2));
    }
}

#[test]
fn a_cell_and_its_count_change_together() {
    let good = lettered();
    let mut prng = Prng::new(1);
    for _ in 0..500 {
        let (memory, counts) = prng.pick(&[(DISPLAYED, 19), (HIDDEN, 34)]);
        let row = prng.within(1, 15);
        let column = prng.within(6, 32);
        let mut desk = good.clone();
        desk.desk[Desk::place(memory, row, column)] = prng.pick(&[0x20, 0x7F, 0x80, 0x99]);
        refused_by_all(&mut desk);
        desk.desk[counts + row - 1] += 1;
        assert_eq!(desk.take(0x80, 0x80), Ok(good.acts() + 1));
    }
}

#[test]
fn records_without_counts_are_valid_only_where_both_memories_are_empty() {
    for (pairs, valid) in [
        ("9429", true),
        ("9429 C849 942C", true),
        ("9429 C849", false),
    ] {
        let mut desk = Desk::after(pairs);
        desk.desk[19..49].fill(0);
        assert_eq!(desk.row(1).is_ok(), valid, "{pairs}");
    }
}

// "the fresh record is unchanged"

#[test]
fn the_fresh_record_has_no_count() {
    assert!(desk::fresh_record()[19..64].iter().all(|&byte| byte == 0));
}
