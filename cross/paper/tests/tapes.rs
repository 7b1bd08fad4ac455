//! Tapes of our own making: the request's sentences one by one, and what the
//! judge of a tape lets pass.

use paper::codes::FLASH;
use paper::decode::{Cell, Grid, EMPTY_GRID};
use paper::judge::judge;
use paper::numbers::{Answer, Refusal};
use paper::tape::{is_writable, pairs, tape, MEMORY_BYTES, TAPE_BYTES};

/// A screen with these cells: row, column, code, pen.
fn screen(cells: &[(usize, usize, u8, u8)]) -> Grid {
    let mut screen = EMPTY_GRID;
    for &(row, column, code, pen) in cells {
        screen[row - 1][column - 1] = Cell { code, pen };
    }
    screen
}

/// The 960 bytes of a screen.
fn memory(screen: &Grid) -> Vec<u8> {
    let cells = screen.as_flattened().iter();
    cells.flat_map(|cell| [cell.code, cell.pen]).collect()
}

/// The tape of a screen as `9420 9420 …`.
fn written(screen: &Grid, channel: u8) -> String {
    let pair = |[first, second]: [u8; 2]| format!("{first:02X}{second:02X}");
    let all: Vec<String> = pairs(screen, channel).into_iter().map(pair).collect();
    all.join(" ")
}

/// A row's part of its screen's tape on channel 1.
fn row(cells: &[(usize, usize, u8, u8)]) -> String {
    let all = written(&screen(cells), 1);
    let rest = all.strip_prefix("9420 9420 94AE 94AE ").unwrap();
    rest.strip_suffix(" 942F 942F").unwrap().to_string()
}

/// The bytes of a line such as `9420 9420`.
fn bytes(tape: &str) -> Vec<u8> {
    let digits: String = tape.split_whitespace().collect();
    let byte = |place| u8::from_str_radix(&digits[place..place + 2], 16).unwrap();
    (0..digits.len()).step_by(2).map(byte).collect()
}

/// What a call answers for this memory, with a right buffer.
fn answer(memory: &[u8], channel: u8) -> Answer {
    tape(memory, channel, &mut [0; TAPE_BYTES])
}

#[test]
fn the_empty_screen_takes_12_bytes() {
    assert_eq!(written(&EMPTY_GRID, 1), "9420 9420 94AE 94AE 942F 942F");
    assert_eq!(written(&EMPTY_GRID, 2), "1C20 1C20 1CAE 1CAE 1C2F 1C2F");
    assert_eq!(answer(&[0; MEMORY_BYTES], 1), Ok(12));
}

#[test]
fn the_dearest_screen_takes_1992_bytes() {
    let full = [[Cell { code: 0x90, pen: 0 }; 32]; 15];
    assert_eq!(answer(&memory(&full), 1), Ok(1_992));
}

#[test]
fn a_row_is_a_preamble_tabs_and_characters() {
    assert_eq!(row(&[(15, 1, 0x48, 0), (15, 2, 0x49, 0)]), "9470 9470 C849");
    assert_eq!(row(&[(15, 1, 0x48, 1)]), "9462 9462 C880");
    assert_eq!(row(&[(1, 5, 0x41, 0x10)]), "91D3 91D3 C180");
    // two characters around a gap of one, two, three, four and five
    for (gap, tabs) in [
        (1, "97A1 97A1"),
        (2, "97A2 97A2"),
        (3, "9723 9723"),
        (4, "9723 9723 97A1 97A1"),
        (5, "9723 9723 97A2 97A2"),
    ] {
        assert_eq!(
            row(&[(15, 1, 0x41, 0), (15, 2 + gap, 0x42, 0)]),
            format!("9470 9470 C180 {tabs} C280"),
        );
    }
}

#[test]
fn special_characters_stand_alone_and_twice() {
    let cells = [
        (15, 1, 0x41, 0),
        (15, 2, 0x97, 0),
        (15, 3, 0x97, 0),
        (15, 4, 0x42, 0),
    ];
    assert_eq!(row(&cells), "9470 9470 C180 9137 9137 9137 9137 C280");
}

#[test]
fn column_32_and_column_1_of_the_next_row_are_two_rows() {
    let cells = [(14, 32, 0x41, 0), (15, 1, 0x42, 0)];
    assert_eq!(row(&cells), "945E 945E 9723 9723 C180 9470 9470 C280");
}

#[test]
fn refusals_come_in_the_order_1_6_2_7() {
    let flash = memory(&screen(&[(1, 1, 0x41, FLASH)]));
    let mut invalid = flash.clone();
    invalid[959] = 1;
    assert_eq!(answer(&invalid[..959], 3), Err(Refusal::Length));
    assert_eq!(tape(&invalid, 3, &mut [0; 4_095]), Err(Refusal::Length));
    assert_eq!(tape(&invalid, 3, &mut [0; 4_097]), Err(Refusal::Length));
    assert_eq!(answer(&invalid, 3), Err(Refusal::Invalid));
    assert_eq!(answer(&flash, 3), Err(Refusal::Range));
    assert_eq!(answer(&flash, 0), Err(Refusal::Range));
    assert_eq!(answer(&flash, 2), Err(Refusal::Unwritable));
}

#[test]
fn bytes_past_the_pairs_keep_what_they_held() {
    let mut out = [0xA5; TAPE_BYTES];
    assert_eq!(tape(&[0; MEMORY_BYTES], 1, &mut out), Ok(12));
    assert!(out[12..].iter().all(|&byte| byte == 0xA5));
    let before = out;
    assert_eq!(tape(&[7; MEMORY_BYTES], 1, &mut out), Err(Refusal::Invalid));
    assert_eq!(out, before);
}

#[test]
fn a_screen_is_writable_row_by_row() {
    assert!(is_writable(&EMPTY_GRID));
    // each row its own pen
    assert!(is_writable(&screen(&[(1, 1, 0x41, 1), (2, 1, 0x41, 0x18)])));
    // two pens, flash, coloured italics, 80h
    assert!(!is_writable(&screen(&[(1, 1, 0x41, 1), (1, 32, 0x41, 2)])));
    assert!(!is_writable(&screen(&[(1, 1, 0x20, 0), (1, 2, 0x41, 2)])));
    assert!(!is_writable(&screen(&[(15, 32, 0x41, 0x20)])));
    assert!(!is_writable(&screen(&[(8, 3, 0x41, 0x09)])));
    assert!(is_writable(&screen(&[(8, 3, 0x41, 0x08)])));
    assert!(!is_writable(&screen(&[(8, 3, 0x80, 0)])));
}

/// What the judge says of a tape for `HI` in row 15.
fn judged(tape: &str) -> Result<(), String> {
    let hi = screen(&[(15, 1, 0x48, 0), (15, 2, 0x49, 0)]);
    judge(&bytes(tape), 1, &hi)
}

#[test]
fn tapes_that_are_right_in_another_way_pass() {
    for tape in [
        "9420 9420 94AE 94AE 9470 9470 C849 942F 942F",
        "9420 9420 94AE 94AE 94E0 94E0 C880 4980 942F 942F",
        "9420 9420 94AE 94AE 94E0 94E0 80C8 8049 942F 942F",
        "9420 9420 94AE 94AE 9170 9170 94E0 94E0 C849 942F 942F",
        "9420 9420 94AE 94AE 94E0 94E0 4949 94E0 94E0 C849 97A1 97A1 942F 942F",
    ] {
        assert_eq!(judged(tape), Ok(()), "{tape}");
    }
}

#[test]
fn tapes_that_break_a_sentence_do_not_pass() {
    for (tape, why) in [
        ("", "not RCL"),
        (
            "9420 9420 94AE 94AE 9470 9470 C849 942F 94",
            "an odd number",
        ),
        (
            "9420 9420 94AE 94AE 9470 9470 4849 942F 942F",
            "even number of ones",
        ),
        ("9420 94AE 94AE 9470 9470 C849 942F 942F", "not sent twice"),
        ("9420 9420 94AE 9470 9470 C849 942F 942F", "not sent twice"),
        ("9420 9420 94AE 94AE 9470 C849 942F 942F", "not sent twice"),
        ("9420 9420 94AE 94AE 9470 9470 C849 942F", "not sent twice"),
        ("94AE 94AE 9420 9420 9470 9470 C849 942F 942F", "not RCL"),
        ("9420 9420 9470 9470 C849 942F 942F", "not RCL"),
        ("9420 9420 94AE 94AE 9470 9470 C849", "not RCL"),
        ("9420 9420 94AE 94AE 942F 942F 9470 9470 C849", "not RCL"),
        (
            "9420 9420 9420 9420 94AE 94AE 9470 9470 C849 942F 942F",
            "not RCL",
        ),
        (
            "9420 9420 94AE 94AE 9470 9470 94AE 94AE C849 942F 942F",
            "between ENM and EOC",
        ),
        (
            "9420 9420 94AE 94AE 9470 9470 9420 9420 C849 942F 942F",
            "between ENM and EOC",
        ),
        (
            "9420 9420 94AE 94AE 9470 9470 C849 942F 942F 942F 942F",
            "between ENM and EOC",
        ),
        (
            "9420 9420 94AE 94AE 9470 9470 9120 9120 C849 942F 942F",
            "between ENM and EOC",
        ),
        (
            "9420 9420 94AE 94AE 9470 9470 8080 C849 942F 942F",
            "two nulls",
        ),
        (
            "9420 9420 94AE 94AE C849 9470 9470 942F 942F",
            "before a preamble",
        ),
        (
            "9420 9420 94AE 94AE 97A1 97A1 9470 9470 C849 942F 942F",
            "before a preamble",
        ),
        (
            "9420 9420 94AE 94AE 1C70 1C70 C849 942F 942F",
            "another channel's",
        ),
        (
            "9420 9420 94AE 94AE 9470 9470 94A2 94A2 C849 942F 942F",
            "unassigned",
        ),
        (
            "9420 9420 94AE 94AE 9470 9470 C849 0180 942F 942F",
            "neither a character",
        ),
        (
            "9420 9420 94AE 94AE 9470 9470 C8CB 942F 942F",
            "row 15 column 2",
        ),
        (
            "9420 9420 94AE 94AE 9470 9470 C849 C880 942F 942F",
            "row 15 column 3",
        ),
        (
            "9420 9420 94AE 94AE 94F1 94F1 C849 942F 942F",
            "row 15 column 1",
        ),
        (
            "9420 9420 94AE 94AE 94D0 94D0 C849 942F 942F",
            "row 14 column 1",
        ),
    ] {
        let told = judged(tape).expect_err(tape);
        assert!(told.contains(why), "{tape}: {told}");
    }
    let long = [
        &bytes("9420 9420 94AE 94AE")[..],
        &bytes("9470").repeat(2_044),
        &bytes("942F 942F"),
    ]
    .concat();
    assert_eq!(
        judge(&long[4..], 1, &EMPTY_GRID),
        Err("not RCL, ENM, rows and EOC".into())
    );
    assert_eq!(judge(&long, 1, &EMPTY_GRID), Err("4100 bytes".into()));
}
