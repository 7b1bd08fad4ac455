//! What the tests share: a desk with its three buffers, and short ways to feed
//! it and to read its record.
#![allow(dead_code)]

use std::fmt::Write as _;

use paper::desk::{self, LOG_BYTES, RECORD_BYTES, TRAY_BYTES};
use paper::numbers::{Answer, Refusal};

/// Places in the record, by the paper's list.
pub const SELECTED: usize = 2;
pub const STREAM: usize = 3;
pub const STYLE: usize = 4;
pub const TEXT: usize = 5;
pub const MARK: usize = 6;
pub const DEPTH: usize = 7;
pub const ROLL_UP: usize = 8;
pub const POP_ON: usize = 11;
pub const PAINT_ON: usize = 14;
pub const EXPECTED: usize = 17;
pub const DISPLAYED_COUNTS: usize = 19;
pub const HIDDEN_COUNTS: usize = 34;
pub const ZEROS: std::ops::Range<usize> = 49..64;
pub const DISPLAYED: usize = 64;
pub const HIDDEN: usize = 1024;

pub const LENGTH: Answer = Err(Refusal::Length);
pub const RANGE: Answer = Err(Refusal::Range);
pub const FULL: Answer = Err(Refusal::Full);
pub const TOO_FAR: Answer = Err(Refusal::TooFar);
pub const LINE: Answer = Err(Refusal::Line);
pub const INVALID: Answer = Err(Refusal::Invalid);

/// The preambles of rows 1 to 15, in column 1 and with a plain pen.
pub const PREAMBLES: [&str; 15] = [
    "9140", "91E0", "9240", "92E0", "1540", "15E0", "1640", "16E0", "9740", "97E0", "1040", "1340",
    "13E0", "9440", "94E0",
];

/// A desk and its buffers.
#[derive(Clone, Debug, PartialEq, Eq)]
pub struct Desk {
    pub desk: Vec<u8>,
    pub log: Vec<u8>,
    pub tray: Vec<u8>,
}

/// The pairs of a line such as `9420 C849`.
pub fn pairs(text: &str) -> Vec<(u8, u8)> {
    let byte = |digits| u8::from_str_radix(digits, 16).unwrap();
    text.split_whitespace()
        .map(|pair| (byte(&pair[..2]), byte(&pair[2..])))
        .collect()
}

/// The reel of a line such as `9420 C849`: one a line.
pub fn reel(text: &str) -> Vec<u8> {
    text.split_whitespace()
        .flat_map(|pair| [pair, "\n"])
        .flat_map(str::bytes)
        .collect()
}

/// The register of a reel, as text.
pub fn register(reel: &[u8]) -> String {
    String::from_utf8(paper::register::register(reel)).unwrap()
}

impl Desk {
    /// A desk opened over buffers that held something else.
    pub fn open() -> Desk {
        let mut desk = Desk {
            desk: vec![0xA5; RECORD_BYTES],
            log: vec![0xA5; LOG_BYTES],
            tray: vec![0xA5; TRAY_BYTES],
        };
        assert_eq!(
            desk::open(&mut desk.desk, &mut desk.log, &mut desk.tray),
            Ok(0)
        );
        desk
    }

    /// "All from fresh": a desk after these pairs.
    pub fn after(text: &str) -> Desk {
        let mut desk = Desk::open();
        desk.feed(text);
        desk
    }

    /// Takes these pairs; each must be taken.
    pub fn feed(&mut self, text: &str) {
        for (first, second) in pairs(text) {
            let before = self.acts();
            assert_eq!(self.take(first, second), Ok(before + 1));
        }
    }

    /// Takes nulls until so many acts stand.
    pub fn feed_up_to(&mut self, acts: u16) {
        while self.acts() < acts {
            self.feed("8080");
        }
    }

    pub fn take(&mut self, first: u8, second: u8) -> Answer {
        desk::take(&mut self.desk, &mut self.log, &mut self.tray, first, second)
    }

    pub fn select(&mut self, channel: u8) -> Answer {
        desk::select(&mut self.desk, &mut self.log, &mut self.tray, channel)
    }

    pub fn back(&mut self, k: u32) -> Answer {
        desk::back(&mut self.desk, &mut self.log, &mut self.tray, k)
    }

    pub fn row(&self, row: u8) -> Answer {
        desk::row(&self.desk, row)
    }

    pub fn acts(&self) -> u16 {
        u16::from_le_bytes([self.desk[0], self.desk[1]])
    }

    /// Writes another act count into the record.
    pub fn set_acts(&mut self, acts: u16) {
        self.desk[..2].copy_from_slice(&acts.to_le_bytes());
    }

    /// The bytes of slot s.
    pub fn slot(&self, s: usize) -> &[u8] {
        &self.tray[(s - 1) * RECORD_BYTES..s * RECORD_BYTES]
    }

    pub fn slot_mut(&mut self, s: usize) -> &mut [u8] {
        &mut self.tray[(s - 1) * RECORD_BYTES..s * RECORD_BYTES]
    }

    /// The bytes of act n, from 1.
    pub fn act_mut(&mut self, n: usize) -> &mut [u8] {
        &mut self.log[3 * (n - 1)..3 * n]
    }

    /// Row, column and pen of the cursor at that place of the record.
    pub fn cursor(&self, place: usize) -> [u8; 3] {
        self.desk[place..place + 3].try_into().unwrap()
    }

    /// What is displayed, as `14@1 4849; 15@5 41`: row, first column, codes.
    pub fn displayed(&self) -> String {
        memory(&self.desk[DISPLAYED..HIDDEN])
    }

    /// What the non-displayed memory holds, in the same form.
    pub fn hidden(&self) -> String {
        memory(&self.desk[HIDDEN..])
    }

    /// The pens of the displayed cells of a row from a column on.
    pub fn pens(&self, memory: usize, row: usize, columns: std::ops::Range<usize>) -> Vec<u8> {
        columns
            .map(|column| self.desk[memory + 2 * (32 * (row - 1) + column - 1) + 1])
            .collect()
    }

    /// The place of the code of a cell in the record; its pen comes after it.
    pub fn place(memory: usize, row: usize, column: usize) -> usize {
        memory + 2 * (32 * (row - 1) + column - 1)
    }

    /// Makes a call that must be refused, and shows that no byte changed.
    pub fn refuses(&mut self, answer: Answer, call: impl FnOnce(&mut Desk) -> Answer) {
        let before = self.clone();
        assert_eq!(call(self), answer);
        assert!(*self == before, "a refusal changed a byte");
    }
}

/// Every call that is lent a record, but opening, which looks at none.
pub fn refused_by_all(desk: &mut Desk) {
    let calls: [fn(&mut Desk) -> Answer; 7] = [
        |desk| desk.take(0x80, 0x80),
        |desk| desk.select(1),
        |desk| desk.select(3),
        |desk| desk.back(0),
        |desk| desk.back(60_000),
        |desk| desk.row(1),
        |desk| desk.row(16),
    ];
    for call in calls {
        desk.refuses(INVALID, call);
    }
    let mut out = [0xA5; 960];
    desk.refuses(INVALID, |desk| desk::view_into(&desk.desk, &mut out));
    assert_eq!(out, [0xA5; 960]);
    assert_eq!(desk::view(&desk.desk).err(), INVALID.err());
}

/// Writes into a record how many cells of each row are filled, by its codes.
pub fn count_cells(record: &mut [u8]) {
    let rows = [(DISPLAYED_COUNTS, DISPLAYED), (HIDDEN_COUNTS, HIDDEN)];
    for (counts, memory) in rows {
        for row in 0..15 {
            let codes = (0..32).map(|column| record[memory + 64 * row + 2 * column]);
            record[counts + row] = codes.filter(|&code| code != 0).count() as u8;
        }
    }
}

fn memory(bytes: &[u8]) -> String {
    let mut text = String::new();
    for (row, cells) in (1..).zip(bytes.chunks(64)) {
        let codes: Vec<u8> = cells.chunks(2).map(|cell| cell[0]).collect();
        let Some(first) = codes.iter().position(|&code| code != 0) else {
            continue;
        };
        let last = codes.iter().rposition(|&code| code != 0).unwrap();
        let separator = if text.is_empty() { "" } else { "; " };
        write!(text, "{separator}{row}@{} ", first + 1).unwrap();
        for code in &codes[first..=last] {
            write!(text, "{code:02X}").unwrap();
        }
    }
    text
}
