//! Memories to be written as tapes, with the channel and the lengths lent:
//! writable ones of every kind, and every kind of refusal.

use std::fmt;

use crate::prng::Prng;

/// The bytes of a memory.
pub const MEMORY_BYTES: usize = 960;
/// The bytes of the buffer that a tape is written to.
pub const TAPE_BYTES: usize = 4_096;
/// Room behind both buffers, to be lent too long and watched for stray bytes.
const ROOM: usize = 64;
/// The rows of a screen.
const ROWS: usize = 15;
/// The columns of a row.
const COLUMNS: usize = 32;

/// The pens that a preamble sets: seven colours and white italics, each also
/// underlined.
const PENS: [u8; 16] = [
    0x00, 0x01, 0x02, 0x03, 0x04, 0x05, 0x06, 0x08, 0x10, 0x11, 0x12, 0x13, 0x14, 0x15, 0x16, 0x18,
];

/// A cell that is not empty.
#[derive(Clone, Copy, Debug, PartialEq, Eq)]
pub struct Placed {
    /// Its place from 0, row by row.
    pub place: usize,
    /// Its code.
    pub code: u8,
    /// Its pen.
    pub pen: u8,
}

/// One call: a memory, a channel, and what is lent.
#[derive(Clone, Debug, PartialEq, Eq)]
pub struct Asked {
    /// The cells that are not empty; a later one stands over an earlier.
    pub cells: Vec<Placed>,
    /// The channel.
    pub channel: u8,
    /// Bytes of the memory that are lent.
    pub memory: usize,
    /// Bytes of the buffer that are lent.
    pub out: usize,
    /// What the buffer holds before.
    pub held: u8,
    /// The desks that the tape is played on are made from this.
    pub desks: u64,
}

impl Asked {
    /// The memory, with room behind it.
    pub fn memory(&self) -> Vec<u8> {
        let mut memory = vec![0; MEMORY_BYTES + ROOM];
        for cell in &self.cells {
            memory[2 * cell.place..][..2].copy_from_slice(&[cell.code, cell.pen]);
        }
        memory
    }

    /// The buffer, with room behind it.
    pub fn buffer(&self) -> Vec<u8> {
        vec![self.held; TAPE_BYTES + ROOM]
    }
}

impl fmt::Display for Asked {
    fn fmt(&self, f: &mut fmt::Formatter<'_>) -> fmt::Result {
        let Asked {
            channel,
            memory,
            out,
            held,
            ..
        } = self;
        writeln!(
            f,
            "channel {channel}, memory of {memory} bytes, out of {out} bytes {held:02X}"
        )?;
        for Placed { place, code, pen } in &self.cells {
            let (row, column) = (place / COLUMNS + 1, place % COLUMNS + 1);
            writeln!(f, "row {row} column {column}: {code:02X} {pen:02X}")?;
        }
        Ok(())
    }
}

/// The call of this number for this seed.
pub fn asked(seed: u64, number: u64) -> Asked {
    let mut prng = Prng::part(!seed, number);
    let mut cells = writable(&mut prng);
    if prng.percent(15) {
        unwritable(&mut prng, &mut cells);
    }
    if prng.percent(8) {
        let cell = invalid(&mut prng);
        cells.push(cell);
    }
    let wrong = prng.percent(5);
    Asked {
        cells,
        channel: channel(&mut prng),
        memory: length(&mut prng, wrong, MEMORY_BYTES),
        out: length(&mut prng, wrong, TAPE_BYTES),
        held: prng.byte(),
        desks: prng.bits(),
    }
}

/// Mostly 1 and 2.
fn channel(prng: &mut Prng) -> u8 {
    match prng.below(24) {
        0 => prng.byte(),
        1 => prng.pick(&[0, 3, 255]),
        _ => prng.byte_within(1, 2),
    }
}

/// The right length, or one near it, half of it, or none at all.
fn length(prng: &mut Prng, wrong: bool, right: usize) -> usize {
    if wrong {
        prng.pick(&[0, 1, right / 2, right - 1, right + 1, right + ROOM, right])
    } else {
        right
    }
}

/// Cells of a writable screen: none, one, two around a row's end, all, or rows.
fn writable(prng: &mut Prng) -> Vec<Placed> {
    match prng.below(20) {
        0 => Vec::new(),
        1 | 2 => vec![one_cell(prng)],
        3 => around_an_end(prng),
        4 => rows(prng, ROWS, |_| (0..COLUMNS).collect()),
        5 => rows(prng, ROWS, columns),
        _ => {
            let count = prng.within(1, 4);
            rows(prng, count, columns)
        }
    }
}

/// One cell, at the edges of rows, columns and indents.
fn one_cell(prng: &mut Prng) -> Placed {
    let row = prng.pick(&[0, 1, 8, 9, 10, 11, 13, 14]);
    let column = prng.pick(&[0, 1, 3, 4, 5, 15, 27, 28, 29, 30, 31]);
    placed(prng, COLUMNS * row + column)
}

/// Column 32 of a row and column 1 of the next one.
fn around_an_end(prng: &mut Prng) -> Vec<Placed> {
    let place = COLUMNS * prng.within(1, ROWS - 1);
    vec![placed(prng, place - 1), placed(prng, place)]
}

/// Any cell of a writable screen, at this place.
fn placed(prng: &mut Prng, place: usize) -> Placed {
    Placed {
        place,
        code: Codes::Any.code(prng, 0),
        pen: prng.pick(&PENS),
    }
}

/// So many rows, no row twice, each with a pen, columns and codes of its kind.
fn rows(prng: &mut Prng, count: usize, columns: fn(&mut Prng) -> Vec<usize>) -> Vec<Placed> {
    let mut left: Vec<usize> = (0..ROWS).collect();
    let mut cells = Vec::new();
    for _ in 0..count {
        let row = left.swap_remove(prng.below(left.len()));
        let pen = prng.pick(&PENS);
        let codes = prng.pick(&[Codes::Any, Codes::Plain, Codes::Special, Codes::Repeated]);
        let mut code = 0;
        for column in columns(prng) {
            code = codes.code(prng, code);
            let place = COLUMNS * row + column;
            cells.push(Placed { place, code, pen });
        }
    }
    cells
}

/// The columns of a row that are not empty: all, some, most, or a few runs.
fn columns(prng: &mut Prng) -> Vec<usize> {
    let part = match prng.below(6) {
        0 => 100,
        1 => 15,
        2 => 85,
        3 => 50,
        _ => return runs(prng),
    };
    (0..COLUMNS).filter(|_| prng.percent(part)).collect()
}

/// Runs of one to six cells with gaps of any width before them.
fn runs(prng: &mut Prng) -> Vec<usize> {
    let mut columns = Vec::new();
    let mut column = prng.below(COLUMNS);
    while column < COLUMNS {
        let end = (column + prng.within(1, 6)).min(COLUMNS);
        columns.extend(column..end);
        let widest = prng.pick(&[2, 5, 12, 30]);
        column = end + prng.within(1, widest);
    }
    columns
}

/// What the cells of a row hold.
#[derive(Clone, Copy, Debug, PartialEq, Eq)]
enum Codes {
    Any,
    Plain,
    Special,
    Repeated,
}

impl Codes {
    /// A code that can be written, after this one.
    fn code(self, prng: &mut Prng, last: u8) -> u8 {
        match self {
            Codes::Repeated if last != 0 && prng.percent(70) => last,
            Codes::Any | Codes::Repeated => match prng.below(5) {
                0 => prng.byte_within(0x90, 0x9F),
                1 => prng.pick(&[0x20, 0x7F, 0x90, 0x99, 0x9F]),
                _ => prng.byte_within(0x20, 0x7F),
            },
            Codes::Plain => prng.byte_within(0x20, 0x7F),
            Codes::Special => prng.byte_within(0x90, 0x9F),
        }
    }
}

/// Valid cells that cannot be written: another pen in a row, flash, italics
/// that are not white, or 80h; in one cell or in a whole row.
fn unwritable(prng: &mut Prng, cells: &mut Vec<Placed>) {
    if cells.is_empty() {
        cells.push(one_cell(prng));
    }
    let Placed { place, code, pen } = prng.pick(cells);
    let (code, pen) = match prng.below(5) {
        0 => (0x80, pen),
        1 => (code, pen | 0x20),
        2 => (code, prng.byte_within(1, 6) | 0x08 | pen & 0x10),
        3 => (code, prng.pick(&PENS)),
        _ => (code, prng.byte_within(0, 6) | prng.byte_within(0, 7) << 3),
    };
    let whole = prng.percent(50);
    let row = |place| place / COLUMNS;
    for cell in cells.iter_mut() {
        if cell.place == place {
            (cell.code, cell.pen) = (code, pen);
        } else if whole && row(cell.place) == row(place) {
            cell.pen = pen;
        }
    }
}

/// A cell that is not valid: its code, its pen, or a pen with code 0.
fn invalid(prng: &mut Prng) -> Placed {
    let (code, pen) = match prng.below(4) {
        0 => (prng.pick(&[0x01, 0x1F, 0x81, 0x8F, 0xA0, 0xFF]), 0),
        1 => (0x41, prng.pick(&[0x07, 0x0F, 0x17, 0x3F, 0x40, 0x80])),
        2 => (0, prng.pick(&[0x01, 0x08, 0x10, 0x20, 0x40, 0xFF])),
        _ => (prng.byte_within(0xA0, 0xFF), prng.byte()),
    };
    let place = prng.below(ROWS * COLUMNS);
    Placed { place, code, pen }
}

#[cfg(test)]
mod tests {
    use super::*;

    #[test]
    fn a_call_is_a_function_of_seed_and_number() {
        for number in 0..40 {
            assert_eq!(asked(5, number), asked(5, number));
        }
        assert_ne!(asked(5, 0), asked(6, 0));
        assert_ne!(asked(5, 0), asked(5, 1));
    }

    #[test]
    fn every_length_stays_within_its_buffer() {
        for number in 0..2_000 {
            let asked = asked(2, number);
            assert!(asked.memory <= asked.memory().len());
            assert!(asked.out <= asked.buffer().len());
        }
    }

    #[test]
    fn every_kind_of_gap_code_pen_and_channel_is_met() {
        let mut gaps = [false; COLUMNS];
        let mut codes = [false; 256];
        let mut pens = [false; 64];
        let mut channels = [false; 256];
        for number in 0..20_000 {
            let asked = asked(1, number);
            channels[usize::from(asked.channel)] = true;
            for row in asked.memory()[..MEMORY_BYTES].chunks(2 * COLUMNS) {
                let mut gap = 0;
                for cell in row.chunks(2) {
                    codes[usize::from(cell[0])] = true;
                    pens[usize::from(cell[1] & 0x3F)] = true;
                    gap = if cell[0] == 0 {
                        gap + 1
                    } else {
                        gaps[gap] = true;
                        0
                    };
                }
            }
        }
        let writable = (0x20..=0x80).chain(0x90..=0x9F).all(|code| codes[code]);
        assert!(gaps.iter().all(|&met| met), "{gaps:?}");
        assert!(writable, "{codes:?}");
        assert!(pens.iter().all(|&met| met), "{pens:?}");
        assert!(channels.iter().filter(|&&met| met).count() > 200);
    }
}
