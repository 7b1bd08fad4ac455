//! The record of 1,984 bytes: read with every check, and written.

use std::ops::Range;

use super::{Record, MOST_ACTS, RECORD_BYTES};
use crate::codes;
use crate::decode::{Cell, Cursor, Decoder, Expected, Grid, Row, Style, COLUMNS, EMPTY, ROWS};
use crate::numbers::Refusal;

/// "0–1 standing acts, low byte first".
const ACTS: Range<usize> = 0..2;
/// "2 selected channel".
const SELECTED: usize = 2;
/// "3 stream channel (0 none)".
const STREAM: usize = 3;
/// "4 style (0 none, 1 roll-up, 2 pop-on, 3 paint-on)".
const STYLE: usize = 4;
/// "5 Text".
const TEXT: usize = 5;
/// "6 mark".
const MARK: usize = 6;
/// "7 depth (0 or 2–4)".
const DEPTH: usize = 7;
/// "8–10 base row, column, pen; 11–13 pop-on row, column, pen; 14–16
/// paint-on".
const CURSORS: Range<usize> = 8..17;
/// "17–18 expected a, b with the channel still in a (0, 0 none)".
const EXPECTED: Range<usize> = 17..19;
/// "bytes 19 to 33 for the displayed rows": how many cells of each are filled.
const DISPLAYED_COUNTS: Range<usize> = 19..34;
/// "34 to 48 for the others".
const HIDDEN_COUNTS: Range<usize> = 34..49;
/// "19–63 zero", but for the counts.
const ZERO: Range<usize> = 49..64;
/// "64–1023 displayed".
pub(super) const DISPLAYED: Range<usize> = 64..1024;
/// "1024–1983 non-displayed".
const HIDDEN: Range<usize> = 1024..RECORD_BYTES;

/// A desk's record, read: the act count and all the rest.
#[derive(Clone, Debug)]
pub struct Standing {
    /// "standing acts".
    pub acts: u16,
    /// The state after those acts.
    pub decoder: Decoder,
}

impl Standing {
    /// "The fresh record is one fixed thing: zeros but for channel 1, rows 15,
    /// columns 1."
    pub const FRESH: Standing = Standing {
        acts: 0,
        decoder: Decoder::fresh(1),
    };

    /// "Valid: acts up to 16,000; fields in those ranges; …": 1 for a wrong
    /// length, 6 for an invalid record.
    pub fn load(record: &[u8]) -> Result<Standing, Refusal> {
        let record: &Record = record.try_into().map_err(|_| Refusal::Length)?;
        read(record).ok_or(Refusal::Invalid)
    }

    /// "The desk is one record of 1,984 bytes: …": every byte of it.
    pub fn store(&self, record: &mut [u8]) {
        let decoder = &self.decoder;
        record[ACTS].copy_from_slice(&self.acts.to_le_bytes());
        record[SELECTED] = decoder.selected;
        record[STREAM] = decoder.stream;
        record[STYLE] = decoder.style.map_or(0, |style| style as u8);
        record[TEXT] = u8::from(decoder.text);
        record[MARK] = u8::from(decoder.mark);
        record[DEPTH] = decoder.depth;
        for (bytes, cursor) in record[CURSORS].chunks_exact_mut(3).zip(decoder.cursors) {
            bytes.copy_from_slice(&[cursor.row, cursor.column, cursor.pen]);
        }
        record[EXPECTED].copy_from_slice(&decoder.expected.bytes());
        record[DISPLAYED_COUNTS].copy_from_slice(&counts(decoder.displayed()));
        record[HIDDEN_COUNTS].copy_from_slice(&counts(decoder.hidden()));
        record[ZERO].fill(0);
        write_grid(&mut record[DISPLAYED], decoder.displayed());
        write_grid(&mut record[HIDDEN], decoder.hidden());
    }
}

/// "Valid: …": the state of a record if every check holds, and the counts'
/// own: "A record is valid only if they are." "No other check."
fn read(record: &Record) -> Option<Standing> {
    let mut decoder = Decoder::fresh(channel(record[SELECTED])?);
    decoder.stream = stream(record[STREAM])?;
    decoder.style = style(record[STYLE])?;
    decoder.text = flag(record[TEXT])?;
    decoder.mark = flag(record[MARK])?;
    decoder.depth = depth(record[DEPTH])?;
    for (cursor, bytes) in decoder
        .cursors
        .iter_mut()
        .zip(record[CURSORS].chunks_exact(3))
    {
        *cursor = read_cursor(bytes)?;
    }
    decoder.expected = expected(&record[EXPECTED])?;
    let zero = record[ZERO].iter().all(|&byte| byte == 0);
    let cells = read_grid(&record[DISPLAYED], decoder.displayed_mut())
        & read_grid(&record[HIDDEN], decoder.hidden_mut());
    let counted = record[DISPLAYED_COUNTS] == counts(decoder.displayed())
        && record[HIDDEN_COUNTS] == counts(decoder.hidden());
    let standing = Standing {
        acts: acts(&record[ACTS])?,
        decoder,
    };
    (zero && cells && counted && mark_holds(&standing.decoder)).then_some(standing)
}

/// "acts up to 16,000"; "low byte first".
fn acts(bytes: &[u8]) -> Option<u16> {
    let acts = u16::from_le_bytes(bytes.try_into().ok()?);
    (acts <= MOST_ACTS).then_some(acts)
}

/// "selected channel": 1 or 2.
fn channel(byte: u8) -> Option<u8> {
    (1..=2).contains(&byte).then_some(byte)
}

/// "stream channel (0 none)".
fn stream(byte: u8) -> Option<u8> {
    (byte <= 2).then_some(byte)
}

/// "style (0 none, 1 roll-up, 2 pop-on, 3 paint-on)".
fn style(byte: u8) -> Option<Option<Style>> {
    match byte {
        0 => Some(None),
        1 => Some(Some(Style::RollUp)),
        2 => Some(Some(Style::PopOn)),
        3 => Some(Some(Style::PaintOn)),
        _ => None,
    }
}

/// "5 Text and 6 mark (each 0 or 1)".
fn flag(byte: u8) -> Option<bool> {
    match byte {
        0 => Some(false),
        1 => Some(true),
        _ => None,
    }
}

/// "depth (0 or 2–4)".
fn depth(byte: u8) -> Option<u8> {
    matches!(byte, 0 | 2..=4).then_some(byte)
}

/// "Caption rows are 1 to 15 and columns 1 to 32"; "base row, column, pen".
fn read_cursor(bytes: &[u8]) -> Option<Cursor> {
    match *bytes {
        [row @ 1..=15, column @ 1..=32, pen] if pen_valid(pen) => Some(Cursor { row, column, pen }),
        _ => None,
    }
}

/// "colour up to 6, bits 6 and 7 zero".
fn pen_valid(pen: u8) -> bool {
    pen & codes::COLOUR <= 6 && pen & 0b1100_0000 == 0
}

/// "expected none or assigned"; "(0, 0 none)".
fn expected(bytes: &[u8]) -> Option<Expected> {
    match *bytes {
        [0, 0] => Some(Expected::NONE),
        [a, b] if codes::assigned(a, b) => Some(Expected::pair(a, b)),
        _ => None,
    }
}

/// "cell codes empty, 20h–7Fh, 80h, 90h–9Fh"; "An empty cell is 0, 0; code 0
/// with another pen is invalid."
fn cell_valid(cell: Cell) -> bool {
    let code = cell.code.wrapping_sub(0x20) <= 0x60 || cell.code.wrapping_sub(0x90) <= 0x0F;
    (code && pen_valid(cell.pen)) || cell == EMPTY
}

/// "row by row, two bytes a cell, code then pen": the cells, and whether all
/// of them are valid.
pub(crate) fn read_grid(bytes: &[u8], grid: &mut Grid) -> bool {
    let mut valid = true;
    for (row, bytes) in grid.iter_mut().zip(bytes.chunks_exact(2 * COLUMNS)) {
        for (cell, bytes) in row.iter_mut().zip(bytes.chunks_exact(2)) {
            let [code, pen] = [bytes[0], bytes[1]];
            *cell = Cell { code, pen };
            valid &= cell_valid(*cell);
        }
    }
    valid
}

/// "row by row, two bytes a cell, code then pen": the bytes of the cells.
fn write_grid(bytes: &mut [u8], grid: &Grid) {
    for (bytes, cell) in bytes.chunks_exact_mut(2).zip(grid.as_flattened()) {
        bytes.copy_from_slice(&[cell.code, cell.pen]);
    }
}

/// "how many cells of each row are filled": those that are not empty.
pub(super) fn filled(row: &Row) -> u8 {
    row.iter().map(|&cell| u8::from(cell != EMPTY)).sum()
}

/// "Keep the counts in the record": those of one memory, row 1 first.
fn counts(grid: &Grid) -> [u8; ROWS] {
    grid.each_ref().map(filled)
}

/// "mark set requires depth 2–4 and cells in the window only; roll-up style
/// requires the mark, paint-on style that it is clear." "A valid record with
/// the mark set has its base row no smaller than its depth": a window that does
/// not fit is asked for no cells.
fn mark_holds(decoder: &Decoder) -> bool {
    let style = match decoder.style {
        Some(Style::RollUp) => decoder.mark,
        Some(Style::PaintOn) => !decoder.mark,
        Some(Style::PopOn) | None => true,
    };
    let window = || decoder.depth >= 2 && decoder.window_fits() && decoder.window_holds_all();
    style && (!decoder.mark || window())
}
