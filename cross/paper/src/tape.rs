//! "Tapes of our own making": which memories can be written, and the pairs that
//! load and show one pop-on.

use crate::bytes::odd;
use crate::codes::{ATTRIBUTE_SPACE, COLOUR, FLASH, ITALICS, PLAIN, UNDERLINE};
use crate::decode::{Cell, Grid, Row, EMPTY, EMPTY_GRID, ROWS};
use crate::desk::{read_grid, VIEW_BYTES};
use crate::numbers::{Answer, Refusal};

/// "one memory of 960 bytes".
pub const MEMORY_BYTES: usize = VIEW_BYTES;
/// "The output buffer holds 4,096 bytes".
pub const TAPE_BYTES: usize = 4_096;

/// Two raw bytes: one frame.
pub type Pair = [u8; 2];

/// "Given one memory of 960 bytes and a channel, write the pairs that load and
/// show it pop-on". Gives the number of bytes written; "Its bytes past the
/// pairs keep what they held."
pub fn tape(memory: &[u8], channel: u8, out: &mut [u8]) -> Answer {
    let screen = asked_for(memory, channel, out.len())?;
    let bytes = pairs(&screen, channel).concat();
    out[..bytes.len()].copy_from_slice(&bytes);
    Ok(bytes.len() as u16)
}

/// "Refusals: 7 for a screen not writable, after 1, 6 and 2; invalid cells give
/// 6": the screen that is to be written, where nothing is refused.
pub fn asked_for(memory: &[u8], channel: u8, out_length: usize) -> Result<Grid, Refusal> {
    if memory.len() != MEMORY_BYTES || out_length != TAPE_BYTES {
        return Err(Refusal::Length);
    }
    let screen = cells(memory).ok_or(Refusal::Invalid)?;
    if !(1..=2).contains(&channel) {
        return Err(Refusal::Range);
    }
    if !is_writable(&screen) {
        return Err(Refusal::Unwritable);
    }
    Ok(screen)
}

/// "cell codes empty, 20h–7Fh, 80h, 90h–9Fh"; "code 0 with another pen is
/// invalid": the cells of a memory, if every one is valid.
fn cells(memory: &[u8]) -> Option<Grid> {
    let mut screen = EMPTY_GRID;
    read_grid(memory, &mut screen).then_some(screen)
}

/// "A screen is writable if each row's non-empty cells share one pen without
/// flash, italics only with white, and none is 80h."
pub fn is_writable(screen: &Grid) -> bool {
    screen.iter().all(is_row_writable)
}

/// "each row's non-empty cells share one pen without flash, italics only with
/// white, and none is 80h."
fn is_row_writable(row: &Row) -> bool {
    let mut full = row.iter().filter(|&&cell| cell != EMPTY);
    let Some(first) = full.clone().next() else {
        return true;
    };
    let share_one_pen = full.clone().all(|cell| cell.pen == first.pen);
    let without_flash = first.pen & FLASH == 0;
    let italics_only_with_white = first.pen & ITALICS == 0 || first.pen & COLOUR == 0;
    let none_is_80h = full.all(|cell| cell.code != ATTRIBUTE_SPACE);
    share_one_pen && without_flash && italics_only_with_white && none_is_80h
}

/// "RCL, ENM, preambles, tabs, characters, EOC, every control pair twice": all
/// pairs of a screen's tape.
pub fn pairs(screen: &Grid, channel: u8) -> Vec<Pair> {
    [loading(screen, channel), showing(channel).to_vec()].concat()
}

/// "the pairs that load … it": all but the last two.
pub fn loading(screen: &Grid, channel: u8) -> Vec<Pair> {
    let mut writer = Writer {
        channel,
        pairs: Vec::new(),
    };
    writer.control(0x14, 0x20);
    writer.control(0x14, 0x2E);
    for (row, cells) in screen.iter().enumerate() {
        writer.row(row, cells);
    }
    writer.pairs
}

/// "and show it": EOC twice.
pub fn showing(channel: u8) -> [Pair; 2] {
    [control(channel, 0x14, 0x2F); 2]
}

/// "14h: … 2Ch EDM", twice.
pub fn clearing(channel: u8) -> [Pair; 2] {
    [control(channel, 0x14, 0x2C); 2]
}

/// "channel 1 (a up to 17h) or 2 (a from 18h": a control pair by its channel 1
/// values.
fn control(channel: u8, a: u8, b: u8) -> Pair {
    let a = if channel == 2 { a + 8 } else { a };
    [odd(a), odd(b)]
}

/// "Rows for b below and from 60h: 11h 1, 2; 12h 3, 4; 15h 5, 6; 16h 7, 8; 17h
/// 9, 10; 10h 11, unassigned; 13h 12, 13; 14h 14, 15": a, and the lowest b, of
/// each row's preambles.
const PREAMBLES: [(u8, u8); ROWS] = [
    (0x11, 0x40),
    (0x11, 0x60),
    (0x12, 0x40),
    (0x12, 0x60),
    (0x15, 0x40),
    (0x15, 0x60),
    (0x16, 0x40),
    (0x16, 0x60),
    (0x17, 0x40),
    (0x17, 0x60),
    (0x10, 0x40),
    (0x13, 0x40),
    (0x13, 0x60),
    (0x14, 0x40),
    (0x14, 0x60),
];

/// The pairs so far.
struct Writer {
    channel: u8,
    pairs: Vec<Pair>,
}

impl Writer {
    /// "every control pair twice".
    fn control(&mut self, a: u8, b: u8) {
        let pair = control(self.channel, a, b);
        self.pairs.extend([pair, pair]);
    }

    /// One or two plain characters; in the place of a second one a null.
    fn characters(&mut self, first: u8, second: Option<u8>) {
        self.pairs.push([odd(first), odd(second.unwrap_or(0))]);
    }

    /// A row with its index: a preamble, then tabs over the gaps and the
    /// characters, up to the last cell that is not empty.
    fn row(&mut self, row: usize, cells: &Row) {
        let Some(first) = cells.iter().position(|&cell| cell != EMPTY) else {
            return;
        };
        let mut column = self.preamble(row, first, cells[first].pen);
        while let Some(gap) = cells[column..].iter().position(|&cell| cell != EMPTY) {
            column += match gap {
                0 => self.cell(&cells[column..]),
                _ => self.tab(gap),
            };
        }
    }

    /// A preamble with this pen for a row whose first cells, so many, are
    /// empty: a white one goes right by fours. Gives the index of the column
    /// that it goes to.
    fn preamble(&mut self, row: usize, empty: usize, pen: u8) -> usize {
        let (a, lowest) = PREAMBLES[row];
        let underline = u8::from(pen & UNDERLINE != 0);
        let fours = empty / 4;
        let (style, column) = match pen & !UNDERLINE {
            PLAIN => (0x10 + 2 * fours as u8, 4 * fours),
            ITALICS => (0x0E, 0),
            colour => (2 * colour, 0),
        };
        self.control(a, lowest + style + underline);
        column
    }

    /// "tab: 1 to 3 columns right": as far as the gap goes, up to 3. Gives the
    /// columns.
    fn tab(&mut self, gap: usize) -> usize {
        let columns = gap.min(3);
        self.control(0x17, 0x20 + columns as u8);
        columns
    }

    /// The first of these cells, which is not empty, and the one beside it if
    /// both are plain characters. Gives how many cells that is.
    fn cell(&mut self, cells: &[Cell]) -> usize {
        let code = cells[0].code;
        if is_special(code) {
            self.control(0x11, code - 0x60);
            return 1;
        }
        let beside = cells.get(1).map(|cell| cell.code);
        let second = beside.filter(|&code| code != 0 && !is_special(code));
        self.characters(code, second);
        1 + usize::from(second.is_some())
    }
}

/// "special characters: cell code 60h more than b", which is 30h to 3Fh.
fn is_special(code: u8) -> bool {
    (0x90..=0x9F).contains(&code)
}

#[cfg(test)]
mod tests {
    use super::*;
    use crate::codes::{code, Captioning, Code, Preamble};

    /// The pens of writable rows: seven colours and white italics, each also
    /// underlined.
    const PENS: [u8; 16] = [
        0x00, 0x01, 0x02, 0x03, 0x04, 0x05, 0x06, 0x08, 0x10, 0x11, 0x12, 0x13, 0x14, 0x15, 0x16,
        0x18,
    ];

    /// The preamble's pair, and the index of the column that it goes to.
    fn preamble(row: usize, empty: usize, pen: u8) -> (Pair, usize) {
        let mut writer = Writer {
            channel: 1,
            pairs: Vec::new(),
        };
        let column = writer.preamble(row, empty, pen);
        (writer.pairs[0], column)
    }

    #[test]
    fn every_preamble_sets_its_row_pen_and_column() {
        for row in 0..ROWS {
            for (empty, pen) in (0..32).flat_map(|empty| PENS.map(|pen| (empty, pen))) {
                let (pair, column) = preamble(row, empty, pen);
                let [a, b] = pair.map(|byte| byte & 0x7F);
                let set = Preamble {
                    row: row as u8 + 1,
                    column: column as u8 + 1,
                    pen,
                };
                let meant = Code::Captioning(Captioning::Preamble(set));
                assert_eq!(code(a, b), Some(meant), "{row} {empty} {pen:02X}");
                assert!(column <= empty);
            }
        }
    }
}
