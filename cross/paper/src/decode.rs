//! The pair rules and what the codes do, on a plain struct.
//!
//! This is also the yardstick of the benchmark: the state is a struct, the
//! cells are arrays, exchanging the memories turns one flag, and no pair
//! allocates.

use std::mem;
use std::ops::Range;

use crate::bytes::{good, low_seven};
use crate::codes::{self, Captioning, Code, Preamble};

/// "Caption rows are 1 to 15".
pub const ROWS: usize = 15;
/// "columns 1 to 32".
pub const COLUMNS: usize = 32;
/// "not past 32": the last column as a cursor holds it.
const LAST_COLUMN: u8 = 32;

/// "two bytes a cell, code then pen".
#[derive(Clone, Copy, Debug, Default, PartialEq, Eq)]
pub struct Cell {
    /// 0, 20h to 80h or 90h to 9Fh.
    pub code: u8,
    /// Colour, italics, underline, flash.
    pub pen: u8,
}

/// One row of cells; column 1 has index 0.
pub type Row = [Cell; COLUMNS];
/// One memory; row 1 has index 0.
pub type Grid = [Row; ROWS];

/// "An empty cell is 0, 0".
pub const EMPTY: Cell = Cell { code: 0, pen: 0 };
const EMPTY_ROW: Row = [EMPTY; COLUMNS];
/// A memory without a cell that is not empty.
pub const EMPTY_GRID: Grid = [EMPTY_ROW; ROWS];

/// "displayed cells are equal in every byte": row by row, each row without a
/// branch, so that it is compared in wide words.
pub fn equal(left: &Grid, right: &Grid) -> bool {
    let cells = |left: &Row, right: &Row| {
        let pairs = left.iter().zip(right);
        pairs.fold(true, |equal, (left, right)| equal & (left == right))
    };
    left.iter()
        .zip(right)
        .all(|(left, right)| cells(left, right))
}

/// "style (0 none, 1 roll-up, 2 pop-on, 3 paint-on)"; none is `Option::None`.
#[derive(Clone, Copy, Debug, PartialEq, Eq)]
#[repr(u8)]
pub enum Style {
    /// Works on the displayed memory, in a window.
    RollUp = 1,
    /// Works on the non-displayed memory.
    PopOn = 2,
    /// Works on the displayed memory.
    PaintOn = 3,
}

impl Style {
    /// "Each style has its own cursor and pen": its place among the three.
    fn index(self) -> usize {
        self as usize - 1
    }
}

/// "Each style has its own cursor and pen; roll-up's row is the base row."
#[derive(Clone, Copy, Debug, PartialEq, Eq)]
pub struct Cursor {
    /// Caption row, 1 to 15.
    pub row: u8,
    /// Column, 1 to 32.
    pub column: u8,
    /// The pen of the cells to come.
    pub pen: u8,
}

impl Cursor {
    /// "Fresh: rows 15, columns 1, white plain pens (house)."
    pub const FRESH: Cursor = Cursor {
        row: 15,
        column: 1,
        pen: codes::PLAIN,
    };
}

/// "Caption rows are 1 to 15 and columns 1 to 32, counted apart": the index of
/// a row or of a column.
fn index(number: u8) -> usize {
    usize::from(number) - 1
}

/// "the column goes up by one, but not past 32"; "1 to 3 columns right,
/// stopping at 32".
fn right(column: u8, columns: u8) -> u8 {
    (column + columns).min(LAST_COLUMN)
}

/// "Text: a bad byte writes 7Fh, a good one from 20h writes itself, a good one
/// below 20h does nothing": the code to write, if any.
fn text(byte: u8) -> Option<u8> {
    let low = low_seven(byte);
    if !good(byte) {
        Some(codes::BLOCK)
    } else if low >= 0x20 {
        Some(low)
    } else {
        None
    }
}

/// "'Expected' is a remembered control pair or none": a and b in one number,
/// "with the channel still in a (0, 0 none)".
#[derive(Clone, Copy, Debug, PartialEq, Eq)]
pub(crate) struct Expected(u16);

impl Expected {
    /// "(0, 0 none)".
    pub(crate) const NONE: Expected = Expected::pair(0, 0);

    /// "expected a, b with the channel still in a".
    pub(crate) const fn pair(a: u8, b: u8) -> Expected {
        Expected(u16::from_be_bytes([a, b]))
    }

    /// The two bytes of the record: "17–18 expected a, b".
    pub(crate) fn bytes(self) -> [u8; 2] {
        self.0.to_be_bytes()
    }

    /// "if a pair is expected and … b equal to its second value".
    fn has_second(self, b: u8) -> bool {
        self != Expected::NONE && self.bytes()[1] == b
    }
}

/// "A decoder for line 21 captions of field 1": all that a desk's record holds
/// but the act count.
#[derive(Clone, Debug)]
pub struct Decoder {
    /// "selected channel", 1 or 2.
    pub(crate) selected: u8,
    /// "stream channel (0 none)".
    pub(crate) stream: u8,
    /// "style (0 none".
    pub(crate) style: Option<Style>,
    /// "5 Text".
    pub(crate) text: bool,
    /// "6 mark": the roll-up mark.
    pub(crate) mark: bool,
    /// "depth (0 or 2–4)".
    pub(crate) depth: u8,
    /// Roll-up's, pop-on's and paint-on's.
    pub(crate) cursors: [Cursor; 3],
    /// "'Expected' is a remembered control pair or none".
    pub(crate) expected: Expected,
    /// The two memories; `front` is the place of the displayed one.
    memories: [Grid; 2],
    front: bool,
}

impl Decoder {
    /// "A fresh desk has channel 1 selected"; "Selecting channel 1 or 2 …
    /// gives the fresh state with that channel".
    pub const fn fresh(channel: u8) -> Decoder {
        Decoder {
            selected: channel,
            stream: 0,
            style: None,
            text: false,
            mark: false,
            depth: 0,
            cursors: [Cursor::FRESH; 3],
            expected: Expected::NONE,
            memories: [EMPTY_GRID; 2],
            front: false,
        }
    }

    /// "Pop-on works on the non-displayed memory, the others on the displayed
    /// one": the displayed one.
    pub fn displayed(&self) -> &Grid {
        &self.memories[usize::from(self.front)]
    }

    /// "Pop-on works on the non-displayed memory": that memory.
    pub fn hidden(&self) -> &Grid {
        &self.memories[usize::from(!self.front)]
    }

    /// "EDM, ENM empty their memory": the displayed one, to be changed.
    pub(crate) fn displayed_mut(&mut self) -> &mut Grid {
        &mut self.memories[usize::from(self.front)]
    }

    /// "EDM, ENM empty their memory": the non-displayed one, to be changed.
    pub(crate) fn hidden_mut(&mut self) -> &mut Grid {
        &mut self.memories[usize::from(!self.front)]
    }

    /// "Pair rules, in this order … Each pair clears it, unless stated."
    ///
    /// The four rules: "First byte bad", "a from 00h to 0Fh: a is ignored, the
    /// second byte is text", "a from 10h to 1Fh", "Otherwise a is written, then
    /// the second byte is text."
    pub fn take(&mut self, first: u8, second: u8) {
        let expected = mem::replace(&mut self.expected, Expected::NONE);
        let a = low_seven(first);
        if !good(first) {
            self.bad_first(expected, second);
        } else if a >= 0x20 {
            self.write(Some(a), text(second));
        } else if a >= 0x10 {
            self.control(expected, a, second);
        } else {
            self.write(None, text(second));
        }
    }

    /// "Selecting channel 1 or 2, the present one too (house), gives the fresh
    /// state with that channel".
    pub fn select(&mut self, channel: u8) {
        *self = Decoder::fresh(channel);
    }

    /// "First byte bad: if a pair is expected and the second byte is good with
    /// b equal to its second value, nothing else happens. Otherwise 7Fh is
    /// written, then the second byte is treated as text."
    fn bad_first(&mut self, expected: Expected, second: u8) {
        if !(good(second) && expected.has_second(low_seven(second))) {
            self.write(Some(codes::BLOCK), text(second));
        }
    }

    /// "a from 10h to 1Fh: if the second byte is bad or b is below 20h, nothing
    /// else. If the pair is expected, nothing else. If it is unassigned,
    /// nothing else. Otherwise the stream's channel becomes 1 (a up to 17h) or
    /// 2 (a from 18h, then 8 is taken off), the pair becomes expected, and it
    /// acts if that channel is the selected one."
    #[inline(never)] // keeps the way of a text pair through `take` short
    fn control(&mut self, expected: Expected, a: u8, second: u8) {
        let b = low_seven(second);
        if !good(second) || b < 0x20 || expected == Expected::pair(a, b) {
            return;
        }
        if let Some(code) = codes::code(codes::channel_one(a), b) {
            self.stream = codes::channel(a);
            self.expected = Expected::pair(a, b);
            if self.stream == self.selected {
                self.act(code);
            }
        }
    }

    /// "Writing happens only while the stream's channel is the selected one, a
    /// style is set, and Text is off": up to two codes, in this order.
    fn write(&mut self, first: Option<u8>, second: Option<u8>) {
        if self.stream == self.selected {
            if let Some(style) = self.captioning() {
                self.put(style, [first, second].into_iter().flatten());
            }
        }
    }

    /// "only with a style set and Text off": the style, if so.
    fn captioning(&self) -> Option<Style> {
        if self.text {
            None
        } else {
            self.style
        }
    }

    /// "Each style has its own cursor and pen"; "Pop-on works on the
    /// non-displayed memory, the others on the displayed one": the style's
    /// cursor and the row of cells it stands on.
    fn line(&mut self, style: Style) -> (&mut Cursor, &mut Row) {
        let cursor = &mut self.cursors[style.index()];
        let memory = usize::from(self.front ^ (style == Style::PopOn));
        let row = &mut self.memories[memory][index(cursor.row)];
        (cursor, row)
    }

    /// "Write: the cell gets code and pen; the column goes up by one, but not
    /// past 32": each of the codes in turn.
    fn put(&mut self, style: Style, codes: impl IntoIterator<Item = u8>) {
        let (cursor, row) = self.line(style);
        let Cursor {
            mut column, pen, ..
        } = *cursor;
        for code in codes {
            row[index(column)] = Cell { code, pen };
            column = right(column, 1);
        }
        cursor.column = column;
    }

    /// "RCL, RDC, RU and EOC end Text; TR and RTD start it; EDM and ENM always
    /// act." "Preamble, mid-row, special, tab, BS, DER, FON and CR act only
    /// with a style set and Text off."
    fn act(&mut self, code: Code) {
        match code {
            Code::Captioning(code) => {
                if let Some(style) = self.captioning() {
                    self.caption(style, code);
                }
            }
            Code::Rcl => self.resume(Style::PopOn),
            Code::Rdc => self.direct(),
            Code::Ru(depth) => self.roll_up(depth),
            Code::Eoc => self.exchange(),
            Code::StartText => self.text = true,
            Code::Edm => *self.displayed_mut() = EMPTY_GRID,
            Code::Enm => *self.hidden_mut() = EMPTY_GRID,
        }
    }

    /// "Each style has its own cursor and pen": the codes that work on the
    /// cursor of the style set.
    fn caption(&mut self, style: Style, code: Captioning) {
        match code {
            Captioning::Preamble(set) => self.preamble(style, set),
            Captioning::MidRow(b) => self.mid_row(style, b),
            Captioning::Special(code) => self.put(style, [code]),
            Captioning::Tab(columns) => self.tab(style, columns),
            Captioning::Bs => self.backspace(style),
            Captioning::Der => self.delete_to_end(style),
            Captioning::Fon => self.flash_on(style),
            Captioning::Cr => self.carriage_return(style),
        }
    }

    /// "RCL, RDC, RU and EOC end Text", each with its style: "RCL: pop-on."
    fn resume(&mut self, style: Style) {
        self.style = Some(style);
        self.text = false;
    }

    /// "RDC: paint-on, and the roll-up mark is cleared."
    fn direct(&mut self) {
        self.resume(Style::PaintOn);
        self.mark = false;
    }

    /// "EOC exchanges the memories, sets pop-on, clears the mark."
    fn exchange(&mut self) {
        self.front = !self.front;
        self.resume(Style::PopOn);
        self.mark = false;
    }

    /// "RU n: empties the non-displayed memory. Mark clear: empties the
    /// displayed memory too, base row 15, column 1, plain pen, mark set. Mark
    /// set: base row, cursor and pen stay", but "a base row above the depth's
    /// fit is lowered … when RU makes the window deeper". "Then depth n, style
    /// roll-up, displayed rows outside the window emptied."
    fn roll_up(&mut self, depth: u8) {
        *self.hidden_mut() = EMPTY_GRID;
        self.resume(Style::RollUp);
        if self.mark {
            self.move_window(self.base_row(), depth);
            self.depth = depth;
            self.keep_only(self.window());
        } else {
            *self.displayed_mut() = EMPTY_GRID;
            self.cursors[Style::RollUp.index()] = Cursor::FRESH;
            self.depth = depth;
            self.mark = true;
        }
    }

    /// "roll-up's row is the base row."
    fn base_row(&self) -> u8 {
        self.cursors[Style::RollUp.index()].row
    }

    /// "A valid record with the mark set has its base row no smaller than its
    /// depth": whether it has.
    pub(crate) fn window_fits(&self) -> bool {
        self.base_row() >= self.depth
    }

    /// "The window is the base row and the n − 1 rows above it": the indexes of
    /// its rows, where it fits.
    fn window(&self) -> Range<usize> {
        let base = usize::from(self.base_row());
        base - usize::from(self.depth)..base
    }

    /// "While the mark is set, non-empty displayed cells lie in the window,
    /// four rows at most": whether they do.
    pub(crate) fn window_holds_all(&self) -> bool {
        let window = self.window();
        let empty = |rows: &[Row]| rows.as_flattened().iter().all(|&cell| cell == EMPTY);
        let grid = self.displayed();
        empty(&grid[..window.start]) && empty(&grid[window.end..])
    }

    /// "displayed rows outside the window emptied"; "all else is empty".
    fn keep_only(&mut self, rows: Range<usize>) {
        let grid = self.displayed_mut();
        grid[..rows.start].fill(EMPTY_ROW);
        grid[rows.end..].fill(EMPTY_ROW);
    }

    /// "b from 40h, preamble": row, column and pen of the style's cursor; in
    /// roll-up "the window moves to the new base row".
    fn preamble(&mut self, style: Style, set: Preamble) {
        if style == Style::RollUp {
            self.move_window(set.row, self.depth);
        } else {
            self.cursors[style.index()].row = set.row;
        }
        let cursor = &mut self.cursors[style.index()];
        cursor.column = set.column;
        cursor.pen = set.pen;
    }

    /// "the window moves to the new base row, rows keeping their distance from
    /// it …, all else is empty", but "a base row above the depth's fit is
    /// lowered to the row equal to the depth …, and the whole window moves with
    /// it. No row is lost then." What moves has the depth of before: "Then
    /// depth n".
    fn move_window(&mut self, base: u8, depth: u8) {
        let from = self.window();
        self.cursors[Style::RollUp.index()].row = base.max(depth);
        let to = self.window();
        if from != to {
            self.displayed_mut().copy_within(from, to.start);
            self.keep_only(to);
        }
    }

    /// "The pen changes, then an attribute space (cell code 80h) is written
    /// with the new pen."
    fn mid_row(&mut self, style: Style, b: u8) {
        let cursor = &mut self.cursors[style.index()];
        cursor.pen = codes::mid_row_pen(cursor.pen, b);
        self.put(style, [codes::ATTRIBUTE_SPACE]);
    }

    /// "FON: flash on in the pen, then an attribute space is written."
    fn flash_on(&mut self, style: Style) {
        self.cursors[style.index()].pen |= codes::FLASH;
        self.put(style, [codes::ATTRIBUTE_SPACE]);
    }

    /// "tab: 1 to 3 columns right, stopping at 32. Cells skipped are kept."
    fn tab(&mut self, style: Style, columns: u8) {
        let cursor = &mut self.cursors[style.index()];
        cursor.column = right(cursor.column, columns);
    }

    /// "BS: at column 1 nothing; else one left, and that cell is emptied."
    fn backspace(&mut self, style: Style) {
        let (cursor, row) = self.line(style);
        if cursor.column > 1 {
            cursor.column -= 1;
            row[index(cursor.column)] = EMPTY;
        }
    }

    /// "DER empties the cursor's cell to column 32 of its row."
    fn delete_to_end(&mut self, style: Style) {
        let (cursor, row) = self.line(style);
        row[index(cursor.column)..].fill(EMPTY);
    }

    /// "CR, roll-up only: each window row takes the row below, the base row is
    /// emptied, column 1, plain pen."
    fn carriage_return(&mut self, style: Style) {
        if style != Style::RollUp {
            return;
        }
        let window = self.window();
        let grid = self.displayed_mut();
        grid.copy_within(window.start + 1..window.end, window.start);
        grid[window.end - 1] = EMPTY_ROW;
        let cursor = &mut self.cursors[style.index()];
        cursor.column = 1;
        cursor.pen = codes::PLAIN;
    }
}
