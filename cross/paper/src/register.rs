//! "Reel and register": the bytes of a reel in, the register's text out.

use crate::decode::{equal, Cell, Decoder, Grid, EMPTY, EMPTY_GRID};
use crate::desk::MOST_ACTS;
use crate::lines::{digits, Reader};
use crate::numbers::Refusal;

/// The first line of every register, as printed in the paper's example.
const HEADER: &[u8] = b"from to row codes\n";

/// "A run is a longest stretch of frames whose displayed cells are equal in
/// every byte and not all empty": the run that stands open.
struct Run {
    first: u16,
    screen: Grid,
}

/// The text so far, and the run that stands open, if any.
struct Register {
    text: Vec<u8>,
    open: Option<Run>,
}

/// "The register program reads a reel from standard input, channel 1": its
/// whole output. "Empty input prints the header alone."
pub fn register(reel: &[u8]) -> Vec<u8> {
    let mut register = Register {
        text: HEADER.to_vec(),
        open: None,
    };
    let mut decoder = Decoder::fresh(1);
    let mut reader = Reader::new(reel);
    let mut frames = 0;
    let end = loop {
        match next(&mut reader, frames) {
            Ok(Some((first, second))) => {
                decoder.take(first, second);
                frames += 1;
                register.frame(frames, decoder.displayed());
            }
            end => break end,
        }
    };
    register.close(frames);
    if let Err(refusal) = end {
        register.refused(frames + 1, refusal);
    }
    register.text
}

/// "A bad or unfinished line ends it"; "Bytes after 16,000 lines give `refused
/// 16001 3`": the next pair after so many frames.
fn next(reader: &mut Reader, frames: u16) -> Result<Option<(u8, u8)>, Refusal> {
    if frames == MOST_ACTS && !reader.at_end() {
        return Err(Refusal::Full);
    }
    reader.next_pair()
}

impl Register {
    /// "A run is a longest stretch of frames whose displayed cells are equal in
    /// every byte and not all empty": one more frame, and its screen.
    fn frame(&mut self, frame: u16, screen: &Grid) {
        if self
            .open
            .as_ref()
            .is_some_and(|run| equal(&run.screen, screen))
        {
            return;
        }
        self.close(frame - 1);
        if !equal(screen, &EMPTY_GRID) {
            self.open = Some(Run {
                first: frame,
                screen: *screen,
            });
        }
    }

    /// "The end of the input closes an open run at the last frame. For each
    /// run, in order of frames, and for each row with a non-empty cell, from
    /// the top, a line".
    fn close(&mut self, last: u16) {
        if let Some(run) = self.open.take() {
            for (row, cells) in (1..).zip(&run.screen) {
                if let Some(shown) = shown(cells) {
                    self.line(run.first, last, row, shown);
                }
            }
        }
    }

    /// "a line: first frame and last frame (five digits), row (two), cell codes
    /// in capital hexadecimal from the first to the last non-empty cell, empty
    /// as 00."
    fn line(&mut self, first: u16, last: u16, row: u8, cells: &[Cell]) {
        let places = format!("{first:05} {last:05} {row:02} ");
        self.text.extend_from_slice(places.as_bytes());
        for cell in cells {
            self.text.extend_from_slice(&digits(cell.code));
        }
        self.text.push(b'\n');
    }

    /// "then `refused`, its frame, the number, as `refused 00003 5`."
    fn refused(&mut self, frame: u16, refusal: Refusal) {
        let line = format!("refused {frame:05} {}\n", refusal.number());
        self.text.extend_from_slice(line.as_bytes());
    }
}

/// "from the first to the last non-empty cell": those cells, if there is one.
fn shown(cells: &[Cell]) -> Option<&[Cell]> {
    let first = cells.iter().position(|&cell| cell != EMPTY)?;
    let last = cells.iter().rposition(|&cell| cell != EMPTY)?;
    Some(&cells[first..=last])
}
