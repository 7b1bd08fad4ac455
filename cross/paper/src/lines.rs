//! Frame lines: one pair a line, and the reader that walks a lent reel.

use crate::numbers::{Answer, Refusal};

/// "four of 0–9 A–F and a line feed": the bytes of a line.
pub const LINE: usize = 5;

const DIGITS: &[u8; 16] = b"0123456789ABCDEF";

/// "four of 0–9 A–F": the value of one digit.
fn digit(byte: u8) -> Option<u8> {
    match byte {
        b'0'..=b'9' => Some(byte - b'0'),
        b'A'..=b'F' => Some(byte - b'A' + 10),
        _ => None,
    }
}

/// "A reel is hexadecimal": the byte of two digits.
fn byte(high: u8, low: u8) -> Option<u8> {
    Some(digit(high)? << 4 | digit(low)?)
}

/// "in capital hexadecimal": the two digits of a byte.
pub(crate) fn digits(byte: u8) -> [u8; 2] {
    [
        DIGITS[usize::from(byte >> 4)],
        DIGITS[usize::from(byte & 15)],
    ]
}

/// "a frame line is not four of 0–9 A–F and a line feed": the pair of the
/// line at the head of the bytes, or 5. "A line is judged where the reel
/// stands, so a short one is 5, never 1".
fn pair(reel: &[u8]) -> Result<(u8, u8), Refusal> {
    match *reel {
        [w, x, y, z, b'\n', ..] => byte(w, x).zip(byte(y, z)).ok_or(Refusal::Line),
        _ => Err(Refusal::Line),
    }
}

/// "A reader walks a lent reel from its first line without copying it."
#[derive(Clone, Debug)]
pub struct Reader<'a> {
    rest: &'a [u8],
}

impl<'a> Reader<'a> {
    /// "from its first line": a reader at the head of the reel.
    pub fn new(reel: &'a [u8]) -> Reader<'a> {
        Reader { rest: reel }
    }

    /// "At its end it gives 0 and no pair; on 5 it stays."
    pub fn next_pair(&mut self) -> Result<Option<(u8, u8)>, Refusal> {
        if self.rest.is_empty() {
            return Ok(None);
        }
        let pair = pair(self.rest)?;
        self.rest = &self.rest[LINE..];
        Ok(Some(pair))
    }

    /// "At its end": no byte of the reel is left.
    pub fn at_end(&self) -> bool {
        self.rest.is_empty()
    }
}

/// "the buffer that a line is written to has 5 bytes", else 1; "one frame a
/// line": four digits and a line feed. Gives 0.
pub fn write(out: &mut [u8], first: u8, second: u8) -> Answer {
    let out: &mut [u8; LINE] = out.try_into().map_err(|_| Refusal::Length)?;
    let ([w, x], [y, z]) = (digits(first), digits(second));
    *out = [w, x, y, z, b'\n'];
    Ok(0)
}

/// What `loikrasun_line_read` gives (include/loikrasun.h): the pair of the first
/// line as `first * 256 + second`; an empty reel gives 0; else 5.
pub fn read(reel: &[u8]) -> Answer {
    let pair = Reader::new(reel).next_pair()?;
    Ok(pair.map_or(0, |(first, second)| u16::from_be_bytes([first, second])))
}
