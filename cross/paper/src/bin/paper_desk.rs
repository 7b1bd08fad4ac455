//! "all else is run by a program and compared": the script on standard input,
//! played on this desk, as `crates/desk_main` prints it.
//!
//! That program's stored output is written here and not by itself:
//!
//! ```text
//! cargo run --release --offline --quiet --bin paper_desk \
//!     < ../crates/desk_main/stdin > ../crates/desk_main/stdout
//! ```

use std::fmt::Debug;
use std::io::{self, Read, Write};
use std::str::FromStr;

use paper::desk::{self, LOG_BYTES, RECORD_BYTES, TRAY_BYTES};
use paper::numbers::{packed, Answer};
use paper::sums::sum;

/// The pairs that `many` takes, from the first on and again from the first.
const SONG: [u16; 23] = [
    0x9425, 0xC849, 0x94AD, 0x94AD, 0x4580, 0x9770, 0x91A8, 0xC1C2, 0x9420, 0x94FE, 0x43C4, 0x97A1,
    0x94A8, 0xC849, 0x942F, 0x942F, 0x8080, 0x9429, 0x9152, 0x4849, 0x1C20, 0xC1C2, 0x9426,
];

/// One read, one write.
fn main() -> io::Result<()> {
    let mut script = String::new();
    io::stdin().lock().read_to_string(&mut script)?;
    let mut room = Room::new();
    let lines = script.split_terminator('\n').map(|line| room.line(line));
    let played: String = lines.collect();
    io::stdout().lock().write_all(played.as_bytes())
}

/// The three buffers, each with a byte more than the desk asks for, so that a
/// call can be lent one too many; and how many bytes of each are lent.
struct Room {
    desk: [u8; RECORD_BYTES + 1],
    log: [u8; LOG_BYTES + 1],
    tray: [u8; TRAY_BYTES + 1],
    lent: [usize; 3],
}

impl Room {
    /// Buffers of zeros, lent with the right lengths.
    fn new() -> Room {
        Room {
            desk: [0; RECORD_BYTES + 1],
            log: [0; LOG_BYTES + 1],
            tray: [0; TRAY_BYTES + 1],
            lent: [RECORD_BYTES, LOG_BYTES, TRAY_BYTES],
        }
    }

    /// A line of the script, and behind a call what it gives and the sums of the
    /// three buffers. What stands behind the words that a line asks for is said
    /// to its reader.
    fn line(&mut self, line: &str) -> String {
        let words: Vec<&str> = line.split(' ').collect();
        match words[..] {
            ["#", ..] => {}
            ["lend", desk, log, tray, ..] => self.lent = [desk, log, tray].map(number),
            ["poke", name, place, byte, ..] => {
                self.buffer(name)[number::<usize>(place)] = number(byte);
            }
            _ => {
                let given = self.call(&words);
                return format!("{line} | {given} | {}\n", self.sums());
            }
        }
        format!("{line}\n")
    }

    /// The buffer of this name.
    fn buffer(&mut self, name: &str) -> &mut [u8] {
        match name {
            "desk" => &mut self.desk,
            "log" => &mut self.log,
            "tray" => &mut self.tray,
            _ => panic!("no buffer {name}"),
        }
    }

    /// What a call gives, on the bytes that it is lent.
    fn call(&mut self, words: &[&str]) -> String {
        let desk = &mut self.desk[..self.lent[0]];
        let log = &mut self.log[..self.lent[1]];
        let tray = &mut self.tray[..self.lent[2]];
        told(match *words {
            ["view", ..] => return viewed(desk),
            ["open", ..] => desk::open(desk, log, tray),
            ["take", pair, ..] => {
                let pair = u16::from_str_radix(pair, 16).expect("four digits");
                take(desk, log, tray, pair)
            }
            ["many", count, ..] => {
                let pairs = SONG.iter().cycle().take(number(count));
                let answers = pairs.map(|&pair| take(desk, log, tray, pair));
                answers.last().unwrap_or(Ok(0))
            }
            ["select", channel, ..] => desk::select(desk, log, tray, number(channel)),
            ["back", k, ..] => desk::back(desk, log, tray, number(k)),
            ["row", row, ..] => desk::row(desk, number(row)),
            _ => panic!("no call {words:?}"),
        })
    }

    /// The sums of the three buffers, with the byte behind each.
    fn sums(&self) -> String {
        let buffers: [&[u8]; 3] = [&self.desk, &self.log, &self.tray];
        buffers.map(eight).join(" ")
    }
}

/// A number of the script, in decimal digits.
fn number<T: FromStr<Err: Debug>>(word: &str) -> T {
    word.parse().expect("a number")
}

/// Takes a pair that is written as one number, first byte high.
fn take(desk: &mut [u8], log: &mut [u8], tray: &mut [u8], pair: u16) -> Answer {
    let [first, second] = pair.to_be_bytes();
    desk::take(desk, log, tray, first, second)
}

/// Number and value.
fn told(answer: Answer) -> String {
    let packed = packed(answer);
    format!("{} {}", packed >> 16, packed & 0xFFFF)
}

/// Number of a view, and length and sum of the part: "an empty part on refusal".
fn viewed(desk: &[u8]) -> String {
    let (number, part) = match desk::view(desk) {
        Ok(part) => (0, part),
        Err(refusal) => (refusal.number(), &[][..]),
    };
    format!("{number} {} {}", part.len(), eight(part))
}

/// A sum in eight hexadecimal digits.
fn eight(bytes: &[u8]) -> String {
    format!("{:08x}", sum(bytes))
}
