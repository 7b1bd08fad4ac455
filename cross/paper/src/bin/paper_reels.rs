//! "all else is run by a program and compared": the text on standard input with
//! the register of each reel in its place, as `crates/reels_main` prints it.
//!
//! That program's stored output is written here and not by itself:
//!
//! ```text
//! cargo run --release --offline --quiet --bin paper_reels \
//!     < ../crates/reels_main/stdin > ../crates/reels_main/stdout
//! ```

use std::io::{self, Read, Write};
use std::str;

use paper::sums::sum;

/// The longest register that is printed whole.
const SCREENFUL: usize = 2000;

/// One read, one write.
fn main() -> io::Result<()> {
    let mut script = Vec::new();
    io::stdin().lock().read_to_end(&mut script)?;
    io::stdout().lock().write_all(&played(&script))
}

/// What stands outside braces as it is, and in the place of each reel its
/// register.
fn played(script: &[u8]) -> Vec<u8> {
    let mut text = Vec::new();
    let mut rest = script;
    while let Some((before, reel, after)) = parts(rest, b'{', b'}') {
        text.extend_from_slice(before);
        text.extend(shown(paper::register::register(&unrolled(reel))));
        rest = after;
    }
    text.extend_from_slice(rest);
    text
}

/// A reel with each `<COUNT TEXT>` written out.
fn unrolled(reel: &[u8]) -> Vec<u8> {
    let mut bytes = Vec::new();
    let mut rest = reel;
    while let Some((before, note, after)) = parts(rest, b'<', b'>') {
        let space = place(note, b' ').expect("a space behind the count");
        let count = str::from_utf8(&note[..space]).expect("a count in digits");
        bytes.extend_from_slice(before);
        bytes.extend(note[space + 1..].repeat(count.parse().expect("a count")));
        rest = after;
    }
    bytes.extend_from_slice(rest);
    bytes
}

/// A register, or what is told of one that is longer than a screenful.
fn shown(register: Vec<u8>) -> Vec<u8> {
    if register.len() <= SCREENFUL {
        return register;
    }
    let last = register.split_inclusive(|&byte| byte == b'\n').next_back();
    let told = format!(
        "{} bytes, sum {:08x}, last line:\n",
        register.len(),
        sum(&register)
    );
    [told.as_bytes(), last.unwrap_or_default()].concat()
}

/// What stands before the first part between these two, the part, and what
/// stands behind it.
fn parts(text: &[u8], open: u8, close: u8) -> Option<(&[u8], &[u8], &[u8])> {
    let start = place(text, open)?;
    let inside = &text[start + 1..];
    let end = place(inside, close)?;
    Some((&text[..start], &inside[..end], &inside[end + 1..]))
}

/// Where a byte stands first.
fn place(text: &[u8], byte: u8) -> Option<usize> {
    text.iter().position(|&each| each == byte)
}
