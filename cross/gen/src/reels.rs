//! Reels for the register: good ones, every kind of bad line, and the edges.

use crate::prng::Prng;
use crate::traffic::{good, structured, uniform, Pair};

/// A reel and what it is for.
#[derive(Clone, Debug, PartialEq, Eq)]
pub struct Reel {
    /// What the reel shows.
    pub name: String,
    /// Its bytes.
    pub bytes: Vec<u8>,
}

/// The most frames that a reel may have.
pub const MOST_FRAMES: usize = 16_000;

/// Bad lines by name.
pub const BAD_LINES: [(&str, &[u8]); 15] = [
    ("lower case", b"94ad\n"),
    ("carriage return", b"9420\r\n"),
    ("blank", b"\n"),
    ("byte order mark", b"\xEF\xBB\xBF9420\n"),
    ("three digits", b"942\n"),
    ("five digits", b"94200\n"),
    ("space before", b" 9420\n"),
    ("space after", b"9420 \n"),
    ("letter G", b"94G0\n"),
    ("slash", b"94/0\n"),
    ("colon", b"94:0\n"),
    ("at sign", b"94@0\n"),
    ("zero byte for the line feed", b"9420\0"),
    ("high bytes", b"\xFF\xFF\xFF\xFF\n"),
    ("two lines in one", b"94209420\n"),
];

/// The bytes of a reel with these frames.
pub fn reel(pairs: &[Pair]) -> Vec<u8> {
    let mut bytes = Vec::with_capacity(5 * pairs.len());
    for (first, second) in pairs {
        bytes.extend_from_slice(format!("{first:02X}{second:02X}\n").as_bytes());
    }
    bytes
}

/// All reels for this seed.
pub fn reels(seed: u64) -> Vec<Reel> {
    let mut reels = good_reels(seed);
    reels.extend(bad_reels(seed));
    reels.extend(unfinished_reels(seed));
    reels.extend(edge_reels(seed));
    reels
}

/// A reel with its name.
fn named(name: impl Into<String>, bytes: Vec<u8>) -> Reel {
    let name = name.into();
    Reel { name, bytes }
}

/// Good reels: none, one frame, structured and uniform ones of many lengths.
fn good_reels(seed: u64) -> Vec<Reel> {
    let mut prng = Prng::new(seed);
    let mut reels = vec![named("empty", Vec::new())];
    for number in 0..40 {
        let count = prng.within(1, 600);
        let pairs = structured(prng.bits(), count);
        reels.push(named(format!("structured {number}"), reel(&pairs)));
    }
    for number in 0..5 {
        let count = prng.within(1, 600);
        let pairs = uniform(&mut prng, count);
        reels.push(named(format!("uniform {number}"), reel(&pairs)));
    }
    reels
}

/// Frames that leave something shown, so that a refusal has a run to close.
fn shown(seed: u64, count: usize) -> Vec<Pair> {
    let mut pairs = vec![good(0x14, 0x29), good(0x48, 0x49)];
    pairs.extend(structured(seed, count));
    pairs
}

/// Every kind of bad line at the first, a middle and the last place.
fn bad_reels(seed: u64) -> Vec<Reel> {
    let mut reels = Vec::new();
    for (number, (name, line)) in (0..).zip(BAD_LINES) {
        let pairs = shown(seed + number, 20);
        for (place, at) in [("first", 0), ("middle", 11), ("last", pairs.len())] {
            let before = reel(&pairs[..at]);
            let after = reel(&pairs[at..]);
            let bytes = [&before[..], line, &after[..]].concat();
            reels.push(named(format!("{name}, {place}"), bytes));
        }
    }
    reels
}

/// A last line cut short by 1 to 4 bytes, alone and after others.
fn unfinished_reels(seed: u64) -> Vec<Reel> {
    let mut reels = Vec::new();
    for frames in [1, 2, 15] {
        let whole = reel(&shown(seed, 20)[..frames]);
        for cut in 1..=4 {
            let bytes = whole[..whole.len() - cut].to_vec();
            reels.push(named(format!("{frames} lines less {cut} bytes"), bytes));
        }
    }
    reels
}

/// 16,000 lines, more, and screens that change at every frame.
fn edge_reels(seed: u64) -> Vec<Reel> {
    let full = reel(&shown(seed, MOST_FRAMES - 2));
    let less = full[..full.len() - 5].to_vec();
    let more = |bytes: &[u8], tail: &[u8]| [bytes, tail].concat();
    vec![
        named("15,999 lines", less.clone()),
        named("15,999 lines and half a line", more(&less, b"80")),
        named("15,999 lines and a bad one", more(&less, b"808x\n")),
        named("16,000 lines", full.clone()),
        named("16,000 lines and one byte", more(&full, b"8")),
        named("16,000 lines and a line feed", more(&full, b"\n")),
        named("16,000 lines and one more", more(&full, b"8080\n")),
        named("16,000 lines and a bad one", more(&full, b"xxxx\n")),
        named("a change at every frame", reel(&changing())),
        named("a full screen at every frame", reel(&full_screens())),
        named("one run of 15,999 frames", reel(&one_run())),
        named("pens alone change", reel(&pens())),
    ]
}

/// Paint-on, then another letter in column 32 at every frame.
fn changing() -> Vec<Pair> {
    let mut pairs = vec![good(0x14, 0x29), good(0x14, 0x7E)];
    let letters = (0..).map(|frame: u32| good(0x41 + (frame % 26) as u8, 0));
    pairs.extend(letters.take(MOST_FRAMES - 2));
    pairs
}

/// A screen with all 15 rows full, then a change in it at every frame.
fn full_screens() -> Vec<Pair> {
    const FIRSTS: [(u8, u8); 15] = [
        (0x11, 0x40),
        (0x11, 0x60),
        (0x12, 0x40),
        (0x12, 0x60),
        (0x15, 0x40),
        (0x15, 0x60),
        (0x16, 0x40),
        (0x16, 0x60),
        (0x17, 0x40),
        (0x17, 0x60),
        (0x10, 0x40),
        (0x13, 0x40),
        (0x13, 0x60),
        (0x14, 0x40),
        (0x14, 0x60),
    ];
    let mut pairs = vec![good(0x14, 0x29)];
    for (a, b) in FIRSTS {
        pairs.push(good(a, b));
        pairs.extend([good(0x41, 0x42); 16]);
    }
    let letters = (0..).map(|frame: u32| good(0x41 + (frame % 26) as u8, 0));
    let rest = 2_000 - pairs.len();
    pairs.extend(letters.take(rest));
    pairs
}

/// One letter from frame 2 to frame 16,000.
fn one_run() -> Vec<Pair> {
    let mut pairs = vec![good(0x14, 0x29), good(0x41, 0)];
    pairs.resize(MOST_FRAMES, (0x80, 0x80));
    pairs
}

/// The same letter at the same place with another pen each time.
fn pens() -> Vec<Pair> {
    let mut pairs = vec![good(0x14, 0x29)];
    for low in 0x60..0x70 {
        pairs.extend([good(0x14, low), good(0x41, 0), (0x80, 0x80)]);
    }
    pairs
}

#[cfg(test)]
mod tests {
    use super::*;

    #[test]
    fn reels_have_names_of_their_own() {
        let reels = reels(1);
        let mut names: Vec<_> = reels.iter().map(|reel| &reel.name).collect();
        names.sort();
        names.dedup();
        assert_eq!(names.len(), reels.len());
    }

    #[test]
    fn full_reels_have_16000_lines() {
        for (name, lines) in [
            ("16,000 lines", MOST_FRAMES),
            ("15,999 lines", MOST_FRAMES - 1),
        ] {
            let reels = reels(1);
            let reel = reels.iter().find(|reel| reel.name == name).unwrap();
            assert_eq!(reel.bytes.len(), 5 * lines);
        }
    }
}
