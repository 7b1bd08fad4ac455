//! Pairs: uniform bytes, and structured traffic over all codes and both
//! channels.

use crate::prng::Prng;

/// One frame: first and second raw byte.
pub type Pair = (u8, u8);

/// A pair without text: 80h 80h.
pub const NULL: Pair = (0x80, 0x80);

/// The good byte with these low seven bits.
pub fn odd(low: u8) -> u8 {
    if low.count_ones() % 2 == 1 {
        low
    } else {
        low | 0x80
    }
}

/// The good pair with these low seven bits.
pub fn good(a: u8, b: u8) -> Pair {
    (odd(a), odd(b))
}

/// Uniform bytes, so many pairs of them.
pub fn uniform(prng: &mut Prng, count: usize) -> Vec<Pair> {
    (0..count).map(|_| (prng.byte(), prng.byte())).collect()
}

/// A control pair of channel 1, assigned or not, by kinds.
#[derive(Clone, Copy, Debug, PartialEq, Eq)]
enum Kind {
    Style,
    Erase,
    Preamble,
    MidRow,
    Special,
    Tab,
    Edit,
    Return,
    Text,
    Unassigned,
    Any,
}

/// The kinds with their weights in structured traffic.
const KINDS: [(Kind, usize); 11] = [
    (Kind::Style, 14),
    (Kind::Erase, 6),
    (Kind::Preamble, 20),
    (Kind::MidRow, 8),
    (Kind::Special, 8),
    (Kind::Tab, 6),
    (Kind::Edit, 10),
    (Kind::Return, 12),
    (Kind::Text, 2),
    (Kind::Unassigned, 6),
    (Kind::Any, 12),
];

/// The a of a preamble, by the paper's table; 10h only with b below 60h.
const PREAMBLE_A: [u8; 8] = [0x10, 0x11, 0x12, 0x13, 0x14, 0x15, 0x16, 0x17];

/// A pair of this kind, as channel 1 values.
fn control(prng: &mut Prng, kind: Kind) -> (u8, u8) {
    match kind {
        Kind::Style => (0x14, prng.pick(&[0x20, 0x25, 0x26, 0x27, 0x29, 0x2F])),
        Kind::Erase => (0x14, prng.pick(&[0x2C, 0x2E])),
        Kind::Preamble => preamble(prng),
        Kind::MidRow => (0x11, prng.byte_within(0x20, 0x2F)),
        Kind::Special => (0x11, prng.byte_within(0x30, 0x3F)),
        Kind::Tab => (0x17, prng.byte_within(0x21, 0x23)),
        Kind::Edit => (0x14, prng.pick(&[0x21, 0x24, 0x28])),
        Kind::Return => (0x14, 0x2D),
        Kind::Text => (0x14, prng.pick(&[0x2A, 0x2B])),
        Kind::Unassigned => unassigned(prng),
        Kind::Any => (prng.byte_within(0x10, 0x17), prng.byte_within(0x20, 0x7F)),
    }
}

/// A preamble to any row; rows near the top and the bottom come often, so that
/// windows are lowered and move back.
fn preamble(prng: &mut Prng) -> (u8, u8) {
    let (a, b) = match prng.below(4) {
        0 => (0x11, prng.byte_within(0x40, 0x7F)),
        1 => (0x14, prng.byte_within(0x40, 0x7F)),
        _ => (prng.pick(&PREAMBLE_A), prng.byte_within(0x40, 0x7F)),
    };
    if a == 0x10 {
        (a, b & !0x20)
    } else {
        (a, b)
    }
}

/// A preamble to one of the rows 1 to 4: no window fits on row 1, and each on
/// row 4.
fn high_preamble(prng: &mut Prng) -> (u8, u8) {
    (prng.pick(&[0x11, 0x11, 0x12]), prng.byte_within(0x40, 0x7F))
}

/// A pair from 10h on that the paper assigns nothing to.
fn unassigned(prng: &mut Prng) -> (u8, u8) {
    match prng.below(5) {
        0 => (0x10, prng.byte_within(0x60, 0x7F)),
        1 => (0x14, prng.pick(&[0x22, 0x23])),
        2 => (0x14, prng.byte_within(0x30, 0x3F)),
        3 => (0x17, prng.pick(&[0x20, 0x24, 0x2F, 0x30, 0x3F])),
        _ => {
            let a = prng.pick(&[0x10, 0x12, 0x13, 0x15, 0x16]);
            (a, prng.byte_within(0x20, 0x3F))
        }
    }
}

/// A pair of a stream that keeps to the paper's forms, with faults strewn in.
#[derive(Clone, Debug)]
pub struct Traffic {
    prng: Prng,
    /// 0 for channel 1, 8 for channel 2: where most codes go.
    channel: u8,
    /// For so many events more, the codes go to the other channel.
    away: usize,
    /// Pairs that are still to come, the next one last.
    queue: Vec<Pair>,
}

impl Traffic {
    /// Structured traffic for this seed.
    pub fn new(seed: u64) -> Traffic {
        Traffic {
            prng: Prng::new(seed),
            channel: 0,
            away: 0,
            queue: Vec::new(),
        }
    }

    /// A desk was opened, or this channel selected: what comes goes there, and
    /// mostly sets a style first.
    pub fn follow(&mut self, channel: u8) {
        self.channel = if channel == 2 { 8 } else { 0 };
        self.away = 0;
        self.queue.clear();
        if self.prng.percent(80) {
            let (a, b) = control(&mut self.prng, Kind::Style);
            self.queue.push(good(a | self.channel, b));
        }
    }

    /// The next pair; one byte in sixty or so has its parity broken.
    pub fn pair(&mut self) -> Pair {
        if self.queue.is_empty() {
            self.event();
            self.queue.reverse();
        }
        let (mut first, mut second) = self.queue.pop().unwrap_or(NULL);
        match self.prng.below(60) {
            0 => first ^= 0x80,
            1 => second ^= 0x80,
            _ => {}
        }
        (first, second)
    }

    /// So many pairs.
    pub fn pairs(&mut self, count: usize) -> Vec<Pair> {
        (0..count).map(|_| self.pair()).collect()
    }

    /// One event into the queue: text, a code with its repeats, nulls, or
    /// something that no captioner sends.
    fn event(&mut self) {
        self.away = self.away.saturating_sub(1);
        match self.prng.below(100) {
            0..=34 => self.text(),
            35..=39 => self.high_window(),
            40..=84 => self.code(),
            85..=89 => self.nulls(),
            90..=93 => self.line_of_roll_up(),
            94..=96 => self.low_first(),
            97 => self.low_second(),
            98 => self.away = self.prng.within(2, 8),
            _ => self.noise(),
        }
    }

    /// A run of text of 1 to 20 pairs; some end in half a pair.
    fn text(&mut self) {
        self.letters(20);
    }

    /// One pair of text to as many as these.
    fn letters(&mut self, most: usize) {
        for _ in 0..self.prng.within(1, most) {
            let a = self.prng.byte_within(0x20, 0x7F);
            let b = match self.prng.below(12) {
                0 => 0,
                1 => self.prng.byte_within(0, 0x1F),
                _ => self.prng.byte_within(0x20, 0x7F),
            };
            self.queue.push(good(a, b));
        }
    }

    /// A code, then its repeats: none, one, many, damaged, across a null, or
    /// with the other channel's twin between.
    fn code(&mut self) {
        let kind = self.kind();
        let (a, b) = control(&mut self.prng, kind);
        let a = a | self.bit();
        let pair = good(a, b);
        self.queue.push(pair);
        let repeats: &[Pair] = match self.prng.below(20) {
            0 | 1 => &[],
            2 => &[pair, pair],
            3 => &[pair, pair, pair],
            4 => &[(pair.0 ^ 0x80, pair.1)],
            5 => &[(pair.0, pair.1 ^ 0x80)],
            6 => &[(pair.0 ^ 0x80, pair.1), pair],
            7 => &[NULL, pair],
            8 => &[NULL, (pair.0 ^ 0x80, pair.1)],
            9 => &[good(a ^ 8, b), pair],
            _ => &[pair],
        };
        self.queue.extend_from_slice(repeats);
    }

    /// The channel's bit in a: mostly the followed one's.
    fn bit(&mut self) -> u8 {
        let other = self.away > 0 || self.prng.percent(4);
        self.channel ^ if other { 8 } else { 0 }
    }

    /// A kind by its weight.
    fn kind(&mut self) -> Kind {
        let sum = KINDS.iter().map(|&(_, weight)| weight).sum();
        let mut left = self.prng.below(sum);
        for (kind, weight) in KINDS {
            if left < weight {
                return kind;
            }
            left -= weight;
        }
        Kind::Any
    }

    /// One to four nulls.
    fn nulls(&mut self) {
        let count = self.prng.within(1, 4);
        self.queue.resize(self.queue.len() + count, NULL);
    }

    /// What a live captioner sends: roll-up, carriage return, preamble, each
    /// twice, then a line of text.
    fn line_of_roll_up(&mut self) {
        let depth = self.prng.byte_within(0x25, 0x27);
        let (a, b) = preamble(&mut self.prng);
        let channel = self.bit();
        for (a, b) in [(0x14, depth), (0x14, 0x2D), (a, b)] {
            let pair = good(a | channel, b);
            self.queue.extend_from_slice(&[pair, pair]);
        }
        self.text();
    }

    /// Roll-up at the top of the screen: a window with some lines on one of the
    /// rows 1 to 4, then codes that it may not fit for, each with text behind it.
    fn high_window(&mut self) {
        let channel = self.bit();
        let depth = self.prng.pick(&[0x25, 0x25, 0x26, 0x27]);
        let base = high_preamble(&mut self.prng);
        self.send(channel, &[(0x14, depth), base]);
        self.letters(2);
        for _ in 0..self.prng.within(0, 3) {
            self.send(channel, &[(0x14, 0x2D)]);
            self.letters(2);
        }
        for _ in 0..self.prng.within(1, 3) {
            self.move_high_window(channel);
            self.letters(2);
        }
    }

    /// A preamble to the rows 1 to 4, or RU, which is deeper often; before it a
    /// tab and a mid-row code, so that the column and the pen that it keeps are
    /// seen, or RCL, which keeps the mark.
    fn move_high_window(&mut self, channel: u8) {
        if self.prng.percent(40) {
            let tab = control(&mut self.prng, Kind::Tab);
            let pen = control(&mut self.prng, Kind::MidRow);
            self.send(channel, &[pen, tab]);
        }
        if self.prng.percent(15) {
            self.send(channel, &[(0x14, 0x20)]);
        }
        let code = match self.prng.below(5) {
            0 => high_preamble(&mut self.prng),
            1..=3 => (0x14, self.prng.byte_within(0x26, 0x27)),
            _ => (0x14, 0x25),
        };
        self.send(channel, &[code]);
    }

    /// Codes as a broadcaster sends them, twice; one in four is sent once.
    fn send(&mut self, channel: u8, codes: &[(u8, u8)]) {
        for &(a, b) in codes {
            let pair = good(a | channel, b);
            let times = self.prng.pick(&[1, 2, 2, 2]);
            self.queue.resize(self.queue.len() + times, pair);
        }
    }

    /// A first byte from 00h to 0Fh with any second one.
    fn low_first(&mut self) {
        let a = self.prng.byte_within(0, 0x0F);
        let b = self.prng.byte_within(0, 0x7F);
        self.queue.push(good(a, b));
    }

    /// A control byte with a second one below 20h.
    fn low_second(&mut self) {
        let a = self.prng.byte_within(0x10, 0x1F);
        let b = self.prng.byte_within(0, 0x1F);
        self.queue.push(good(a, b));
    }

    /// Uniform bytes.
    fn noise(&mut self) {
        let pair = (self.prng.byte(), self.prng.byte());
        self.queue.push(pair);
    }
}

/// So many pairs of structured traffic for this seed.
pub fn structured(seed: u64, count: usize) -> Vec<Pair> {
    Traffic::new(seed).pairs(count)
}

/// So many pairs as a live captioner sends them: line after line of roll-up,
/// its three codes each twice, then text, and no fault.
pub fn live(seed: u64, count: usize) -> Vec<Pair> {
    let mut prng = Prng::new(seed);
    let mut pairs = Vec::new();
    while pairs.len() < count {
        for (a, b) in [(0x14, 0x26), (0x14, 0x2D), (0x14, 0x70)] {
            pairs.extend_from_slice(&[good(a, b); 2]);
        }
        for _ in 0..prng.within(10, 16) {
            let (a, b) = (prng.byte_within(0x20, 0x7E), prng.byte_within(0x20, 0x7E));
            pairs.push(good(a, b));
        }
    }
    pairs.truncate(count);
    pairs
}

#[cfg(test)]
mod tests {
    use super::*;

    #[test]
    fn odd_bytes_are_odd() {
        for low in 0..=0x7F {
            assert_eq!(odd(low).count_ones() % 2, 1);
            assert_eq!(odd(low) & 0x7F, low);
        }
    }

    #[test]
    fn structured_traffic_is_a_function_of_its_seed() {
        assert_eq!(structured(3, 500), structured(3, 500));
        assert_ne!(structured(3, 500), structured(4, 500));
    }

    #[test]
    fn structured_traffic_meets_every_control_pair_of_both_channels() {
        let mut met = [[false; 0x80]; 0x20];
        let mut traffic = Traffic::new(1);
        let mut pairs = traffic.pairs(1_000_000);
        traffic.follow(2);
        pairs.extend(traffic.pairs(1_000_000));
        for (first, second) in pairs {
            let (a, b) = (first & 0x7F, second & 0x7F);
            if (0x10..0x20).contains(&a) {
                met[usize::from(a)][usize::from(b)] = true;
            }
        }
        let missed = met[0x10..].iter().flat_map(|row| &row[0x20..]);
        assert_eq!(missed.filter(|&&met| !met).count(), 0);
    }

    /// The row of a preamble to the rows 1 to 3, by the paper's table.
    fn high_row(pair: Pair) -> Option<u8> {
        match (pair.0 & 0x7F, pair.1 & 0x7F) {
            (0x11, 0x40..=0x5F) => Some(1),
            (0x11, 0x60..=0x7F) => Some(2),
            (0x12, 0x40..=0x5F) => Some(3),
            _ => None,
        }
    }

    /// The depth that RU sets.
    fn depth(pair: Pair) -> Option<u8> {
        match (pair.0 & 0x7F, pair.1 & 0x7F) {
            (0x14, b @ 0x25..=0x27) => Some(b - 0x23),
            _ => None,
        }
    }

    #[test]
    fn a_row_above_the_fit_comes_often_behind_roll_up_and_roll_up_behind_it() {
        let pairs = structured(1, 100_000);
        let mut high = [[0; 5]; 4];
        let mut deeper = [[0; 5]; 5];
        for (place, &pair) in pairs.iter().enumerate() {
            // What was set last, within the pairs of one event or two.
            let before = pairs[place.saturating_sub(30)..place].iter().rev();
            let set = before.copied().find_map(depth);
            match (set, high_row(pair), depth(pair)) {
                (Some(set), Some(row), _) if row < set => {
                    high[usize::from(row)][usize::from(set)] += 1;
                }
                (Some(set), _, Some(asked)) if asked > set => {
                    deeper[usize::from(set)][usize::from(asked)] += 1;
                }
                _ => {}
            }
        }
        for (row, depth) in [(1, 2), (1, 3), (1, 4), (2, 3), (2, 4), (3, 4)] {
            assert!(high[row][depth] >= 100, "{row} {depth}: {high:?}");
        }
        for (depth, asked) in [(2, 3), (2, 4), (3, 4)] {
            assert!(deeper[depth][asked] >= 100, "{deeper:?}");
        }
    }
}
