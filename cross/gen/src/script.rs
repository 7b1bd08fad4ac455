//! Whole scripts: calls, and what is done to the buffers between them.

use std::fmt;

use crate::prng::Prng;
use crate::records::{
    count_place, field_damage, fit_damage, is_cell, mend_counts, odd_cell, odd_record,
    DISPLAYED_COUNTS, HIDDEN_COUNTS, RECORD_BYTES,
};
use crate::traffic::{self, Traffic};

/// The bytes of a log.
pub const LOG_BYTES: usize = 48_000;
/// The bytes of a tray.
pub const TRAY_BYTES: usize = 31_744;
/// The bytes that a view is copied to.
pub const VIEW_BYTES: usize = 960;
/// The bytes of a frame line.
pub const LINE_BYTES: usize = 5;
/// The most acts that stand.
pub const MOST_ACTS: u16 = 16_000;
/// Room behind every buffer, to be lent too long and watched for stray bytes.
const ROOM: usize = 64;

/// One call of the desk, or of a line.
#[derive(Clone, Debug, PartialEq, Eq)]
pub enum Call {
    /// Open the desk.
    Open,
    /// Take a pair.
    Take(u8, u8),
    /// Select a channel.
    Select(u8),
    /// Step back by so many acts.
    Back(u32),
    /// Ask for a row.
    Row(u8),
    /// Ask for the view.
    View,
    /// Write a frame line.
    LineWrite(u8, u8),
    /// Read the first frame line of a reel.
    LineRead(Vec<u8>),
}

/// How many bytes of each buffer are lent.
#[derive(Clone, Copy, Debug, PartialEq, Eq)]
pub struct Lent {
    /// Bytes of the desk.
    pub desk: usize,
    /// Bytes of the log.
    pub log: usize,
    /// Bytes of the tray.
    pub tray: usize,
    /// Bytes of the view or the line; for other calls it is not lent.
    pub out: usize,
}

impl Lent {
    /// The right lengths for this call.
    pub fn right(call: &Call) -> Lent {
        Lent {
            desk: RECORD_BYTES,
            log: LOG_BYTES,
            tray: TRAY_BYTES,
            out: match call {
                Call::View => VIEW_BYTES,
                Call::LineWrite(..) => LINE_BYTES,
                _ => 0,
            },
        }
    }
}

/// One of the buffers.
#[derive(Clone, Copy, Debug, PartialEq, Eq)]
pub enum Part {
    /// The desk's record.
    Desk,
    /// The log.
    Log,
    /// The tray.
    Tray,
}

/// What is done to the buffers of both sides between calls.
#[derive(Clone, Debug, PartialEq, Eq)]
pub enum Arrange {
    /// One byte is changed by these bits.
    Flip(Part, usize, u8),
    /// One byte is written.
    Poke(Part, usize, u8),
    /// One byte grows by so much, modulo 256.
    Grow(Part, usize, u8),
    /// The bytes from one place on and those from another change places, so many
    /// of them.
    Exchange(Part, usize, usize, usize),
    /// The counts of the record that starts at this place become right.
    MendCounts(Part, usize),
    /// The desk's act count is written.
    Acts(u16),
    /// The desk becomes a valid record made from a seed, with this act count.
    OddDesk(u64, u16),
    /// The slot becomes a valid record made from a seed, with this act count.
    OddSlot(usize, u64, u16),
    /// The slot becomes the desk's record with this act count.
    KeepSlot(usize, u16),
    /// Acts from the first number to before the second are written to the log,
    /// well formed, from a seed.
    FillLog(usize, usize, u64),
    /// Every byte of a buffer is written, but the room behind it.
    Fill(Part, u8),
}

/// A step of a script.
#[derive(Clone, Debug, PartialEq, Eq)]
pub enum Step {
    /// A call, with what is lent to it.
    Call(Call, Lent),
    /// A change that is no call.
    Arrange(Arrange),
}

impl Step {
    /// A call with the right lengths.
    pub fn call(call: Call) -> Step {
        let lent = Lent::right(&call);
        Step::Call(call, lent)
    }

    /// Whether the step is a call.
    pub fn is_call(&self) -> bool {
        matches!(self, Step::Call(..))
    }
}

/// The buffers of one side, each with room behind it.
#[derive(Clone, Debug, PartialEq, Eq)]
pub struct Buffers {
    /// The desk's record.
    pub desk: Vec<u8>,
    /// The log.
    pub log: Vec<u8>,
    /// The tray.
    pub tray: Vec<u8>,
    /// What a view or a line is written to.
    pub out: Vec<u8>,
}

impl Default for Buffers {
    /// Buffers full of a byte that is not zero, so that zeros written show.
    fn default() -> Buffers {
        Buffers {
            desk: vec![0xA5; RECORD_BYTES + ROOM],
            log: vec![0xA5; LOG_BYTES + ROOM],
            tray: vec![0xA5; TRAY_BYTES + ROOM],
            out: vec![0xA5; VIEW_BYTES + ROOM],
        }
    }
}

impl Buffers {
    /// The buffer of this name.
    pub fn part(&mut self, part: Part) -> &mut [u8] {
        match part {
            Part::Desk => &mut self.desk,
            Part::Log => &mut self.log,
            Part::Tray => &mut self.tray,
        }
    }

    /// The bytes of slot s, from 1.
    fn slot(&mut self, s: usize) -> &mut [u8] {
        &mut self.tray[(s - 1) * RECORD_BYTES..s * RECORD_BYTES]
    }

    /// Does what the step says.
    pub fn arrange(&mut self, arrange: &Arrange) {
        match *arrange {
            Arrange::Flip(part, place, bits) => self.part(part)[place] ^= bits,
            Arrange::Poke(part, place, byte) => self.part(part)[place] = byte,
            Arrange::Grow(part, place, more) => {
                let byte = &mut self.part(part)[place];
                *byte = byte.wrapping_add(more);
            }
            Arrange::Exchange(part, one, other, count) => {
                let bytes = self.part(part);
                (0..count).for_each(|each| bytes.swap(one + each, other + each));
            }
            Arrange::MendCounts(part, start) => {
                mend_counts(&mut self.part(part)[start..start + RECORD_BYTES]);
            }
            Arrange::Acts(acts) => self.desk[..2].copy_from_slice(&acts.to_le_bytes()),
            Arrange::OddDesk(seed, acts) => {
                self.desk[..RECORD_BYTES].copy_from_slice(&odd_record(seed, acts));
            }
            Arrange::OddSlot(s, seed, acts) => {
                self.slot(s).copy_from_slice(&odd_record(seed, acts));
            }
            Arrange::KeepSlot(s, acts) => {
                let record = self.desk[..RECORD_BYTES].to_vec();
                let slot = self.slot(s);
                slot.copy_from_slice(&record);
                slot[..2].copy_from_slice(&acts.to_le_bytes());
            }
            Arrange::FillLog(from, to, seed) => fill_log(&mut self.log, from, to, seed),
            Arrange::Fill(part, byte) => {
                let room = self.part(part).len() - ROOM;
                self.part(part)[..room].fill(byte);
            }
        }
    }
}

/// Well formed acts, one in eighty of them a selection.
fn fill_log(log: &mut [u8], from: usize, to: usize, seed: u64) {
    let mut prng = Prng::new(!seed);
    let mut traffic = Traffic::new(seed);
    for act in log[3 * from..3 * to].chunks_exact_mut(3) {
        let bytes = if prng.below(80) == 0 {
            let channel = prng.byte_within(1, 2);
            traffic.follow(channel);
            [2, channel, 0]
        } else {
            let (first, second) = traffic.pair();
            [1, first, second]
        };
        act.copy_from_slice(&bytes);
    }
}

/// How many kinds of short scripts there are.
const SHORT_KINDS: u64 = 10;
/// One script in so many is a long one, of 16,000 real takes.
const LONG_EVERY: u64 = 300;

/// The script of this number for this seed.
pub fn script(seed: u64, number: u64) -> Vec<Step> {
    let mut writer = Writer::new(seed, number);
    if number % LONG_EVERY == 29 {
        writer.long();
    } else {
        match number % SHORT_KINDS {
            0 => writer.story(true),
            1 => writer.story(false),
            2 => writer.thousand(),
            3 => writer.full(),
            4 => writer.damaged_desk(),
            5 => writer.damaged_log(),
            6 => writer.damaged_tray(),
            7 => writer.lengths(),
            8 => writer.lines(),
            _ => writer.odd_desks(),
        }
    }
    writer.steps
}

/// Writes one script.
struct Writer {
    prng: Prng,
    traffic: Traffic,
    steps: Vec<Step>,
    /// The act count as the writer believes it to be.
    acts: u32,
}

impl Writer {
    /// A writer for the script of this number.
    fn new(seed: u64, number: u64) -> Writer {
        let mut prng = Prng::part(seed, number);
        let traffic = Traffic::new(prng.bits());
        Writer {
            prng,
            traffic,
            steps: Vec::new(),
            acts: 0,
        }
    }

    /// A call with the right lengths.
    fn call(&mut self, call: Call) {
        self.steps.push(Step::call(call));
    }

    /// A change to the buffers.
    fn arrange(&mut self, arrange: Arrange) {
        self.steps.push(Step::Arrange(arrange));
    }

    /// Opens the desk.
    fn open(&mut self) {
        self.call(Call::Open);
        self.traffic.follow(1);
        self.acts = 0;
    }

    /// Takes the next pair of the traffic.
    fn take(&mut self) {
        let (first, second) = self.traffic.pair();
        self.call(Call::Take(first, second));
        self.stand();
    }

    /// Takes so many pairs.
    fn takes(&mut self, count: usize) {
        for _ in 0..count {
            self.take();
        }
    }

    /// One act more, but not past 16,000.
    fn stand(&mut self) {
        self.acts = (self.acts + 1).min(u32::from(MOST_ACTS));
    }

    /// A selection, now and then of a channel that is none.
    fn select(&mut self) {
        let channel = self.prng.pick(&[1, 1, 1, 2, 2, 0, 3, 255]);
        self.call(Call::Select(channel));
        if matches!(channel, 1 | 2) {
            self.traffic.follow(channel);
            self.stand();
        }
    }

    /// A step back: none, a few, across a slot, all, one more, far too many.
    fn back(&mut self) {
        let all = self.acts;
        let over = all % 1_000;
        let k = match self.prng.below(16) {
            0 | 1 => 0,
            2..=6 => self.prng.within(1, 4) as u32,
            7 => over,
            8 => over + 1,
            9 => over.saturating_sub(1),
            10 => self.prng.pick(&[999, 1_000, 1_001]),
            11 => self.prng.below(all as usize + 1) as u32,
            12 => all,
            13 => all + 1,
            14 => self
                .prng
                .pick(&[65_535, 65_536, 65_537, 65_536 + all, u32::MAX]),
            _ => self.prng.within(1, 60) as u32,
        };
        self.call(Call::Back(k));
        if k <= all {
            self.acts = all - k;
        }
    }

    /// A row, now and then one that is none, or the view.
    fn look(&mut self) {
        if self.prng.percent(50) {
            let row = self.prng.pick(&[1, 2, 8, 12, 13, 14, 15, 15, 0, 16, 255]);
            self.call(Call::Row(row));
        } else {
            self.call(Call::View);
        }
    }

    /// One step of a story: mostly a pair.
    fn step(&mut self) {
        match self.prng.below(60) {
            0 => self.select(),
            1 | 2 => self.back(),
            3..=5 => self.look(),
            _ => self.take(),
        }
    }

    /// A story from fresh: structured traffic or uniform bytes.
    fn story(&mut self, structured: bool) {
        self.open();
        for _ in 0..self.prng.within(60, 400) {
            if structured || self.prng.percent(10) {
                self.step();
            } else {
                let (first, second) = (self.prng.byte(), self.prng.byte());
                self.call(Call::Take(first, second));
                self.stand();
            }
        }
    }

    /// Puts the desk at this act count: log filled, slots kept.
    fn stand_at(&mut self, acts: u16) {
        let seed = self.prng.bits();
        self.arrange(Arrange::FillLog(0, usize::from(acts), seed));
        for s in 1..=usize::from(acts / 1_000) {
            let at = 1_000 * s as u16;
            if self.prng.percent(50) {
                self.arrange(Arrange::KeepSlot(s, at));
            } else {
                let seed = self.prng.bits();
                self.arrange(Arrange::OddSlot(s, seed, at));
            }
        }
        self.arrange(Arrange::Acts(acts));
        self.acts = u32::from(acts);
    }

    /// Calls that cross a slot both ways.
    fn cross(&mut self, count: usize) {
        for _ in 0..count {
            match self.prng.below(10) {
                0 => self.select(),
                1..=3 => self.back(),
                4 => self.look(),
                _ => self.take(),
            }
        }
    }

    /// Counts around 1,000 times s.
    fn thousand(&mut self) {
        self.open();
        let count = self.prng.within(0, 30);
        self.takes(count);
        let s = self.prng.pick(&[1, 1, 1, 2, 3, 7, 15]);
        let below = self.prng.within(0, 3);
        self.stand_at((1_000 * s - below) as u16);
        let count = self.prng.within(10, 40);
        self.cross(count);
    }

    /// Counts around 16,000.
    fn full(&mut self) {
        self.open();
        let count = self.prng.within(0, 30);
        self.takes(count);
        let below = self.prng.within(0, 2);
        self.stand_at((16_000 - below) as u16);
        for _ in 0..self.prng.within(8, 25) {
            match self.prng.below(8) {
                0 => self.select(),
                1 => self.back(),
                2 => self.look(),
                _ => self.take(),
            }
        }
    }

    /// Every call once, each judged by the same desk.
    fn every_call(&mut self) {
        let (first, second) = self.traffic.pair();
        let channel = self.prng.pick(&[0, 1, 2, 3]);
        let row = self.prng.pick(&[0, 1, 15, 16]);
        let far = self.prng.pick(&[0, 1, 5, self.acts, self.acts + 1, 70_000]);
        let mut calls = vec![
            Call::View,
            Call::Row(row),
            Call::Take(first, second),
            Call::Select(channel),
            Call::Back(far),
        ];
        for _ in 0..calls.len() {
            let at = self.prng.below(calls.len());
            let call = calls.swap_remove(at);
            self.call(call);
        }
    }

    /// A desk with random bits flipped or one field at its edge.
    fn damaged_desk(&mut self) {
        self.open();
        for _ in 0..self.prng.within(4, 12) {
            let count = self.prng.within(1, 20);
            self.takes(count);
            if self.prng.percent(40) {
                let (seed, acts) = (self.prng.bits(), self.prng.below(40) as u16);
                self.arrange(Arrange::OddDesk(seed, acts));
            }
            for _ in 0..self.prng.pick(&[1, 1, 1, 2]) {
                self.damage_desk();
            }
            self.every_call();
            if self.prng.percent(60) {
                self.open();
            }
        }
    }

    /// One change to the desk's record.
    fn damage_desk(&mut self) {
        self.damage(Part::Desk, 0);
    }

    /// One change to the record that starts at this place: a field at its edge, a
    /// bit flipped, a valid cell written, or counts made wrong. Where a cell is
    /// changed the counts are mended mostly, so that the cell decides.
    fn damage(&mut self, part: Part, start: usize) {
        let place = match self.prng.below(20) {
            0..=10 => {
                let (place, byte) = field_damage(&mut self.prng);
                self.arrange(Arrange::Poke(part, start + place, byte));
                place
            }
            11..=13 => {
                let place = self.prng.below(RECORD_BYTES);
                let bits = 1 << self.prng.below(8);
                self.arrange(Arrange::Flip(part, start + place, bits));
                place
            }
            14..=16 => {
                let (place, [code, pen]) = odd_cell(&mut self.prng);
                self.arrange(Arrange::Poke(part, start + place, code));
                self.arrange(Arrange::Poke(part, start + place + 1, pen));
                place
            }
            _ => return self.damage_counts(part, start),
        };
        if is_cell(place) && self.prng.percent(80) {
            self.arrange(Arrange::MendCounts(part, start));
        }
    }

    /// Counts of the record that starts at this place: one is wrong by one or in
    /// a bit, those of two rows are exchanged, or those of the two memories.
    fn damage_counts(&mut self, part: Part, start: usize) {
        let one = start + count_place(&mut self.prng);
        let arrange = match self.prng.below(8) {
            0..=3 => Arrange::Grow(part, one, self.prng.pick(&[1, 255])),
            4 => Arrange::Flip(part, one, 1 << self.prng.below(8)),
            5 | 6 => {
                let other = start + count_place(&mut self.prng);
                Arrange::Exchange(part, one, other, 1)
            }
            _ => {
                let displayed = start + DISPLAYED_COUNTS.start;
                let others = start + HIDDEN_COUNTS.start;
                Arrange::Exchange(part, displayed, others, HIDDEN_COUNTS.len())
            }
        };
        self.arrange(arrange);
    }

    /// Acts that are not well formed, needed by a step back or not.
    fn damaged_log(&mut self) {
        self.open();
        if self.prng.percent(50) {
            let acts = self.prng.within(1, 3_010) as u16;
            self.stand_at(acts);
        } else {
            let count = self.prng.within(5, 60);
            self.takes(count);
        }
        for _ in 0..self.prng.within(3, 8) {
            self.damage_log();
            for _ in 0..self.prng.within(1, 4) {
                match self.prng.below(6) {
                    0..=3 => self.back(),
                    4 => self.take(),
                    _ => self.select(),
                }
            }
        }
    }

    /// One act near the last, or anywhere: another kind, channel or byte.
    fn damage_log(&mut self) {
        let acts = self.acts as usize;
        let act = match self.prng.below(4) {
            0 => self.prng.below(16_000),
            1 => acts.min(15_999),
            2 => acts.saturating_sub(1),
            _ => self.prng.within(acts.saturating_sub(8), acts.min(15_999)),
        };
        let place = 3 * act;
        match self.prng.below(6) {
            0 => self.arrange(Arrange::Flip(Part::Log, place, 3)),
            1 => {
                let kind = self.prng.pick(&[0, 1, 2, 3, 255]);
                self.arrange(Arrange::Poke(Part::Log, place, kind));
            }
            2 => {
                let channel = self.prng.pick(&[0, 1, 2, 3]);
                self.arrange(Arrange::Poke(Part::Log, place, 2));
                self.arrange(Arrange::Poke(Part::Log, place + 1, channel));
                self.arrange(Arrange::Poke(Part::Log, place + 2, 0));
            }
            3 => {
                let place = place + self.prng.below(3);
                let byte = self.prng.byte();
                self.arrange(Arrange::Poke(Part::Log, place, byte));
            }
            4 => {
                let byte = self.prng.pick(&[0, 1, 0xEE]);
                self.arrange(Arrange::Fill(Part::Log, byte));
            }
            _ => {
                let byte = self.prng.byte();
                self.arrange(Arrange::Poke(Part::Log, place + 2, byte));
            }
        }
    }

    /// Slots with damage, with another count, or with another valid record.
    fn damaged_tray(&mut self) {
        self.open();
        let count = self.prng.within(0, 20);
        self.takes(count);
        let acts = self
            .prng
            .pick(&[998, 1_000, 1_001, 1_999, 2_000, 2_500, 3_001, 15_999]);
        self.stand_at(acts);
        for _ in 0..self.prng.within(3, 8) {
            self.damage_tray();
            for _ in 0..self.prng.within(1, 4) {
                match self.prng.below(6) {
                    0..=3 => self.back(),
                    4 => self.take(),
                    _ => self.look(),
                }
            }
        }
    }

    /// One slot, mostly the one that a step back starts from.
    fn damage_tray(&mut self) {
        let s = match self.acts as usize / 1_000 {
            0 => self.prng.within(1, 16),
            s if self.prng.percent(75) => s,
            _ => self.prng.within(1, 16),
        };
        let place = (s - 1) * RECORD_BYTES;
        match self.prng.below(10) {
            0..=3 => self.damage(Part::Tray, place),
            4 => self.damage_counts(Part::Tray, place),
            5 => {
                let byte = self.prng.pick(&[0, 1, 0xEE]);
                self.arrange(Arrange::Fill(Part::Tray, byte));
            }
            6 => {
                let seed = self.prng.bits();
                let other = self.prng.pick(&[0, 0, 0, 1, 1_000]);
                let acts = (1_000 * s as u16).wrapping_add(other);
                self.arrange(Arrange::OddSlot(s, seed, acts));
            }
            7 | 8 => {
                let seed = self.prng.bits();
                self.arrange(Arrange::OddSlot(s, seed, 1_000 * s as u16));
                let (field, byte) = fit_damage(&mut self.prng);
                self.arrange(Arrange::Poke(Part::Tray, place + field, byte));
            }
            _ => self.arrange(Arrange::KeepSlot(s, 1_000 * s as u16)),
        }
    }

    /// Wrong lengths of each buffer, alone and with another fault.
    fn lengths(&mut self) {
        self.open();
        let count = self.prng.within(0, 20);
        self.takes(count);
        for _ in 0..self.prng.within(10, 40) {
            match self.prng.below(8) {
                0 => self.damage_desk(),
                1 => self.open(),
                2 => self.arrange(Arrange::Acts(MOST_ACTS)),
                3 => self.take(),
                _ => self.wrong_length(),
            }
        }
    }

    /// A call with one or two buffers of another length.
    fn wrong_length(&mut self) {
        let (first, second) = self.traffic.pair();
        let channel = self.prng.pick(&[0, 1, 2, 3]);
        let row = self.prng.pick(&[0, 1, 15, 16]);
        let k = self.prng.pick(&[0, 1, 70_000]);
        let call = match self.prng.below(8) {
            0 => Call::Open,
            1 | 2 => Call::Take(first, second),
            3 => Call::Select(channel),
            4 => Call::Back(k),
            5 => Call::Row(row),
            6 => Call::View,
            _ => Call::LineWrite(first, second),
        };
        let mut lent = Lent::right(&call);
        for _ in 0..self.prng.pick(&[1, 1, 2]) {
            match self.prng.below(4) {
                0 => lent.desk = self.wrong(RECORD_BYTES),
                1 => lent.log = self.wrong(LOG_BYTES),
                2 => lent.tray = self.wrong(TRAY_BYTES),
                _ => lent.out = self.wrong(lent.out.clamp(LINE_BYTES, VIEW_BYTES)),
            }
        }
        self.steps.push(Step::Call(call, lent));
    }

    /// A length near this one, half of it, or none at all.
    fn wrong(&mut self, right: usize) -> usize {
        let lengths = [0, 1, right / 2, right - 1, right + 1, right + ROOM, right];
        self.prng.pick(&lengths)
    }

    /// Frame lines, written and read.
    fn lines(&mut self) {
        for _ in 0..self.prng.within(20, 60) {
            let (first, second) = (self.prng.byte(), self.prng.byte());
            if self.prng.percent(30) {
                self.call(Call::LineWrite(first, second));
            } else {
                let line = line(&mut self.prng, first, second);
                self.call(Call::LineRead(line));
            }
        }
    }

    /// Valid records that no run reaches, then traffic on them.
    fn odd_desks(&mut self) {
        self.open();
        for _ in 0..self.prng.within(5, 15) {
            let seed = self.prng.bits();
            let acts = self
                .prng
                .pick(&[0, 1, 700, 998, 999, 1_000, 15_998, 15_999, 16_000]);
            self.arrange(Arrange::OddDesk(seed, acts));
            self.acts = u32::from(acts);
            for _ in 0..self.prng.within(2, 20) {
                match self.prng.below(12) {
                    0 => self.look(),
                    1 => {
                        let (a, b) = (self.prng.byte_within(0x10, 0x1F), self.prng.byte());
                        self.call(Call::Take(traffic::odd(a), b));
                        self.stand();
                    }
                    _ => self.take(),
                }
            }
        }
    }

    /// 16,000 real acts and one more, then back across all slots.
    fn long(&mut self) {
        self.open();
        for number in 0..16_001u32 {
            let edge = number % 1_000;
            if self.prng.below(250) == 0 {
                let channel = self.prng.byte_within(1, 2);
                self.call(Call::Select(channel));
                self.traffic.follow(channel);
                self.stand();
            } else {
                self.take();
            }
            if edge <= 1 || edge == 999 {
                self.look();
            }
        }
        for k in [0, 1, 0, 998, 1, 1, 0, 2_500, 1, 3_499, 17] {
            self.call(Call::Back(k));
            self.acts -= k;
            self.take();
        }
        self.cross(60);
        let all = self.acts;
        self.call(Call::Back(all + 1));
        self.call(Call::Back(all));
        self.call(Call::Back(1));
        self.acts = 0;
        self.takes(5);
    }
}

/// A frame line, good or with one of the faults a reel may have.
pub fn line(prng: &mut Prng, first: u8, second: u8) -> Vec<u8> {
    let mut line = format!("{first:02X}{second:02X}\n").into_bytes();
    match prng.below(12) {
        0 => line.truncate(prng.below(LINE_BYTES)),
        1 => line.make_ascii_lowercase(),
        2 => line.insert(4, b'\r'),
        3 => line.insert(0, b'\n'),
        4 => line.splice(0..0, *b"\xEF\xBB\xBF").for_each(drop),
        5 => {
            let place = prng.below(LINE_BYTES);
            line[place] = prng.byte();
        }
        6 => {
            let place = prng.below(LINE_BYTES);
            line[place] = prng.pick(b"/:@G`gO \t\n\0");
        }
        7 => {
            let place = prng.below(LINE_BYTES + 1);
            line.insert(place, prng.pick(b"09AFaf \n"));
        }
        8 => line.extend_from_slice(b"94"),
        9 => line.extend_from_slice(b"9420\n"),
        _ => {}
    }
    line
}

impl fmt::Display for Call {
    fn fmt(&self, f: &mut fmt::Formatter<'_>) -> fmt::Result {
        match self {
            Call::Open => write!(f, "open"),
            Call::Take(first, second) => write!(f, "take {first:02X}{second:02X}"),
            Call::Select(channel) => write!(f, "select {channel}"),
            Call::Back(k) => write!(f, "back {k}"),
            Call::Row(row) => write!(f, "row {row}"),
            Call::View => write!(f, "view"),
            Call::LineWrite(first, second) => write!(f, "line write {first:02X}{second:02X}"),
            Call::LineRead(reel) => write!(f, "line read \"{}\"", reel.escape_ascii()),
        }
    }
}

impl fmt::Display for Step {
    fn fmt(&self, f: &mut fmt::Formatter<'_>) -> fmt::Result {
        match self {
            Step::Call(call, lent) => {
                write!(f, "{call}")?;
                let right = Lent::right(call);
                for (name, lent, right) in [
                    ("desk", lent.desk, right.desk),
                    ("log", lent.log, right.log),
                    ("tray", lent.tray, right.tray),
                    ("out", lent.out, right.out),
                ] {
                    if lent != right {
                        write!(f, ", {name} of {lent} bytes")?;
                    }
                }
                Ok(())
            }
            Step::Arrange(arrange) => write!(f, "({arrange:?})"),
        }
    }
}

#[cfg(test)]
mod tests {
    use super::*;

    #[test]
    fn a_script_is_a_function_of_seed_and_number() {
        for number in 0..40 {
            assert_eq!(script(5, number), script(5, number));
        }
        assert_ne!(script(5, 0), script(6, 0));
        assert_ne!(script(5, 0), script(5, 10));
    }

    /// What a step does to counts, and in which buffer.
    fn counts(step: &Step) -> Option<(&'static str, Part)> {
        match *step {
            Step::Arrange(Arrange::Grow(part, ..)) => Some(("grown", part)),
            Step::Arrange(Arrange::Exchange(part, ..)) => Some(("exchanged", part)),
            Step::Arrange(Arrange::MendCounts(part, ..)) => Some(("mended", part)),
            _ => None,
        }
    }

    #[test]
    fn counts_are_made_wrong_and_mended_in_desks_and_in_slots() {
        let steps: Vec<Step> = (0..200).flat_map(|number| script(1, number)).collect();
        for part in [Part::Desk, Part::Tray] {
            for what in ["grown", "exchanged", "mended"] {
                let met = steps
                    .iter()
                    .filter(|step| counts(step) == Some((what, part)));
                assert!(met.count() >= 5, "{what} {part:?}");
            }
        }
    }

    #[test]
    fn every_arrangement_stays_within_the_buffers() {
        let mut buffers = Buffers::default();
        for number in 0..600 {
            for step in script(2, number) {
                match step {
                    Step::Arrange(arrange) => buffers.arrange(&arrange),
                    Step::Call(_, lent) => {
                        assert!(lent.desk <= buffers.desk.len());
                        assert!(lent.log <= buffers.log.len());
                        assert!(lent.tray <= buffers.tray.len());
                        assert!(lent.out <= buffers.out.len());
                    }
                }
            }
        }
    }
}
