//! The calls on three lent buffers, and decoding alone.

use std::convert::Infallible;
use std::hint::black_box;

use gen::traffic::Pair;
use paper::decode::Decoder;
use paper::desk::{LOG_BYTES, RECORD_BYTES, TRAY_BYTES};

use crate::timing::{compare_sure, seconds};

/// The acts of a stretch between two slots, but one.
const STRETCH: usize = 999;

/// The three buffers of a desk.
struct Desk {
    record: Vec<u8>,
    log: Vec<u8>,
    tray: Vec<u8>,
}

impl Desk {
    /// A newly opened desk that was given these pairs.
    fn after(pairs: &[Pair]) -> Desk {
        let mut desk = Desk {
            record: vec![0; RECORD_BYTES],
            log: vec![0; LOG_BYTES],
            tray: vec![0; TRAY_BYTES],
        };
        archive::open(&mut desk.record, &mut desk.log, &mut desk.tray);
        desk.take(pairs);
        desk
    }

    /// Gives the archive these pairs.
    fn take(&mut self, pairs: &[Pair]) {
        for &(first, second) in pairs {
            archive::take(
                &mut self.record,
                &mut self.log,
                &mut self.tray,
                first,
                second,
            );
        }
    }

    /// Gives the plain implementation these pairs.
    fn take_plainly(&mut self, pairs: &[Pair]) {
        for &(first, second) in pairs {
            let taken = paper::desk::take(
                &mut self.record,
                &mut self.log,
                &mut self.tray,
                first,
                second,
            );
            black_box(taken).ok();
        }
    }

    /// Steps back by none: the record is made anew from slot and log.
    fn remake(&mut self) {
        archive::back(&mut self.record, &mut self.log, &mut self.tray, 0);
    }

    /// The same by the plain implementation.
    fn remake_plainly(&mut self) {
        let made = paper::desk::back(&mut self.record, &mut self.log, &mut self.tray, 0);
        black_box(made).ok();
    }
}

/// The time of this for every one of them.
fn each<T>(all: &mut [T], mut act: impl FnMut(&mut T)) -> Result<f64, Infallible> {
    seconds(&mut || {
        all.iter_mut().for_each(&mut act);
        Ok(())
    })
}

/// Decoding alone: what the archive's step back by none takes for 999 acts
/// more than for none, beside a plain decoder given the same pairs.
pub fn decode(pairs: &[Pair]) -> f64 {
    let stretches: Vec<&[Pair]> = pairs.chunks_exact(STRETCH).collect();
    let mut full: Vec<Desk> = stretches.iter().map(|pairs| Desk::after(pairs)).collect();
    let mut none: Vec<Desk> = stretches.iter().map(|_| Desk::after(&[])).collect();
    let mut plain = stretches;
    let both = compare_sure(
        || Ok(each(&mut full, Desk::remake)? - each(&mut none, Desk::remake)?),
        || {
            each(&mut plain, |pairs| {
                let mut decoder = Decoder::fresh(1);
                for &(first, second) in pairs.iter() {
                    decoder.take(first, second);
                }
                black_box(&decoder);
            })
        },
    );
    both.ratio
}

/// A take with its check of the record, for each of these pairs.
pub fn take(pairs: &[Pair]) -> f64 {
    let mut desks = [Desk::after(&[])];
    let mut plain = [Desk::after(&[])];
    let both = compare_sure(
        || {
            desks = [Desk::after(&[])];
            each(&mut desks, |desk| desk.take(pairs))
        },
        || {
            plain = [Desk::after(&[])];
            each(&mut plain, |desk| desk.take_plainly(pairs))
        },
    );
    both.ratio
}

/// A step back by none with 999 acts behind a slot.
pub fn back(pairs: &[Pair]) -> f64 {
    let starts: Vec<&[Pair]> = pairs.chunks_exact(1_000 + STRETCH).collect();
    let mut desks: Vec<Desk> = starts.iter().map(|pairs| Desk::after(pairs)).collect();
    let mut plain: Vec<Desk> = starts.iter().map(|pairs| Desk::after(pairs)).collect();
    let both = compare_sure(
        || each(&mut desks, Desk::remake),
        || each(&mut plain, Desk::remake_plainly),
    );
    both.ratio
}
