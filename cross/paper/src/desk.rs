//! Record, log and tray on lent slices: open, take, select, back, row, view.
//!
//! "Order: 1, 6 for the desk, 2, 3, 4, 6 for start and acts, 5. A refusal
//! changes no byte." Every call here first makes all its checks in that order
//! and writes only after the last of them.

mod record;

use std::ops::Range;

use crate::numbers::{Answer, Refusal};

pub(crate) use record::read_grid;
pub use record::Standing;

/// "The desk is one record of 1,984 bytes".
pub const RECORD_BYTES: usize = 1_984;
/// "The log is 48,000 bytes, three an act".
pub const LOG_BYTES: usize = 48_000;
/// "The tray is 31,744 bytes, slots 1 to 16."
pub const TRAY_BYTES: usize = 31_744;
/// "64–1023 displayed": the bytes of a view.
pub const VIEW_BYTES: usize = 960;
/// "acts up to 16,000".
pub const MOST_ACTS: u16 = 16_000;
/// "When the act count reaches 1,000 times s, the record is kept in slot s."
pub const ACTS_A_SLOT: u16 = 1_000;
/// "three an act".
const ACT_BYTES: usize = 3;

/// "one record of 1,984 bytes".
pub type Record = [u8; RECORD_BYTES];

/// "The log is 48,000 bytes, three an act: 1 and the two raw bytes, or 2,
/// channel, 0."
#[derive(Clone, Copy, Debug, PartialEq, Eq)]
enum Act {
    Pair(u8, u8),
    Select(u8),
}

impl Act {
    /// "1 and the two raw bytes, or 2, channel, 0."
    fn bytes(self) -> [u8; ACT_BYTES] {
        match self {
            Act::Pair(first, second) => [1, first, second],
            Act::Select(channel) => [2, channel, 0],
        }
    }

    /// "the acts from there to m must be well formed".
    fn read(bytes: &[u8]) -> Result<Act, Refusal> {
        match *bytes {
            [1, first, second] => Ok(Act::Pair(first, second)),
            [2, channel @ 1..=2, 0] => Ok(Act::Select(channel)),
            _ => Err(Refusal::Invalid),
        }
    }
}

impl Standing {
    /// "Selecting … only the act count goes on, by one as for a pair."
    fn act(&mut self, act: Act) {
        match act {
            Act::Pair(first, second) => self.decoder.take(first, second),
            Act::Select(channel) => self.decoder.select(channel),
        }
        self.acts += 1;
    }
}

/// "The record of a slot is written straight into its own 1,984 bytes of the
/// tray": the place of slot s, from 1.
fn slot(s: u16) -> Range<usize> {
    let end = usize::from(s) * RECORD_BYTES;
    end - RECORD_BYTES..end
}

/// The three buffers of a desk, lent with the right lengths.
struct Lent<'a> {
    desk: &'a mut Record,
    log: &'a mut [u8; LOG_BYTES],
    tray: &'a mut [u8; TRAY_BYTES],
}

impl<'a> Lent<'a> {
    /// "a lent buffer has a wrong length": 1.
    fn new(desk: &'a mut [u8], log: &'a mut [u8], tray: &'a mut [u8]) -> Result<Lent<'a>, Refusal> {
        Ok(Lent {
            desk: desk.try_into().map_err(|_| Refusal::Length)?,
            log: log.try_into().map_err(|_| Refusal::Length)?,
            tray: tray.try_into().map_err(|_| Refusal::Length)?,
        })
    }

    /// "16,000 acts stand already": 3; else the act is decoded, logged in its
    /// own three bytes, and "When the act count reaches 1,000 times s, the
    /// record is kept in slot s." Gives the "act count".
    fn stand(&mut self, mut standing: Standing, act: Act) -> Answer {
        if standing.acts >= MOST_ACTS {
            return Err(Refusal::Full);
        }
        let place = usize::from(standing.acts) * ACT_BYTES;
        standing.act(act);
        self.log[place..place + ACT_BYTES].copy_from_slice(&act.bytes());
        standing.store(self.desk);
        if standing.acts.is_multiple_of(ACTS_A_SLOT) {
            standing.store(&mut self.tray[slot(standing.acts / ACTS_A_SLOT)]);
        }
        Ok(standing.acts)
    }

    /// "the start is slot s, s the whole thousands in m, or the fresh record if
    /// s is 0. It must be valid with count 1,000 times s".
    fn start(&self, s: u16) -> Result<Standing, Refusal> {
        if s == 0 {
            return Ok(Standing::FRESH);
        }
        let start = Standing::load(&self.tray[slot(s)])?;
        if start.acts == ACTS_A_SLOT * s {
            Ok(start)
        } else {
            Err(Refusal::Invalid)
        }
    }

    /// "the acts from there to m must be well formed. They are replayed".
    fn replay(&self, mut standing: Standing, m: u16) -> Result<Standing, Refusal> {
        let acts = usize::from(standing.acts) * ACT_BYTES..usize::from(m) * ACT_BYTES;
        for bytes in self.log[acts].chunks_exact(ACT_BYTES) {
            standing.act(Act::read(bytes)?);
        }
        Ok(standing)
    }

    /// "the log after act m and slots above s become zero."
    fn forget_after(&mut self, m: u16, s: u16) {
        self.log[usize::from(m) * ACT_BYTES..].fill(0);
        self.tray[usize::from(s) * RECORD_BYTES..].fill(0);
    }
}

/// "Opening writes the fresh record and zeros." "Opening refuses only with 1."
/// Gives 0, the act count.
pub fn open(desk: &mut [u8], log: &mut [u8], tray: &mut [u8]) -> Answer {
    let lent = Lent::new(desk, log, tray)?;
    Standing::FRESH.store(lent.desk);
    lent.log.fill(0);
    lent.tray.fill(0);
    Ok(0)
}

/// "take 9420": one pair stands as an act. Refusals: "1, 6 for the desk", 3.
pub fn take(desk: &mut [u8], log: &mut [u8], tray: &mut [u8], first: u8, second: u8) -> Answer {
    let mut lent = Lent::new(desk, log, tray)?;
    let standing = Standing::load(lent.desk)?;
    lent.stand(standing, Act::Pair(first, second))
}

/// "Selecting channel 1 or 2, the present one too (house)". Refusals: "1, 6
/// for the desk, 2, 3".
pub fn select(desk: &mut [u8], log: &mut [u8], tray: &mut [u8], channel: u8) -> Answer {
    let mut lent = Lent::new(desk, log, tray)?;
    let standing = Standing::load(lent.desk)?;
    if !(1..=2).contains(&channel) {
        return Err(Refusal::Range);
    }
    lent.stand(standing, Act::Select(channel))
}

/// "Back k, with m acts to stand". "Back 0 is allowed." Refusals: "1, 6 for
/// the desk", 4, "6 for start and acts". Gives m.
pub fn back(desk: &mut [u8], log: &mut [u8], tray: &mut [u8], k: u32) -> Answer {
    let mut lent = Lent::new(desk, log, tray)?;
    let standing = Standing::load(lent.desk)?;
    let m = u16::try_from(k)
        .ok()
        .and_then(|k| standing.acts.checked_sub(k))
        .ok_or(Refusal::TooFar)?;
    let s = m / ACTS_A_SLOT;
    let start = lent.start(s)?;
    lent.replay(start, m)?.store(lent.desk);
    lent.forget_after(m, s);
    Ok(m)
}

/// "Asked for a row, the desk gives the number of its non-empty displayed
/// cells." Refusals: 1, 6, 2.
pub fn row(desk: &[u8], row: u8) -> Answer {
    let standing = Standing::load(desk)?;
    let index = usize::from(row).checked_sub(1).ok_or(Refusal::Range)?;
    let cells = standing.decoder.displayed().get(index);
    let number = cells.map(record::filled).ok_or(Refusal::Range)?;
    Ok(number.into())
}

/// "the view returns bytes 64 to 1023 of the lent record, or an empty part on
/// refusal." The refusal's number comes in the place of the empty part: 1, 6.
pub fn view(desk: &[u8]) -> Result<&[u8], Refusal> {
    Standing::load(desk)?;
    Ok(&desk[record::DISPLAYED])
}

/// What `loikrasun_view` does (include/loikrasun.h): what the view hands back is
/// copied into 960 bytes, else 1. Gives 0.
pub fn view_into(desk: &[u8], out: &mut [u8]) -> Answer {
    if out.len() != VIEW_BYTES {
        return Err(Refusal::Length);
    }
    out.copy_from_slice(view(desk)?);
    Ok(0)
}

/// "Opening writes the fresh record": its 1,984 bytes.
pub fn fresh_record() -> Record {
    let mut record = [0; RECORD_BYTES];
    Standing::FRESH.store(&mut record);
    record
}

#[cfg(test)]
mod tests {
    use super::*;

    #[test]
    fn acts_are_read_back_as_written() {
        for act in [
            Act::Pair(0, 0),
            Act::Pair(255, 1),
            Act::Select(1),
            Act::Select(2),
        ] {
            assert_eq!(Act::read(&act.bytes()), Ok(act));
        }
    }

    #[test]
    fn all_other_acts_are_ill_formed() {
        let ill = [
            [0, 0, 0],
            [2, 0, 0],
            [2, 3, 0],
            [2, 1, 1],
            [3, 0, 0],
            [255, 1, 0],
        ];
        for bytes in ill {
            assert_eq!(Act::read(&bytes), Err(Refusal::Invalid), "{bytes:?}");
        }
    }
}
