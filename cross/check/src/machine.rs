//! A desk behind one trait, so that two implementations can be run alike.

use paper::numbers::packed;

/// The nine calls, by the signatures of the exported functions. A result is the
/// paper's number times 65,536, plus the value.
pub trait Machine {
    /// Opens the desk.
    fn open(&self, desk: &mut [u8], log: &mut [u8], tray: &mut [u8]) -> u32;
    /// Takes a pair.
    fn take(&self, desk: &mut [u8], log: &mut [u8], tray: &mut [u8], first: u8, second: u8) -> u32;
    /// Selects a channel.
    fn select(&self, desk: &mut [u8], log: &mut [u8], tray: &mut [u8], channel: u8) -> u32;
    /// Steps back by `k` acts.
    fn back(&self, desk: &mut [u8], log: &mut [u8], tray: &mut [u8], k: u32) -> u32;
    /// Counts the non-empty displayed cells of a row.
    fn row(&self, desk: &[u8], row: u8) -> u32;
    /// Copies what the view hands back.
    fn view(&self, desk: &[u8], out: &mut [u8]) -> u32;
    /// Writes a frame line.
    fn line_write(&self, out: &mut [u8], first: u8, second: u8) -> u32;
    /// Reads the first frame line.
    fn line_read(&self, reel: &[u8]) -> u32;
    /// Writes the tape of a memory.
    fn tape(&self, memory: &[u8], channel: u8, out: &mut [u8]) -> u32;
}

/// The implementation from the paper alone.
#[derive(Clone, Copy, Debug)]
pub struct Paper;

impl Machine for Paper {
    fn open(&self, desk: &mut [u8], log: &mut [u8], tray: &mut [u8]) -> u32 {
        packed(paper::desk::open(desk, log, tray))
    }

    fn take(&self, desk: &mut [u8], log: &mut [u8], tray: &mut [u8], first: u8, second: u8) -> u32 {
        packed(paper::desk::take(desk, log, tray, first, second))
    }

    fn select(&self, desk: &mut [u8], log: &mut [u8], tray: &mut [u8], channel: u8) -> u32 {
        packed(paper::desk::select(desk, log, tray, channel))
    }

    fn back(&self, desk: &mut [u8], log: &mut [u8], tray: &mut [u8], k: u32) -> u32 {
        packed(paper::desk::back(desk, log, tray, k))
    }

    fn row(&self, desk: &[u8], row: u8) -> u32 {
        packed(paper::desk::row(desk, row))
    }

    fn view(&self, desk: &[u8], out: &mut [u8]) -> u32 {
        packed(paper::desk::view_into(desk, out))
    }

    fn line_write(&self, out: &mut [u8], first: u8, second: u8) -> u32 {
        packed(paper::lines::write(out, first, second))
    }

    fn line_read(&self, reel: &[u8]) -> u32 {
        packed(paper::lines::read(reel))
    }

    fn tape(&self, memory: &[u8], channel: u8, out: &mut [u8]) -> u32 {
        packed(paper::tape::tape(memory, channel, out))
    }
}

/// The archive `libloikrasun.a`.
#[cfg(feature = "archive")]
#[derive(Clone, Copy, Debug)]
pub struct Archive;

#[cfg(feature = "archive")]
impl Machine for Archive {
    fn open(&self, desk: &mut [u8], log: &mut [u8], tray: &mut [u8]) -> u32 {
        archive::open(desk, log, tray)
    }

    fn take(&self, desk: &mut [u8], log: &mut [u8], tray: &mut [u8], first: u8, second: u8) -> u32 {
        archive::take(desk, log, tray, first, second)
    }

    fn select(&self, desk: &mut [u8], log: &mut [u8], tray: &mut [u8], channel: u8) -> u32 {
        archive::select(desk, log, tray, channel)
    }

    fn back(&self, desk: &mut [u8], log: &mut [u8], tray: &mut [u8], k: u32) -> u32 {
        archive::back(desk, log, tray, k)
    }

    fn row(&self, desk: &[u8], row: u8) -> u32 {
        archive::row(desk, row)
    }

    fn view(&self, desk: &[u8], out: &mut [u8]) -> u32 {
        archive::view(desk, out)
    }

    fn line_write(&self, out: &mut [u8], first: u8, second: u8) -> u32 {
        archive::line_write(out, first, second)
    }

    fn line_read(&self, reel: &[u8]) -> u32 {
        archive::line_read(reel)
    }

    fn tape(&self, memory: &[u8], channel: u8, out: &mut [u8]) -> u32 {
        archive::tape(memory, channel, out)
    }
}

/// What the paper is compared with: the archive, if it is linked.
#[cfg(feature = "archive")]
pub const OTHER: Archive = Archive;

/// What the paper is compared with: itself, as long as no archive is linked.
#[cfg(not(feature = "archive"))]
pub const OTHER: Paper = Paper;
