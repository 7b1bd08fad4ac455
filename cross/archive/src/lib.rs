//! The Rust binding of `libloikrasun.a`: its exported functions, each as a safe
//! function over slices. `tools/archive` builds the archive; for C and C++ the
//! same functions stand in `include/loikrasun.h`, and what each gives is said
//! there.
//!
//! The result is one `u32`: the paper's number times 65,536, plus the value.
//! Slices pass as pointer and length. [`number`] and [`value`] take a result
//! apart.
//!
//! What a caller of the exported functions owes. Nothing checks these, and
//! nothing is promised where one is broken:
//!
//! - A pointer is good for the length given with it: that many bytes can be
//!   read there, and written where it is not const. It is never null, not even
//!   with length 0.
//! - No two buffers lent to one call overlap.
//! - While a call runs, nobody else writes to a buffer lent to it, nor reads one
//!   lent to be written.
//!
//! A slice keeps all of them, so the functions here are safe. The archive has no
//! state of its own and keeps no pointer after a call.

#![warn(missing_docs)]

extern "C" {
    fn loikrasun_open(
        desk: *mut u8,
        desk_length: usize,
        log: *mut u8,
        log_length: usize,
        tray: *mut u8,
        tray_length: usize,
    ) -> u32;

    fn loikrasun_take(
        desk: *mut u8,
        desk_length: usize,
        log: *mut u8,
        log_length: usize,
        tray: *mut u8,
        tray_length: usize,
        first: u8,
        second: u8,
    ) -> u32;

    fn loikrasun_select(
        desk: *mut u8,
        desk_length: usize,
        log: *mut u8,
        log_length: usize,
        tray: *mut u8,
        tray_length: usize,
        channel: u8,
    ) -> u32;

    fn loikrasun_back(
        desk: *mut u8,
        desk_length: usize,
        log: *mut u8,
        log_length: usize,
        tray: *mut u8,
        tray_length: usize,
        k: u32,
    ) -> u32;

    fn loikrasun_row(desk: *const u8, desk_length: usize, row: u8) -> u32;

    fn loikrasun_view(desk: *const u8, desk_length: usize, out: *mut u8, out_length: usize) -> u32;

    fn loikrasun_line_write(out: *mut u8, out_length: usize, first: u8, second: u8) -> u32;

    fn loikrasun_line_read(reel: *const u8, reel_length: usize) -> u32;

    fn loikrasun_tape(
        memory: *const u8,
        memory_length: usize,
        channel: u8,
        out: *mut u8,
        out_length: usize,
    ) -> u32;
}

/// Bytes of a desk's record.
pub const DESK_LENGTH: usize = 1984;
/// Bytes of the log.
pub const LOG_LENGTH: usize = 48_000;
/// Bytes of the tray.
pub const TRAY_LENGTH: usize = 31_744;
/// Bytes that a view is copied into.
pub const VIEW_LENGTH: usize = 960;
/// Bytes of a frame line.
pub const LINE_LENGTH: usize = 5;
/// Bytes that a tape is written into.
pub const TAPE_LENGTH: usize = 4096;
/// The most acts that can stand.
pub const MOST_ACTS: u32 = 16_000;

/// The paper's number in a result: 0 for done, 1 to 7 for a refusal.
pub fn number(result: u32) -> u32 {
    result / 65536
}

/// The value in a result; 0 on a refusal.
pub fn value(result: u32) -> u32 {
    result % 65536
}

// What makes every call below sound: each pointer comes with the length of the
// slice it was taken from and is never null, mutable slices are borrowed alone
// for the whole call, and the archive keeps no pointer after it returns.

/// `loikrasun_open`: `desk`, `log` and `tray`.
pub fn open(desk: &mut [u8], log: &mut [u8], tray: &mut [u8]) -> u32 {
    // SAFETY: pointers with the lengths of live slices, see above.
    unsafe {
        loikrasun_open(
            desk.as_mut_ptr(),
            desk.len(),
            log.as_mut_ptr(),
            log.len(),
            tray.as_mut_ptr(),
            tray.len(),
        )
    }
}

/// `loikrasun_take`: the three, and the two raw bytes of a pair.
pub fn take(desk: &mut [u8], log: &mut [u8], tray: &mut [u8], first: u8, second: u8) -> u32 {
    // SAFETY: pointers with the lengths of live slices, see above.
    unsafe {
        loikrasun_take(
            desk.as_mut_ptr(),
            desk.len(),
            log.as_mut_ptr(),
            log.len(),
            tray.as_mut_ptr(),
            tray.len(),
            first,
            second,
        )
    }
}

/// `loikrasun_select`: the three, and channel 1 or 2.
pub fn select(desk: &mut [u8], log: &mut [u8], tray: &mut [u8], channel: u8) -> u32 {
    // SAFETY: pointers with the lengths of live slices, see above.
    unsafe {
        loikrasun_select(
            desk.as_mut_ptr(),
            desk.len(),
            log.as_mut_ptr(),
            log.len(),
            tray.as_mut_ptr(),
            tray.len(),
            channel,
        )
    }
}

/// `loikrasun_back`: the three, and how many acts to step back.
pub fn back(desk: &mut [u8], log: &mut [u8], tray: &mut [u8], k: u32) -> u32 {
    // SAFETY: pointers with the lengths of live slices, see above.
    unsafe {
        loikrasun_back(
            desk.as_mut_ptr(),
            desk.len(),
            log.as_mut_ptr(),
            log.len(),
            tray.as_mut_ptr(),
            tray.len(),
            k,
        )
    }
}

/// `loikrasun_row`: `desk`, and row 1 to 15.
pub fn row(desk: &[u8], row: u8) -> u32 {
    // SAFETY: a pointer with the length of a live slice, see above.
    unsafe { loikrasun_row(desk.as_ptr(), desk.len(), row) }
}

/// `loikrasun_view`: `desk`, and 960 bytes for a copy of what the view hands
/// back.
pub fn view(desk: &[u8], out: &mut [u8]) -> u32 {
    // SAFETY: pointers with the lengths of live slices, see above.
    unsafe { loikrasun_view(desk.as_ptr(), desk.len(), out.as_mut_ptr(), out.len()) }
}

/// `loikrasun_line_write`: 5 bytes, and the two bytes of a pair.
pub fn line_write(out: &mut [u8], first: u8, second: u8) -> u32 {
    // SAFETY: a pointer with the length of a live slice, see above.
    unsafe { loikrasun_line_write(out.as_mut_ptr(), out.len(), first, second) }
}

/// `loikrasun_line_read`: a reel: the pair of its first line as
/// `first * 256 + second`; an empty reel gives 0; else 5.
pub fn line_read(reel: &[u8]) -> u32 {
    // SAFETY: a pointer with the length of a live slice, see above.
    unsafe { loikrasun_line_read(reel.as_ptr(), reel.len()) }
}

/// `loikrasun_tape`: a memory of 960 bytes, channel 1 or 2, and 4,096 bytes for
/// the pairs that load and show that memory.
pub fn tape(memory: &[u8], channel: u8, out: &mut [u8]) -> u32 {
    // SAFETY: pointers with the lengths of live slices, see above.
    unsafe {
        loikrasun_tape(
            memory.as_ptr(),
            memory.len(),
            channel,
            out.as_mut_ptr(),
            out.len(),
        )
    }
}
