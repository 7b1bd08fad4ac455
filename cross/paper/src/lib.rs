//! The line 21 caption desk of the archive's paper, written from the paper alone.
//!
//! This crate shares no line with the proved implementation. It is plain
//! Rust without a proof: a second reading of the same paper, to be run beside
//! the first one and compared with it byte for byte. Doc comments quote the line
//! of the paper that a function implements; `docs/PROMISES.md` has them all.
//!
//! - [`bytes`]: parity and the low seven bits
//! - [`codes`]: what a control pair means
//! - [`decode`]: the pair rules and what the codes do, on a plain struct
//! - [`desk`]: record, log and tray on lent slices, with refusals
//! - [`judge`]: a tape of anyone's making, held against the request
//! - [`lines`]: frame lines and the reader of a reel
//! - [`numbers`]: the numbers given back
//! - [`register`]: reel in, register out
//! - [`sums`]: long bytes as the stored outputs tell them
//! - [`tape`]: the pairs that load and show a memory
//! - [`texts`]: text in, reel out (docs/TAPES.md)

#![forbid(unsafe_code)]
#![warn(missing_docs)]

pub mod bytes;
pub mod codes;
pub mod decode;
pub mod desk;
pub mod judge;
pub mod lines;
pub mod numbers;
pub mod register;
pub mod sums;
pub mod tape;
pub mod texts;
