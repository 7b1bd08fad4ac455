//! A deterministic generator of test traffic for the caption desk.
//!
//! Everything here is a function of a seed number: the same seed gives the
//! same bytes on every machine. The crate knows the paper's numbers and codes,
//! but it decodes nothing and depends on no implementation.
//!
//! - [`prng`]: the small generator of numbers
//! - [`traffic`]: pairs, uniform or structured
//! - [`records`]: records that are valid though no run reaches them, and damage
//! - [`script`]: whole scripts of calls
//! - [`reels`]: reels for the register, good and bad
//! - [`screens`]: memories to be written as tapes, and those that cannot be
//! - [`texts`]: texts that reels are made from, good and bad

#![forbid(unsafe_code)]
#![warn(missing_docs)]

pub mod prng;
pub mod records;
pub mod reels;
pub mod screens;
pub mod script;
pub mod texts;
pub mod traffic;
