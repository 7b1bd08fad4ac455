//! The archive's time beside the plain Rust implementation's, on the same
//! inputs, with buffers in the same state.
//!
//! ```text
//! bench [REGISTER PAPER_REGISTER]
//! ```
//!
//! The two programs are timed as processes where they are named.
//! Every figure is a ratio, the archive's time over the other's: below 1 the
//! archive is faster. The two are timed in turn, so that a slow moment of the
//! machine meets both, and the median of the turns is printed.

#![forbid(unsafe_code)]

mod desks;
mod processes;
mod tapes;
mod timing;

use std::env;
use std::path::Path;
use std::process::ExitCode;

use gen::traffic::{live, structured, Pair};

/// The most frames that a reel may have.
const MOST_FRAMES: usize = 16_000;

/// The inputs: traffic over all codes with faults, and live captions.
fn inputs() -> [(&'static str, Vec<Pair>); 2] {
    [
        ("mixed", structured(1, MOST_FRAMES)),
        ("live", live(1, MOST_FRAMES)),
    ]
}

/// A line of the table.
fn print(what: &str, traffic: &str, ratio: f64, target: &str) {
    println!("{what:<28} {traffic:<6} {ratio:>6.2}  {target}");
}

/// The calls of the archive beside those of the plain implementation.
fn print_desks() {
    for (traffic, pairs) in inputs() {
        print("decode", traffic, desks::decode(&pairs), "1.25");
        print("take", traffic, desks::take(&pairs), "1.00");
        print(
            "back from 999 after a slot",
            traffic,
            desks::back(&pairs),
            "-",
        );
    }
}

/// The tapes of the dearest screen and of a caption of two rows.
fn print_tapes() {
    for (screen, memory) in [("full", tapes::dearest()), ("two", tapes::caption())] {
        let both = tapes::tape(&memory);
        print("tape", screen, both.ratio, "-");
        println!("    {} ns a tape", both.ours.as_nanos());
    }
}

/// The register as a process, and how its time grows with the frames.
fn print_registers(ours: &Path, theirs: &Path) -> std::io::Result<()> {
    for (traffic, pairs) in inputs() {
        let both = processes::register(ours, theirs, &pairs)?;
        print("register as a process", traffic, both.ratio, "1.25");
        let pairs_a_second = pairs.len() as f64 / both.ours.as_secs_f64();
        println!("    {:.1} million pairs a second", pairs_a_second / 1e6);
        for frames in [2_000, 4_000, 8_000, MOST_FRAMES] {
            let both = processes::register(ours, theirs, &pairs[..frames])?;
            let each = both.ours.as_nanos() / frames as u128;
            println!("    {frames:>6} frames: {each:>5} ns a frame");
        }
    }
    Ok(())
}

/// Prints the table; ends with 2 where a program does not run.
fn main() -> ExitCode {
    let words: Vec<String> = env::args().skip(1).collect();
    println!("{:<28} {:<6} {:>6}  target", "", "input", "ratio");
    print_desks();
    print_tapes();
    let [ours, theirs] = words.as_slice() else {
        return ExitCode::SUCCESS;
    };
    match print_registers(Path::new(ours), Path::new(theirs)) {
        Ok(()) => ExitCode::SUCCESS,
        Err(error) => {
            eprintln!("bench: {error}");
            ExitCode::from(2)
        }
    }
}
