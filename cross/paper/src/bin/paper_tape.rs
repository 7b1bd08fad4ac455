//! "prints the reel of a text" that stands on standard input; "The first wrong
//! line is told on standard error, no reel is printed, and the status is 1".
//!
//! Reels that are kept beside their texts are written here, and not by the
//! proved program:
//!
//! ```text
//! cargo run --release --offline --quiet --bin paper_tape \
//!     < ../tapes/NAME.text > ../tapes/NAME.reel
//! ```

use std::io::{self, Read, Write};
use std::process::ExitCode;

/// One read, one write.
fn main() -> io::Result<ExitCode> {
    let mut text = Vec::new();
    io::stdin().lock().read_to_end(&mut text)?;
    match paper::texts::reel(&text) {
        Ok(reel) => {
            io::stdout().lock().write_all(&reel)?;
            Ok(ExitCode::SUCCESS)
        }
        Err(complaint) => {
            eprintln!("{complaint}");
            Ok(ExitCode::FAILURE)
        }
    }
}
