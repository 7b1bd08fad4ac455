//! "The register program reads a reel from standard input, channel 1 … the
//! program only reads and prints": one read, one write.

use std::io::{self, Read, Write};

/// "reads a reel from standard input" and prints "all of" its register.
fn main() -> io::Result<()> {
    let mut reel = Vec::new();
    io::stdin().lock().read_to_end(&mut reel)?;
    io::stdout()
        .lock()
        .write_all(&paper::register::register(&reel))
}
