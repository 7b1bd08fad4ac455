//! The register as a process: reel in, register out.

use std::fs::{self, File};
use std::io;
use std::path::{Path, PathBuf};
use std::process::{Command, Stdio};

use gen::reels::reel;
use gen::traffic::Pair;

use crate::timing::{compare, seconds, Both};

/// How many processes make one timing.
const RUNS: usize = 5;

/// Runs the program on the reel, so many times.
fn run(program: &Path, reel: &Path) -> io::Result<()> {
    for _ in 0..RUNS {
        let status = Command::new(program)
            .stdin(File::open(reel)?)
            .stdout(Stdio::null())
            .status()?;
        if !status.success() {
            return Err(io::Error::other(format!("{} failed", program.display())));
        }
    }
    Ok(())
}

/// A file that is taken away in the end.
struct Scratch(PathBuf);

impl Drop for Scratch {
    fn drop(&mut self) {
        let _ = fs::remove_file(&self.0);
    }
}

/// Both programs on the reel with these frames.
pub fn register(ours: &Path, theirs: &Path, pairs: &[Pair]) -> io::Result<Both> {
    let name = format!("bench-{}.reel", std::process::id());
    let scratch = Scratch(std::env::temp_dir().join(name));
    fs::write(&scratch.0, reel(pairs))?;
    let both = compare(
        || seconds(&mut || run(ours, &scratch.0)),
        || seconds(&mut || run(theirs, &scratch.0)),
    )?;
    Ok(Both {
        ours: both.ours / RUNS as u32,
        ..both
    })
}
