//! "all else is run by a program and compared": what the programs under
//! `crates/` must print is what this implementation prints of the same input,
//! and so is the register of each sample tape.

use std::fs::{self, File};
use std::path::Path;
use std::process::Command;

/// Shows that this program prints, for the stored input of the one under
/// `crates/`, that one's stored output.
fn prints_the_stored_output(program: &str, stored: &str) {
    let crates = Path::new(env!("CARGO_MANIFEST_DIR")).join("../../crates");
    let stored = crates.join(stored);
    let printed = Command::new(program)
        .stdin(File::open(stored.join("stdin")).unwrap())
        .output()
        .unwrap();
    let expected = fs::read(stored.join("stdout")).unwrap();
    assert!(printed.status.success());
    assert!(
        printed.stdout == expected,
        "{program} prints another output than the one stored"
    );
}

#[test]
fn stored_registers_are_the_papers() {
    prints_the_stored_output(env!("CARGO_BIN_EXE_paper_reels"), "reels_main");
}

#[test]
fn stored_answers_of_the_desk_are_the_papers() {
    prints_the_stored_output(env!("CARGO_BIN_EXE_paper_desk"), "desk_main");
}

#[test]
fn stored_registers_of_the_sample_tapes_are_the_papers() {
    let tapes = Path::new(env!("CARGO_MANIFEST_DIR")).join("../../tapes");
    let mut held = 0;
    for file in fs::read_dir(tapes).unwrap() {
        let reel = file.unwrap().path();
        if reel.extension().is_some_and(|name| name == "reel") {
            let stored = fs::read(reel.with_extension("register")).unwrap();
            let register = paper::register::register(&fs::read(&reel).unwrap());
            assert!(register == stored, "{}", reel.display());
            held += 1;
        }
    }
    assert!(held >= 9, "{held}");
}
