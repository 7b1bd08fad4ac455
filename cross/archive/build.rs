//! Links `libloikrasun.a` from the folder that LOIKRASUN_ARCHIVE_DIR names,
//! else from where `tools/archive` writes it.

use std::env;
use std::path::PathBuf;
use std::process::exit;

const FOLDER: &str = "LOIKRASUN_ARCHIVE_DIR";

fn main() {
    println!("cargo:rerun-if-env-changed={FOLDER}");
    let folder = folder();
    let archive = folder.join("libloikrasun.a");
    if !archive.is_file() {
        eprintln!("{} is not there: run tools/archive", archive.display());
        exit(1);
    }
    println!("cargo:rerun-if-changed={}", archive.display());
    println!("cargo:rustc-link-search=native={}", folder.display());
    println!("cargo:rustc-link-lib=static=loikrasun");
}

/// The folder of the archive.
fn folder() -> PathBuf {
    env::var_os(FOLDER).map_or_else(
        || PathBuf::from(env!("CARGO_MANIFEST_DIR")).join("../../target/staticlib"),
        PathBuf::from,
    )
}
