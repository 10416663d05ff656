//! Finds `libyildegga.a`, which `rt` makes and cargo does not, and has it linked.
#![forbid(unsafe_code)]

use std::env;
use std::path::{self, PathBuf};

/// The variable that names the archive's folder, which is the repository's `target/staticlib` where it is not set.
const FOLDER: &str = "YILDEGGA_LIB_DIR";

fn main() {
    println!("cargo::rerun-if-env-changed={FOLDER}");
    let folder = match env::var_os(FOLDER) {
        Some(folder) => PathBuf::from(folder),
        None => PathBuf::from(env!("CARGO_MANIFEST_DIR")).join("../../target/staticlib"),
    };
    let folder = path::absolute(&folder).unwrap_or(folder); // so that the message says where it was looked for
    let archive = folder.join("libyildegga.a");
    // A new archive is linked anew.
    println!("cargo::rerun-if-changed={}", archive.display());
    if archive.is_file() {
        println!("cargo::rustc-link-search=native={}", folder.display());
        println!("cargo::rustc-link-lib=static=yildegga");
    } else {
        println!(
            "cargo::error={} is not there: make it by `make` in the repository, or set {FOLDER} to the folder that has it",
            archive.display()
        );
    }
}
