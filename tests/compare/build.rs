//! Links the library's archive and that of the calls through a bound table: those in target/staticlib, or in the folder that
//! YILDEGGA_LIB_DIR names.
use std::{env, path::PathBuf};

fn main() {
    let ours = PathBuf::from(env!("CARGO_MANIFEST_DIR")).join("../../target/staticlib");
    let folder = env::var_os("YILDEGGA_LIB_DIR").map_or(ours, PathBuf::from);
    println!("cargo:rerun-if-env-changed=YILDEGGA_LIB_DIR");
    println!("cargo:rustc-link-search=native={}", folder.display());
    for name in ["yildegga", "yildegga_bound"] {
        println!("cargo:rerun-if-changed={}", folder.join(format!("lib{name}.a")).display());
        println!("cargo:rustc-link-lib=static={name}");
    }
}
