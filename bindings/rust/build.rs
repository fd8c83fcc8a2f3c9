//! Finds libexported.a: in the directory that YURBANTZE_LIB_DIR names, or else in this repository's crates/exported/out.
use std::env;
use std::path::PathBuf;

fn main() {
    println!("cargo:rerun-if-env-changed=YURBANTZE_LIB_DIR");
    let directory = match env::var_os("YURBANTZE_LIB_DIR") {
        Some(named) => PathBuf::from(named),
        None => PathBuf::from(env::var_os("CARGO_MANIFEST_DIR").expect("cargo sets CARGO_MANIFEST_DIR")).join("../../crates/exported/out"),
    };
    let archive = directory.join("libexported.a");
    println!("cargo:rerun-if-changed={}", archive.display());
    if !archive.is_file() {
        panic!("{} is not there: run `rt lib` in crates/exported, or set YURBANTZE_LIB_DIR", archive.display());
    }
    println!("cargo:rustc-link-search=native={}", directory.display());
    println!("cargo:rustc-link-lib=static=exported");
}
