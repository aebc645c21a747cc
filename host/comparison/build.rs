//! Links the archives of crates optes and optes_book, from the folder that OPTES_ARCHIVE_DIR names.

use std::env;
use std::path::PathBuf;

fn main() {
    let beside = || PathBuf::from(env!("CARGO_MANIFEST_DIR")).join("../../target/built");
    let folder = env::var_os("OPTES_ARCHIVE_DIR").map_or_else(beside, PathBuf::from);
    println!("cargo:rerun-if-env-changed=OPTES_ARCHIVE_DIR");
    println!("cargo:rustc-link-search=native={}", folder.display());
    for name in ["optes", "optes_book"] {
        println!("cargo:rerun-if-changed={}", folder.join(format!("lib{name}.a")).display());
        println!("cargo:rustc-link-lib=static={name}");
    }
}
