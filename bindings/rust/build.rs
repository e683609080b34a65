//! Links liblegacy_pairing.a: from the folder that LEGACY_PAIRING_LIB names, or else from
//! crates/legacy_pairing/out of this repository, where `rt lib` in crates/legacy_pairing writes it.

use std::path::PathBuf;
use std::{env, process};

fn main() {
    let manifest = PathBuf::from(env::var_os("CARGO_MANIFEST_DIR").expect("cargo sets it"));
    let folder = env::var_os("LEGACY_PAIRING_LIB").map_or(manifest.join("../../crates/legacy_pairing/out"), PathBuf::from);
    let archive = folder.join("liblegacy_pairing.a");
    println!("cargo:rerun-if-env-changed=LEGACY_PAIRING_LIB");
    println!("cargo:rerun-if-changed={}", archive.display());
    if !archive.exists() {
        eprintln!("{} is not there: run `rt lib` in crates/legacy_pairing of the repository, or name its folder by LEGACY_PAIRING_LIB", archive.display());
        process::exit(1);
    }
    println!("cargo:rustc-link-search=native={}", folder.display());
    println!("cargo:rustc-link-lib=static=legacy_pairing");
}
