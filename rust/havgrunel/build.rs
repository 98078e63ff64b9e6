//! Makes the archive of proved functions, as tools/archive does, and links it.

use std::env;
use std::fs;
use std::path::PathBuf;
use std::process::Command;

fn main() {
    let repository = folder("CARGO_MANIFEST_DIR").join("../..");
    let mut parts = vec![
        repository.join("crates.txt"),
        repository.join("tools/archive"),
    ];
    // A crate's out/ changes with every proof, and is not what the archive is made of.
    for found in fs::read_dir(repository.join("crates")).expect("crates/ is there") {
        let folder = found.expect("crates/ can be read").path();
        parts.extend(["src", "specs", "proofs"].map(|part| folder.join(part)));
    }
    for part in parts.iter().filter(|part| part.exists()) {
        println!("cargo:rerun-if-changed={}", part.display());
    }
    let made = Command::new(repository.join("tools/archive"))
        .output()
        .unwrap_or_else(|e| panic!("tools/archive can't be run: {e}"));
    if !made.status.success() {
        let said = String::from_utf8_lossy(&made.stderr);
        panic!("the archive of proved functions is missing:\n{said}");
    }
    let archive = String::from_utf8(made.stdout).expect("tools/archive prints a path");
    // A later run makes the archive anew in its folder, so a copy is linked.
    let out = folder("OUT_DIR");
    fs::copy(archive.trim_end(), out.join("libhavgrunel.a")).expect("the archive can be copied");
    println!("cargo:rustc-link-search=native={}", out.display());
    println!("cargo:rustc-link-lib=static=havgrunel");
}

fn folder(name: &str) -> PathBuf {
    env::var_os(name)
        .unwrap_or_else(|| panic!("cargo sets {name}"))
        .into()
}
