//! Finds the original text and writes the modules that compile it unchanged.

use std::env;
use std::fs;
use std::path::{Path, PathBuf};

const PLACE: &str = "HAVGRUNEL_ORIGINAL";
const INNER: &str = "crates/libitofin/src/math/interpolations";

fn main() {
    println!("cargo:rustc-check-cfg=cfg(original)");
    println!("cargo:rerun-if-env-changed={PLACE}");
    println!("cargo:rerun-if-changed=build.rs");
    println!("cargo:rerun-if-changed=src/probe");

    let here = folder("CARGO_MANIFEST_DIR");
    let out = folder("OUT_DIR");
    let repository = here.join("../..");
    let given = env::var_os(PLACE).filter(|given| !given.is_empty());
    let texts = match given {
        // Joining keeps an absolute folder as it is.
        Some(given) => repository.join(given),
        None => repository.join("../shared/docs/src"),
    }
    .join(INNER);
    let convex = texts.join("convexmonotone.rs");
    let cubic = texts.join("cubic.rs");
    println!("cargo:rerun-if-changed={}", convex.display());
    println!("cargo:rerun-if-changed={}", cubic.display());

    let (Ok(mut text), true) = (fs::read_to_string(&convex), cubic.is_file()) else {
        return;
    };
    for part in ["telling.rs", "making.rs", "reading.rs"] {
        let part = here.join("src/probe").join(part);
        text.push('\n');
        text += &fs::read_to_string(part).expect("the probe can be read");
    }
    let probed = out.join("probed.rs");
    write(&probed, &text);
    let mut modules = String::new();
    for (name, file) in [
        ("convexmonotone", &convex),
        ("cubic", &cubic),
        ("probed", &probed),
    ] {
        let file = fs::canonicalize(file).expect("a file just read has a full name");
        // The text is not ours to tidy, so lints about its style stay quiet.
        modules.push_str("#[allow(clippy::all)]\n");
        modules.push_str(&format!("#[path = {file:?}]\npub mod {name};\n"));
    }
    write(&out.join("original.rs"), &modules);
    println!("cargo:rustc-cfg=original");
}

fn folder(name: &str) -> PathBuf {
    env::var_os(name)
        .unwrap_or_else(|| panic!("cargo sets {name}"))
        .into()
}

fn write(path: &Path, text: &str) {
    fs::write(path, text).unwrap_or_else(|e| panic!("cannot write {}: {e}", path.display()));
}
