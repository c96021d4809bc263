//! Writes the root of the crate: one `mod` line for each source file, by its absolute path.
//!
//! `HISKURDO_RUST` names the folder that has `crates/waymaker-core/src`. A relative folder
//! is taken from the root of the repository.

use std::env;
use std::fs;
use std::path::{Path, PathBuf};

const MODULES: [&str; 8] = [
    "activity",
    "error",
    "id",
    "record",
    "replay",
    "timer",
    "transition",
    "version",
];

fn main() {
    let source = source();
    let mut root = String::new();
    for module in MODULES {
        let file = source.join(format!("{module}.rs"));
        println!("cargo:rerun-if-changed={}", file.display());
        root += &format!("#[path = {file:?}]\npub mod {module};\npub use {module}::*;\n");
    }
    let out = PathBuf::from(env::var("OUT_DIR").expect("cargo sets OUT_DIR"));
    fs::write(out.join("root.rs"), root).expect("the root of the crate is written");
    println!("cargo:rerun-if-changed=build.rs");
    println!("cargo:rerun-if-env-changed=HISKURDO_RUST");
}

/// The folder of the source files.
fn source() -> PathBuf {
    let root = Path::new(env!("CARGO_MANIFEST_DIR")).join("../..");
    let folder = env::var("HISKURDO_RUST").unwrap_or_else(|_| "../shared/docs/src".to_string());
    let source = root.join(folder).join("crates/waymaker-core/src");
    source.canonicalize().unwrap_or_else(|error| {
        panic!(
            "HISKURDO_RUST must name the folder that has crates/waymaker-core/src: {}: {error}",
            source.display()
        )
    })
}
