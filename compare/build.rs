//! Links the proved code: `libcore_exports.a` in the folder that `HISKURDO_LIB` names.
//! A relative folder is taken from the root of the repository.

use std::env;
use std::path::Path;

fn main() {
    let root = Path::new(env!("CARGO_MANIFEST_DIR")).join("..");
    let folder = env::var("HISKURDO_LIB").unwrap_or_else(|_| "target/staticlib".to_string());
    let folder = root.join(folder);
    let archive = folder.join("libcore_exports.a");
    if !archive.exists() {
        println!("cargo:warning=there is no {}", archive.display());
    }
    println!("cargo:rustc-link-search=native={}", folder.display());
    println!("cargo:rustc-link-lib=static=core_exports");
    println!("cargo:rerun-if-changed={}", archive.display());
    println!("cargo:rerun-if-changed=build.rs");
    println!("cargo:rerun-if-env-changed=HISKURDO_LIB");
}
