//! Says where libdawichko.a lies.

use std::env;
use std::path::Path;

fn main() {
    println!("cargo:rerun-if-env-changed=DAWICHKO_LIB");
    let given = env::var("DAWICHKO_LIB").unwrap_or_else(|_| "crates/dawichko/out".into());
    let here = env::var("CARGO_MANIFEST_DIR").expect("cargo sets it");
    // A relative path counts from the repository's root, two folders up.
    let folder = Path::new(&here).join("../..").join(&given);
    let archive = folder.join("libdawichko.a");
    assert!(archive.exists(), "no libdawichko.a in {given} (rt lib in crates/dawichko, or see DAWICHKO_LIB)");
    println!("cargo:rerun-if-changed={}", archive.display());
    println!("cargo:rustc-link-search=native={}", folder.display());
    println!("cargo:rustc-link-lib=static=dawichko");
}
