//! Says where libdawichko.a lies, and has it proved and built if there is none.

use std::env;
use std::path::Path;
use std::process::Command;

fn main() {
    println!("cargo:rerun-if-env-changed=DAWICHKO_LIB");
    let here = env::var("CARGO_MANIFEST_DIR").expect("cargo sets it");
    let root = Path::new(&here).join("..");
    let given = env::var_os("DAWICHKO_LIB");
    // A relative path counts from the repository's root.
    let folder = root.join(given.as_deref().unwrap_or("crates/dawichko/out".as_ref()));
    let archive = folder.join("libdawichko.a");
    if !archive.exists() {
        // A folder that was named is not filled: the archive that was meant lies elsewhere.
        assert!(given.is_none(), "no libdawichko.a in {} (DAWICHKO_LIB)", folder.display());
        prove(&root);
    }
    println!("cargo:rerun-if-changed={}", archive.display());
    println!("cargo:rustc-link-search=native={}", folder.display());
    println!("cargo:rustc-link-lib=static=dawichko");
}

/// Proves the library and writes crates/dawichko/out/libdawichko.a, which takes many minutes.
fn prove(root: &Path) {
    let done = Command::new("rt").arg("lib").current_dir(root.join("crates/dawichko")).output();
    let done = done.unwrap_or_else(|e| {
        panic!("no libdawichko.a in crates/dawichko/out, and rt, which makes it, can't be run: {e} (see DAWICHKO_LIB)")
    });
    let said = String::from_utf8_lossy(&done.stdout) + String::from_utf8_lossy(&done.stderr);
    assert!(done.status.success(), "rt lib failed in crates/dawichko:\n{said}");
}
