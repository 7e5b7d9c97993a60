//! Writes the line that takes in the Rust's serializer.rs from where it lies, so that no copy of it
//! is kept here. Where it isn't given, src/absent.rs is taken in instead.

#[path = "src/sha256.rs"]
mod sha256;

use std::path::Path;
use std::process::exit;
use std::{env, fs};

/// SHA-256 of serializer.rs at the commit that the library is a port of.
const SUM: &str = "5884671136d610bc08d5414982da38810fa078e319a3b4509502c82ba929a5b6";

fn main() {
    println!("cargo:rerun-if-env-changed=JSCD_SRC");
    let here = env::var("CARGO_MANIFEST_DIR").expect("cargo sets it");
    let given = env::var("JSCD_SRC").ok().filter(|folder| !folder.is_empty());
    let file = match &given {
        // A relative path counts from the repository's root, two folders up.
        Some(folder) => Path::new(&here).join("../..").join(folder).join("serializer.rs"),
        None => Path::new(&here).join("src/absent.rs"),
    };
    let Ok(bytes) = fs::read(&file) else {
        eprintln!("no {}: JSCD_SRC is to be the folder of jscd's serializer.rs", file.display());
        exit(1);
    };
    if given.is_some() && sha256::hex(&bytes) != SUM {
        println!("cargo:warning={} is not that of commit 40b0a43f7c of ejfkdev/jscd", file.display());
    }
    println!("cargo:rerun-if-changed={}", file.display());
    let text = format!(
        "#[allow(dead_code)]\n#[path = {file:?}]\npub mod serializer;\n\
         /// Whether `serializer` is the Rust's, and not src/absent.rs.\n\
         pub const PRESENT: bool = {};\n",
        given.is_some()
    );
    let out = env::var("OUT_DIR").expect("cargo sets it");
    fs::write(Path::new(&out).join("taken_in.rs"), text).expect("OUT_DIR can be written");
}
