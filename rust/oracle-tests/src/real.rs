//! Real payloads: those of the folder that DAWICHKO_PAYLOADS names, else those of the repository.

use oracle::real::{folder, payloads as all, Payload};
use std::io::Write;
use std::sync::OnceLock;

/// To standard error, past what a test gathers, so that it is seen of a test that passes too.
pub fn say(text: &str) {
    writeln!(std::io::stderr(), "{text}").expect("standard error");
}

/// Whether the Rust is there to be compared with; where it isn't, a line says once what is wanted.
pub fn rust_is_here() -> bool {
    static SAID: OnceLock<()> = OnceLock::new();
    if !oracle::PRESENT {
        SAID.get_or_init(|| say(&format!("SKIPPED, {}", oracle::WANTED)));
    }
    oracle::PRESENT
}

/// The payloads, read once for all tests.
pub fn payloads() -> &'static [Payload] {
    static READ: OnceLock<Vec<Payload>> = OnceLock::new();
    READ.get_or_init(|| all(&folder()).unwrap_or_else(|text| panic!("{text}")))
}
