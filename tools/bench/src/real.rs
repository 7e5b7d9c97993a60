//! Real payloads, the largest of a folder.

use crate::library::Call;
use oracle::real::{payloads, Payload};
use std::path::Path;

/// How many times as fast as the Rust the library should be.
pub const AIM: f64 = 20.0;

/// Title and call of the `most` largest payloads of a folder whose titles are wanted, the largest
/// first.
pub fn calls(
    folder: &Path,
    most: usize,
    wanted: impl Fn(&str) -> bool,
) -> Result<Vec<(String, Call)>, String> {
    let titled = |payload: Payload| (format!("{} {}", payload.sheet, payload.name), payload.input);
    let mut found: Vec<_> = payloads(folder)?.into_iter().map(titled).collect();
    found.retain(|(title, _)| wanted(title));
    found.sort_by_key(|(_, input)| std::cmp::Reverse(input.payload.len()));
    found.truncate(most);
    let calls = found.into_iter().map(|(title, input)| {
        let sheet = input.sheet.numbers().to_vec();
        (title, Call { sheet, payload: input.payload, reserve: input.reserve })
    });
    Ok(calls.collect())
}
