//! A refusal's number and place, from the Rust's error text and the place of the failing reference.

use crate::heads::{Heads, Prefix};
use crate::trace::{digits, Event};

/// `?` stands where the text says nothing that has a number (docs/FORMAT.md, "Refusals").
pub fn describe(text: &str, events: &[Event], heads: &Heads) -> String {
    match number_and_place(text, events, heads) {
        Some((number, place)) => format!("refused {number} {place}"),
        None => "refused ? ?".into(),
    }
}

fn number_and_place(text: &str, events: &[Event], heads: &Heads) -> Option<(u64, usize)> {
    let text = text.strip_prefix("deferred section: ").unwrap_or(text);
    let length = heads.payload.len();
    // The innermost failing reference is the first to be reported.
    let failing = || {
        events.iter().find_map(|event| match event {
            Event::Fault { place } => Some(*place),
            _ => None,
        })
    };
    let said = |before: &str| text.split(before).nth(1).and_then(digits).map(|n| n as usize);
    if text.starts_with("table missing") {
        Some((1, 0))
    } else if text == "unexpected end of payload" {
        Some((4, length))
    } else if text.starts_with("payload does not start") {
        Some((5, 0))
    } else if text.starts_with("ref recursion") {
        Some((6, too_deep(failing()?, events, heads)))
    } else if text.starts_with("raw read") {
        Some((7, heads.after_raw_head(failing()?)))
    } else if text.starts_with("backref") {
        Some((8, heads.after_int(failing()? + 1)))
    } else if text.starts_with("hot object") {
        Some((9, heads.after_hot_head(failing()?)))
    } else if text.starts_with("unknown serialization tag") {
        Some((10, said(" at ")?))
    } else if text.starts_with("meta map tag") {
        Some((11, said(" at ")?))
    } else if text.contains("size mismatch") {
        Some((12, said("payload +")?))
    } else if text.starts_with("payload ended") {
        Some((13, length))
    } else if text.contains("after kSynchronize") {
        Some((14, said(" at ")?))
    } else if text.starts_with("legacy") {
        Some((15, heads.after_ordinal(failing()?)))
    } else {
        None
    }
}

/// The failing reference is the one around the reference that lies too deep. If it opened an
/// object, the map is the first reference one level deeper.
fn too_deep(around: usize, events: &[Event], heads: &Heads) -> usize {
    let opened = events.iter().find_map(|e| match e {
        Event::Open { place, space, .. } if *place == around => Some(*space),
        _ => None,
    });
    if let Some(space) = opened {
        return heads.after_size(around, space);
    }
    match heads.prefix(around) {
        Prefix::Through(next) | Prefix::Weak(next) => next,
        Prefix::Repeat(next) | Prefix::RepeatRoot(next) => next,
    }
}
