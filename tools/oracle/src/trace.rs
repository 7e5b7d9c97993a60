//! The debug output of the Rust's walk, read from a child process.

use std::io::{BufRead, BufReader};
use std::path::Path;
use std::process::{Command, Stdio};

/// What a line of the debug output tells of the walk.
pub enum Event {
    /// A new object's head and size have been read; objects are numbered in this order.
    Open { place: usize, space: u64, bytes: u64 },
    /// The reference at `place` is read whole.
    Done { place: usize, holds: Holds },
    /// The reference at `place` failed.
    Fault { place: usize },
    /// An item of an object's body is read; its slot follows unless it is a skip or stream bytes.
    Item,
    /// A slot is pushed.
    Slot { object: usize, pending: bool },
    /// An object gets an address.
    Alloc { space: u64, object: u64, chunk: u64, offset: u64, filler: u64, advance: u64 },
    /// Reading ended before this byte (legacy only).
    Tail { place: usize },
}

/// Whether a reference forms a value record, and how often it stands for what that holds.
#[derive(Clone, Copy, PartialEq)]
pub enum Holds {
    /// No record.
    Other,
    /// That of a weak reference.
    Weak,
    /// That of a repeat of so many words.
    Repeat(usize),
}

/// The environment variables that switch the debug output on.
pub const SWITCHES: [(&str, &str); 5] = [
    ("JSCD_DBG_OBJSLOTS", "*"),
    ("JSCD_DBG_SLOTS", "1"),
    ("JSCD_DBG_OBJ", "1"),
    ("JSCD_DBG_REF", "1"),
    ("JSCD_DBG_ALLOC", "1"),
];

/// Runs `self --walk folder` with the debug output switched on.
pub fn read(folder: &Path) -> std::io::Result<Vec<Event>> {
    let mut child = Command::new(std::env::current_exe()?)
        .arg("--walk")
        .arg(folder)
        .envs(SWITCHES)
        .stdout(Stdio::null())
        .stderr(Stdio::piped())
        .spawn()?;
    let lines = BufReader::new(child.stderr.take().expect("piped")).split(b'\n');
    let mut events = Vec::new();
    for line in lines {
        events.extend(event(&String::from_utf8_lossy(&line?)));
    }
    child.wait()?;
    Ok(events)
}

/// What a line of the debug output tells.
pub fn event(line: &str) -> Option<Event> {
    if line.starts_with("[objtag]") {
        let (place, space) = (number(line, "pos")? as usize, number(line, "space")?);
        Some(Event::Open { place, space, bytes: number(line, "bytes")? })
    } else if line.starts_with("[ref] new") {
        None // the [objtag] line tells of every new object, this one also of some others
    } else if line.starts_with("[ref] pos=") {
        Some(Event::Fault { place: number(line, "pos")? as usize })
    } else if line.starts_with("[ref]") {
        Some(Event::Done { place: number(line, "pos")? as usize, holds: holds(line) })
    } else if line.starts_with("[slot] ts=") {
        Some(Event::Item)
    } else if line.starts_with("[slot] obj=") {
        let pending = line.contains(" value=PendingRef(");
        Some(Event::Slot { object: number(line, "obj")? as usize, pending })
    } else if line.starts_with("[alloc]") {
        Some(Event::Alloc {
            space: number(line, "space")?,
            object: number(line, "id")?,
            chunk: number(line, "chunk")?,
            offset: number(line, "off")?,
            filler: number(line, "pre")?,
            advance: number(line, "advance")?,
        })
    } else if line.starts_with("jscd: ") && line.contains("Nop") {
        Some(Event::Tail { place: digits(line.split(" at ").nth(1)?)? as usize })
    } else {
        None
    }
}

fn holds(line: &str) -> Holds {
    match line.rsplit(' ').next() {
        Some("weak") => Holds::Weak,
        Some(word) => match word.strip_prefix("repeat=").and_then(digits) {
            Some(count) => Holds::Repeat(count as usize),
            None => Holds::Other,
        },
        None => Holds::Other,
    }
}

/// The number of `name=number` in a line.
fn number(line: &str, name: &str) -> Option<u64> {
    let word = line.split(' ').find_map(|word| word.strip_prefix(name)?.strip_prefix('='));
    word.and_then(digits)
}

/// The decimal number with which a text begins.
pub fn digits(text: &str) -> Option<u64> {
    let end = text.find(|c: char| !c.is_ascii_digit()).unwrap_or(text.len());
    text[..end].parse().ok()
}
