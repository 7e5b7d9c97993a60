//! Prints for each of the 256 head bytes which name of a sheet it obeys where a reference is read,
//! as a table of 16 by 16, and a list of the bytes that another name lays hold of too.
//!
//!     cargo run --offline --example inspect -- ../sheets/v11.3-ts8.txt
//!
//! The text has lines of a name and a number, and comments that begin with `#`.

use dawichko::{Obeyed, Sheet, NAMES};
use std::path::Path;
use std::process::ExitCode;
use std::{env, fs};

/// A sheet from its text.
fn sheet(text: &str) -> Result<Sheet, String> {
    let lines = text.lines().map(str::trim).filter(|line| !line.is_empty() && !line.starts_with('#'));
    let pair = |line: &'_ str| {
        let (name, number) = line.split_once(char::is_whitespace)?;
        Some((name.to_string(), number.trim().parse().ok()?))
    };
    let pairs: Result<Vec<(String, u32)>, String> =
        lines.map(|line| pair(line).ok_or_else(|| format!("not a name and a number: {line:?}"))).collect();
    Sheet::from_pairs(pairs?).map_err(|e| e.to_string())
}

/// The place of a name in the sheet, by which the table shows it.
fn place(name: Option<&str>) -> Option<usize> {
    NAMES.iter().position(|known| Some(*known) == name)
}

/// The table, then what its places are, then the overlaps.
fn shown(obeyed: &[Obeyed; 256]) -> String {
    let mut lines = vec!["    ".to_string() + &(0..16).map(|low| format!("  _{low:X}")).collect::<String>()];
    for (high, row) in obeyed.chunks(16).enumerate() {
        let cells = row.iter().map(|o| {
            let place = place(o.name).map_or("·".to_string(), |place| place.to_string());
            format!("{place:>3}{}", if o.shared { '*' } else { ' ' })
        });
        lines.push(format!("  {high:X}_{}", cells.collect::<String>()).trim_end().to_string());
    }
    lines.push(String::new());
    let used = NAMES.iter().enumerate().filter(|(_, name)| obeyed.iter().any(|o| o.name == Some(name)));
    lines.extend(used.map(|(place, name)| format!("{place:>3} {name}")));
    lines.push(String::new());
    let shared = obeyed.iter().enumerate().filter(|(_, o)| o.shared);
    let overlaps: Vec<String> = shared
        .map(|(byte, o)| format!("{byte:02X} obeys {}, and another name has it", o.name.unwrap_or("none")))
        .collect();
    if overlaps.is_empty() {
        lines.push("no overlaps".into());
    }
    lines.extend(overlaps);
    lines.join("\n")
}

fn inspected(file: &Path) -> Result<String, String> {
    let text = fs::read_to_string(file).map_err(|e| format!("{}: {e}", file.display()))?;
    let obeyed = sheet(&text)?.inspect().map_err(|refusal| refusal.to_string())?;
    Ok(shown(&obeyed))
}

fn main() -> ExitCode {
    let Some(file) = env::args_os().nth(1) else {
        eprintln!("usage: inspect SHEET.txt");
        return ExitCode::from(2);
    };
    match inspected(file.as_ref()) {
        Ok(text) => {
            println!("{text}");
            ExitCode::SUCCESS
        }
        Err(text) => {
            eprintln!("{text}");
            ExitCode::from(1)
        }
    }
}

#[cfg(test)]
mod tests {
    use super::*;

    #[test]
    fn of_a_sheet() {
        let file = Path::new(env!("CARGO_MANIFEST_DIR")).join("../sheets/v11.3-ts8.txt");
        let text = inspected(&file).expect("a usable sheet");
        let lines: Vec<&str> = text.lines().collect();
        assert_eq!(lines.len(), text.lines().count());
        assert!(lines[0].ends_with("_F"), "{}", lines[0]);
        assert!(lines[16].starts_with("  F_"), "{}", lines[16]);
        assert!(lines.contains(&"  0 kNewObject"));
        assert_eq!(lines.last(), Some(&"no overlaps"));
    }
}
