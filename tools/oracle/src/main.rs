//! Runs the Rust that Dawichko is a port of, and prints its answer in the form of `graphlist`.

use oracle::sheet::Sheet;
use oracle::{real, reservations, sha256, trace, Input};
use std::path::Path;
use std::process::ExitCode;
use std::{env, fs};

const USAGE: &str = "usage: oracle DIR
       oracle --dump DIR
       oracle --dump-payload SHEET.txt NAME.payload [NAME.reserve]
       oracle --answers FOLDER";

fn main() -> ExitCode {
    let words: Vec<String> = env::args().skip(1).collect();
    let words: Vec<&str> = words.iter().map(String::as_str).collect();
    if !oracle::PRESENT {
        eprintln!("{}", oracle::WANTED);
        return ExitCode::FAILURE;
    }
    let outcome = match words[..] {
        ["--dump", folder] => folder_input(Path::new(folder)).and_then(|input| dump(&whole(input)?)),
        ["--dump-payload", sheet, payload] => text_input(sheet, payload, None).and_then(|input| dump(&input)),
        ["--dump-payload", sheet, payload, reserve] => {
            text_input(sheet, payload, Some(reserve)).and_then(|input| dump(&input))
        }
        ["--answers", folder] => answers(Path::new(folder)),
        // What the listing runs as a child, for the debug output alone.
        ["--walk", folder] => folder_input(Path::new(folder)).and_then(|input| {
            let input = whole(input)?;
            input.walk(&input.payload).map(|_| String::new())
        }),
        [folder] if !folder.starts_with('-') => listing(Path::new(folder)),
        _ => Err(USAGE.into()),
    };
    match outcome {
        Ok(text) => {
            println!("{text}");
            ExitCode::SUCCESS
        }
        Err(text) => {
            eprintln!("{text}");
            ExitCode::FAILURE
        }
    }
}

fn listing(folder: &Path) -> Result<String, String> {
    let Some(input) = folder_input(folder)? else {
        return Ok("refused 1 0".into());
    };
    if let Some(refusal) = input.not_walked() {
        return Ok(refusal.into());
    }
    let events = trace::read(folder).map_err(|e| format!("the walk could not be run: {e}"))?;
    Ok(input.answer(&events, &input.walk(&input.payload)))
}

/// A line for each payload of the folder: the answer's first line, and the sum over all its lines.
fn answers(folder: &Path) -> Result<String, String> {
    let mut lines = vec!["sheet\tname\tbytes\treservations\tanswer\tsha256".to_string()];
    let given = env::temp_dir().join(format!("oracle-{}", std::process::id()));
    fs::create_dir_all(&given).map_err(|e| format!("{}: {e}", given.display()))?;
    for real::Payload { sheet, name, input } in real::payloads(folder)? {
        write_input(&given, &input).map_err(|e| format!("{}: {e}", given.display()))?;
        let text = listing(&given)?;
        if text.contains('?') {
            return Err(format!("{sheet} {name}: the Rust can't be asked for all of its answer"));
        }
        let first = text.lines().next().unwrap_or("");
        let sum = sha256::hex(format!("{text}\n").as_bytes());
        let (bytes, reservations) = (input.payload.len(), input.reserve.len());
        lines.push(format!("{sheet}\t{name}\t{bytes}\t{reservations}\t{first}\t{sum}"));
    }
    fs::remove_dir_all(&given).map_err(|e| format!("{}: {e}", given.display()))?;
    Ok(lines.join("\n"))
}

/// The files of `graphlist`.
fn write_input(folder: &Path, input: &Input) -> std::io::Result<()> {
    let sheet: Vec<u8> = input.sheet.numbers().iter().flat_map(|n| n.to_le_bytes()).collect();
    let reserve: Vec<u8> = input.reserve.iter().flat_map(|n| n.to_le_bytes()).collect();
    fs::write(folder.join("sheet.bin"), sheet)?;
    fs::write(folder.join("payload.bin"), &input.payload)?;
    fs::write(folder.join("reserve.bin"), reserve)?;
    fs::write(folder.join("trusted.bin"), &input.trusted)
}

fn dump(input: &Input) -> Result<String, String> {
    let mut lines = Vec::new();
    for (number, object) in input.walk(&input.payload)?.iter().enumerate() {
        let (bytes, tag, slots) = (object.byte_size, object.start_offset, object.slots.len());
        lines.push(format!("o {number} {bytes} {tag} {slots}"));
        lines.extend(object.slots.iter().map(|slot| format!("s {number} {} {:?}", slot.index, slot.value)));
    }
    Ok(lines.join("\n"))
}

/// No input stands for a sheet of the wrong length.
fn folder_input(folder: &Path) -> Result<Option<Input>, String> {
    let optional = |name: &str| match folder.join(name) {
        file if file.exists() => read(&file),
        _ => Ok(Vec::new()),
    };
    let payload = read(&folder.join("payload.bin"))?;
    let reserve = reservations(&optional("reserve.bin")?)?;
    let trusted = optional("trusted.bin")?;
    let sheet = Sheet::from_bytes(&read(&folder.join("sheet.bin"))?);
    Ok(sheet.map(|sheet| Input { sheet, trusted, payload, reserve }))
}

fn text_input(sheet: &str, payload: &str, reserve: Option<&str>) -> Result<Input, String> {
    let text = read(Path::new(sheet))?;
    Ok(Input {
        sheet: Sheet::from_text(&String::from_utf8_lossy(&text))?,
        trusted: Vec::new(),
        payload: read(Path::new(payload))?,
        reserve: reserve.map_or(Ok(Vec::new()), |name| reservations(&read(Path::new(name))?))?,
    })
}

fn whole(input: Option<Input>) -> Result<Input, String> {
    input.ok_or("sheet.bin has the wrong length".into())
}

fn read(file: &Path) -> Result<Vec<u8>, String> {
    fs::read(file).map_err(|e| format!("{}: {e}", file.display()))
}
