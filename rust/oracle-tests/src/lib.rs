//! The crate's graphs beside those of the Rust that the library is a port of, taken in unchanged by
//! tools/oracle. Without the Rust's source (JSCD_SRC) the tests that need it are passed over.

#![cfg(test)]

mod bench;
mod real;
mod same;

use dawichko::{read, Call, Sheet, NAMES};
use oracle::refusal;
use oracle::{heads::Heads, real::Payload, Input};
use std::fs;
use std::path::PathBuf;

fn repository(file: &str) -> PathBuf {
    PathBuf::from(env!("CARGO_MANIFEST_DIR")).join("../..").join(file)
}

/// The crate's sheet of the same numbers.
fn sheet(input: &Input) -> Sheet {
    Sheet::from_numbers(input.sheet.numbers().try_into().expect("58 numbers"))
}

/// What differs between the crate's answer and the Rust's, and whether both accept.
fn compared(input: &Input) -> Result<bool, String> {
    let sheet = sheet(input);
    let call = Call {
        sheet: &sheet,
        payload: &input.payload,
        reservations: &input.reserve,
        trusted: &input.trusted,
    };
    match (read(&call), input.walk(&input.payload)) {
        (Ok(graph), Ok(objects)) => same::differs(&graph, &objects).map_or(Ok(true), Err),
        (Err(got), Err(text)) => {
            // The text tells the place too of the refusals that real payloads get.
            let heads = Heads { sheet: &input.sheet, payload: &input.payload };
            let wanted = refusal::describe(&text, &[], &heads);
            let got = format!("refused {} {}", got.number, got.place);
            (got == wanted).then_some(false).ok_or(format!("{got}, the Rust has {wanted} ({text})"))
        }
        (Ok(_), Err(text)) => Err(format!("accepted, the Rust refuses: {text}")),
        (Err(got), Ok(_)) => Err(format!("{got}, the Rust accepts")),
    }
}

#[test]
fn real_payloads() {
    if !real::rust_is_here() {
        return;
    }
    let mut accepted = 0;
    let mut differences = Vec::new();
    for Payload { sheet, name, input } in real::payloads() {
        match compared(input) {
            Ok(taken) => accepted += taken as usize,
            Err(text) => differences.push(format!("{sheet} {name}: {text}")),
        }
    }
    assert!(differences.is_empty(), "{}", differences.join("\n"));
    assert!(accepted > 0);
    let count = real::payloads().len();
    real::say(&format!("{count} real payloads, {accepted} accepted, all as the Rust has them"));
}

/// The example's sum of byte sizes, from the Rust.
#[test]
fn sum_of_the_example() {
    if !real::rust_is_here() {
        return;
    }
    let file = |name: &str| fs::read(repository("examples/v11.3-features").join(name)).expect(name);
    let sheet = oracle::sheet::Sheet::from_bytes(&file("sheet.bin")).expect("58 numbers");
    let input = Input { sheet, trusted: Vec::new(), payload: file("payload.bin"), reserve: Vec::new() };
    assert_eq!(compared(&input), Ok(true));
    let objects = input.walk(&input.payload).expect("the Rust accepts it");
    let sum: usize = objects.iter().map(|object| object.byte_size).sum();
    assert_eq!((objects.len(), sum), (180, 12_720));
}

/// The maps of the Rust's tables give the sheet that they were made from, and its names are the
/// oracle's.
#[test]
fn sheets_from_the_tables_of_the_rust() {
    assert_eq!(NAMES, oracle::sheet::NAMES);
    let folder = fs::read_dir(repository("sheets")).expect("sheets/");
    let texts = folder.map(|entry| entry.expect("an entry").path());
    let texts: Vec<PathBuf> = texts.filter(|file| file.extension().is_some_and(|e| e == "txt")).collect();
    assert!(texts.len() >= 18, "{} texts in sheets/", texts.len());
    for file in texts {
        let text = fs::read_to_string(&file).expect("a text");
        let sheet = oracle::sheet::Sheet::from_text(&text).expect("a sheet");
        let table = sheet.table(&[]);
        let maps = &table.serialization;
        let made = Sheet::from_maps(&maps.tags, &maps.legacy, table.tagged_size, table.var_raw_advances);
        assert_eq!(made.expect("a sheet").numbers()[..], sheet.numbers()[..], "{}", file.display());
    }
}
