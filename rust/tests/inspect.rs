//! The inspection of sheets (docs/FORMAT.md, "Head bytes").

mod common;

use common::{pairs, repository, sheet, A, L8};
use dawichko::{Refusal, Sheet};
use std::fs;

fn name(sheet: &Sheet, byte: usize) -> (Option<&'static str>, bool) {
    let obeyed = sheet.inspect().expect("a usable sheet")[byte];
    (obeyed.name, obeyed.shared)
}

#[test]
fn sheet_a() {
    let sheet = sheet(A);
    assert_eq!(name(&sheet, 0x00), (Some("kNewObject"), false));
    assert_eq!(name(&sheet, 0x07), (Some("kNewObject"), false));
    assert_eq!(name(&sheet, 0x08), (Some("kBackref"), false));
    assert_eq!(name(&sheet, 0x45), (Some("kRootArrayConstants"), false));
    // read elsewhere, and by no reference
    for byte in [0x0C, 0x0D, 0x0F, 0xFF] {
        assert_eq!(name(&sheet, byte), (None, false));
    }
}

#[test]
fn two_names_on_a_byte() {
    let sheet = sheet(&format!("{A} kSkip 45 kFixedRepeatRoot 80"));
    assert_eq!(name(&sheet, 0x44), (Some("kRootArrayConstants"), false));
    assert_eq!(name(&sheet, 0x45), (Some("kRootArrayConstants"), true));
    // a name that the sheet does not test at a reference's head does not count
    assert_eq!(name(&sheet, 0x80), (Some("kFixedRepeat"), false));
}

/// kRootArray inside the span of kNewObject ends it where kNumberOfSpaces is absent.
#[test]
fn spans_of_a_legacy_sheet() {
    let sheet = sheet(&L8.replace("kRootArray 11", "kRootArray 05"));
    assert_eq!(name(&sheet, 0x04), (Some("kNewObject"), false));
    assert_eq!(name(&sheet, 0x05), (Some("kRootArray"), false));
    assert_eq!(name(&sheet, 0x06), (None, false));
    assert_eq!(name(&sheet, 0x0D), (Some("kBackref"), false));
}

#[test]
fn unusable() {
    assert_eq!(sheet("tagged_size 8").inspect(), Err(Refusal { number: 1, place: 0 }));
}

/// No byte of a sheet of sheets/ is obeyed under one name and held by another.
#[test]
fn sheets_of_the_repository() {
    for entry in fs::read_dir(repository("sheets")).expect("sheets/") {
        let file = entry.expect("an entry of sheets/").path();
        if file.extension().is_some_and(|ending| ending == "txt") {
            let text = fs::read_to_string(&file).expect("a text");
            let sheet = Sheet::from_pairs(pairs(&text)).expect("a sheet");
            let obeyed = sheet.inspect().expect("a usable sheet");
            let shared: Vec<usize> = (0..256).filter(|byte| obeyed[*byte].shared).collect();
            assert_eq!(shared, [0; 0], "{}", file.display());
        }
    }
}
