//! How sheets are made, and every way in which names and numbers are refused.

mod common;

use common::{pairs, repository, sheet, A};
use dawichko::{place, Sheet, SheetError, ABSENT, NAMES};
use std::collections::HashMap;
use std::fs;

#[test]
fn names_are_those_of_the_page() {
    let page = fs::read_to_string(repository("docs/SHEET.md")).expect("docs/SHEET.md");
    let rows = page.lines().filter_map(|line| {
        let cells: Vec<&str> = line.split('|').map(str::trim).collect();
        let place: usize = cells.get(1)?.parse().ok()?;
        Some((place, cells[2]))
    });
    let wanted: Vec<(usize, &str)> = NAMES.into_iter().enumerate().collect();
    assert_eq!(rows.collect::<Vec<_>>(), wanted);
}

/// Every text of sheets/ gives the numbers of its lines.
#[test]
fn sheets_of_the_repository() {
    let mut found = 0;
    for entry in fs::read_dir(repository("sheets")).expect("sheets/") {
        let file = entry.expect("an entry of sheets/").path();
        if file.extension().is_none_or(|ending| ending != "txt") {
            continue;
        }
        let text = fs::read_to_string(&file).expect("a text");
        let pairs = pairs(&text);
        let sheet = Sheet::from_pairs(pairs.clone()).expect("a sheet");
        for name in NAMES {
            let given = pairs.iter().find(|(known, _)| *known == name).map_or(ABSENT as u32, |pair| pair.1);
            assert_eq!(sheet.numbers()[place(name).unwrap()] as u32, given, "{name} of {}", file.display());
        }
        found += 1;
    }
    assert!(found >= 18, "{found} texts in sheets/");
}

#[test]
fn unknown_names() {
    for name in ["kNope", "knop", "", " kNop", "kNop "] {
        let error = Sheet::from_pairs([("kNop", 1), (name, 2)]).unwrap_err();
        assert_eq!(error, SheetError::Unknown(name.into()));
        assert_eq!(error.to_string(), format!("unknown name {name:?}"));
    }
}

#[test]
fn names_given_twice() {
    // the number may be the same, and another name may stand between
    for pairs in [[("kNop", 1), ("kSkip", 2), ("kNop", 1)], [("kSkip", 2), ("kNop", 1), ("kNop", 3)]] {
        let error = Sheet::from_pairs(pairs).unwrap_err();
        assert_eq!(error, SheetError::Twice("kNop".into()));
        assert_eq!(error.to_string(), "kNop is given twice");
    }
}

#[test]
fn numbers_out_of_range() {
    for name in NAMES {
        let most = if name == "var_raw_advances" { 65535 } else { 65534 };
        let sheet = Sheet::from_pairs([(name, most)]).expect("the largest number");
        assert_eq!(sheet.get(name), Some(most as u16));
        for value in [most + 1, 65536 + 7, u32::MAX] {
            let error = Sheet::from_pairs([(name, value)]).unwrap_err();
            assert_eq!(error, SheetError::Range { name, value });
            assert_eq!(error.to_string(), format!("{name} is {value}, not a number from 0 to {most}"));
        }
    }
}

#[test]
fn bytes_of_a_sheet() {
    let sheet = sheet(A);
    let bytes = sheet.to_bytes();
    assert_eq!(bytes.len(), 116);
    // kBackref, little-endian, and kNextChunk, which is absent
    assert_eq!((&bytes[2..4], &bytes[18..20]), (&[8, 0][..], &[255, 255][..]));
    assert_eq!(Sheet::from_bytes(&bytes), Ok(sheet));
    assert_eq!(Sheet::from_numbers(*sheet.numbers()), sheet);
    for length in [0, 115, 117, 118] {
        let error = Sheet::from_bytes(&vec![0; length]).unwrap_err();
        assert_eq!(error, SheetError::Length(length));
        assert_eq!(error.to_string(), format!("{length} bytes, but a sheet has 116"));
    }
}

#[test]
fn numbers_by_name_and_defaults() {
    let none = Sheet::from_pairs::<&str>([]).expect("an empty sheet");
    let defaults = [
        ("kNumberOfSpaces", 6),
        ("kMapSpace", 4),
        ("kLoSpace", 5),
        ("kRootArrayConstantsMask", 31),
        ("kSpaceTagSize", 3),
        ("kPageSizeBits", 19),
    ];
    for name in &NAMES[..56] {
        assert_eq!(none.get(name), None);
        let default = defaults.iter().find(|(known, _)| known == name).map(|(_, number)| *number);
        assert_eq!(none.get_or_default(name), default, "{name}");
    }
    assert_eq!((none.tagged_size(), none.var_raw_advances(), none.is_legacy()), (ABSENT, true, false));
    let given =
        Sheet::from_pairs([("kMapSpace", 9), ("kSpaceMask", 0), ("tagged_size", 4), ("var_raw_advances", 0)]);
    let given = given.expect("a sheet");
    assert_eq!(given.get_or_default("kMapSpace"), Some(9));
    assert_eq!((given.tagged_size(), given.var_raw_advances(), given.is_legacy()), (4, false, true));
}

#[test]
#[should_panic(expected = "no name kNope in a sheet")]
fn asking_for_an_unknown_name() {
    sheet(A).get("kNope");
}

#[test]
fn maps_as_parse_with_takes_them() {
    let tags: HashMap<String, u8> =
        [("kNop", 1), ("kSkip", 2), ("kWeakPrefix", 3), ("kMapSpace", 4), ("kOther", 5)]
            .map(|(name, number)| (name.to_string(), number))
            .into();
    let legacy: HashMap<String, u32> = [
        ("kNop", 11),
        ("kSkip", 256),
        ("kBackref", 300),
        ("kSpaceMask", 256),
        ("kLoSpace", 7),
        ("kInstanceTypes", 99999),
    ]
    .map(|(name, number)| (name.to_string(), number))
    .into();
    let made = Sheet::from_maps(&tags, &legacy, 8, false).expect("a sheet");
    let wanted = [
        ("kNop", 11),
        ("kSkip", 2),
        ("kWeakPrefix", 3),
        ("kSpaceMask", 256),
        ("kLoSpace", 7),
        ("tagged_size", 8),
        ("var_raw_advances", 0),
    ];
    assert_eq!(Ok(made), Sheet::from_pairs(wanted));
    assert!(Sheet::from_maps(&tags, &legacy, 8, true).expect("a sheet").var_raw_advances());
    let large: HashMap<String, u32> = [("kPageSizeBits".to_string(), 65535)].into();
    let error = Sheet::from_maps(&tags, &large, 8, true).unwrap_err();
    assert_eq!(error, SheetError::Range { name: "kPageSizeBits", value: 65535 });
}
