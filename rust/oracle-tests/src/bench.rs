//! The functions of docs/BENCH-INTEGRATION.md, word for word, run on both sides.

use crate::real::{payloads, rust_is_here};
use oracle::real::Payload;
use oracle::serializer;
use oracle::tables::VersionTable;

fn sum_before(payload: &[u8], table: &VersionTable, reservations: &[u32]) -> Result<u64, String> {
    let cache = serializer::parse_with(payload, table, reservations)?;
    Ok(cache.objects.iter().map(|object| object.byte_size as u64).sum())
}

fn sum_after(payload: &[u8], table: &VersionTable, reservations: &[u32]) -> Result<u64, String> {
    let maps = &table.serialization;
    let sheet =
        dawichko::Sheet::from_maps(&maps.tags, &maps.legacy, table.tagged_size, table.var_raw_advances)
            .map_err(|error| error.to_string())?;
    let trusted = trusted_list(table);
    let call = dawichko::Call { sheet: &sheet, payload, reservations, trusted: &trusted };
    let graph = dawichko::read(&call).map_err(|refusal| refusal.to_string())?;
    Ok(graph.objects().map(|object| object.bytes).sum())
}

fn trusted_list(table: &VersionTable) -> Vec<u8> {
    let marks =
        |name: &str| (name.contains("Trusted") || name.contains("Protected")) && name.contains("Array");
    // The shift gives names to indexes past the end of the list.
    let indexes = 0..table.roots.len() + table.roots_shift as usize;
    indexes.map(|index| table.root_name(index).is_some_and(marks) as u8).collect()
}

#[test]
fn page_has_these_functions() {
    let page = std::fs::read_to_string(crate::repository("docs/BENCH-INTEGRATION.md")).expect("the page");
    let here = include_str!("bench.rs");
    let blocks: Vec<&str> =
        page.split("```rust\n").skip(1).map(|rest| rest.split("```").next().unwrap_or("")).collect();
    assert_eq!(blocks.len(), 3, "blocks of Rust on the page");
    for block in blocks {
        assert!(here.contains(block), "not the function that is run:\n{block}");
    }
}

#[test]
fn sums_before_and_after() {
    if !rust_is_here() {
        return;
    }
    let mut same = 0;
    for Payload { sheet, name, input } in payloads() {
        let table = input.sheet.table(&input.trusted);
        let before = sum_before(&input.payload, &table, &input.reserve);
        let after = sum_after(&input.payload, &table, &input.reserve);
        assert_eq!(before.clone().ok(), after.ok(), "{sheet} {name}");
        same += before.is_ok() as usize;
    }
    assert!(same > 0);
}

/// `raw_len` by the list is `raw_len` by the names, for every root, with and without a shift.
#[test]
fn trusted_list_is_that_of_the_names() {
    if !rust_is_here() {
        return;
    }
    let names = [
        "ByteArrayMap",
        "TrustedByteArrayMap",
        "ProtectedFixedArrayMap",
        "TrustedMap",
        "String:TrustedArray",
        "String:Array",
        "ArrayProtectedMap",
    ];
    let text = std::fs::read_to_string(crate::repository("sheets/v13.6-ts8.txt")).expect("a sheet");
    let sheet = oracle::sheet::Sheet::from_text(&text).expect("a sheet");
    for shift in [0, 1, 3, 9] {
        let mut table = sheet.table(&[]);
        table.roots = names.map(String::from).to_vec();
        table.roots_shift = shift;
        let trusted = trusted_list(&table);
        assert!(trusted.contains(&1) && trusted.contains(&0));
        for root in 0..32 {
            // An object of one word whose map is this root.
            let payload = [0, 4, 0x40 + root, 0x0B];
            let wanted = serializer::parse_with(&payload, &table, &[]).expect("the Rust accepts it");
            let sheet = dawichko::Sheet::from_numbers(sheet.numbers().try_into().expect("58 numbers"));
            let call =
                dawichko::Call { sheet: &sheet, payload: &payload, reservations: &[], trusted: &trusted };
            let graph = dawichko::read(&call).expect("accepted");
            let raw_len = graph.object(0).map(|object| object.raw_len);
            assert_eq!(raw_len, Some(wanted.objects[0].raw_len), "root {root}, shift {shift}");
        }
    }
}
