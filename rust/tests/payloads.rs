//! The real payloads of payloads/, held to the answers of the Rust that the library is a port of,
//! and to the number of long integers, which the Rust does not give (payloads/README.md).

mod common;
#[path = "../../tools/oracle/src/sha256.rs"]
mod sha256;

use common::{pairs, repository};
use dawichko::{read, Call, Graph, Refusal, Sheet, Value};
use std::fs;

/// What `graphlist` prints (docs/GRAPHLIST.md).
fn listing(answer: &Result<Graph, Refusal>) -> String {
    let graph = match answer {
        Ok(graph) => graph,
        Err(refusal) => return format!("refused {} {}\n", refusal.number, refusal.place),
    };
    let counts = [graph.objects().len(), graph.slots().len(), graph.values().len(), graph.addresses().len()];
    let [objects, slots, values, addresses] = counts;
    let (end, long) = (graph.end(), graph.long_integers());
    let mut lines = vec![format!("graph {objects} {slots} {values} {addresses} {end} {long}")];
    lines.extend(
        graph.objects().map(|o| format!("o {} {} {} {}", o.bytes, o.tag_offset, o.raw_len as u8, o.slots)),
    );
    lines.extend(graph.slots().map(|slot| {
        let [kind, a, b] = numbers(slot.value);
        format!("s {} {} {kind} {a} {b} {}", slot.object, slot.index, slot.waits as u8)
    }));
    lines.extend(graph.values().map(numbers).map(|[kind, a, b]| format!("v {kind} {a} {b}")));
    lines.extend(
        graph
            .addresses()
            .map(|d| format!("d {} {} {} {} {}", d.space, d.chunk, d.offset, d.object, d.placed as u8)),
    );
    lines.push(String::new());
    lines.join("\n")
}

/// Kind, a and b of a value's record (docs/FORMAT.md, "The tables").
fn numbers(value: Value) -> [u64; 3] {
    match value {
        Value::Object(object) => [1, object as u64, 0],
        Value::Root(index) => [2, index as u64, 0],
        Value::ReadOnly(a, b) => [3, a, b],
        Value::Attached(index) => [4, index as u64, 0],
        Value::Raw { offset, len, advances } => [if advances { 5 } else { 6 }, offset as u64, len as u64],
        Value::Repeat { count, value } => [7, count as u64, value as u64],
        Value::RepeatPrevious(count) => [8, count as u64, 0],
        Value::Skip(bytes) => [9, bytes as u64, 0],
        Value::StreamBytes(bytes) => [10, bytes as u64, 0],
        Value::ClearedWeak => [11, 0, 0],
        Value::Weak(value) => [12, value as u64, 0],
        Value::Pending(number) => [13, number, 0],
    }
}

/// A line of ANSWERS.tsv.
struct Answer<'a> {
    sheet: &'a str,
    name: &'a str,
    bytes: usize,
    reservations: usize,
    first: &'a str,
    sum: &'a str,
}

fn answers(text: &str) -> Vec<Answer<'_>> {
    let mut lines = text.lines();
    assert_eq!(lines.next(), Some("sheet\tname\tbytes\treservations\tanswer\tsha256"));
    let cells = lines.map(|line| line.split('\t').collect::<Vec<_>>());
    let answers = cells.map(|cells| match cells[..] {
        [sheet, name, bytes, reservations, first, sum] => {
            let number = |text: &str| text.parse().expect("a number");
            Answer { sheet, name, bytes: number(bytes), reservations: number(reservations), first, sum }
        }
        _ => panic!("not six cells: {cells:?}"),
    });
    answers.collect()
}

#[test]
fn as_the_rust_answers() {
    let text = fs::read_to_string(repository("payloads/ANSWERS.tsv")).expect("ANSWERS.tsv");
    let mut accepted = 0;
    for Answer { sheet, name, bytes, reservations, first, sum } in answers(&text) {
        let names = fs::read_to_string(repository(&format!("sheets/{sheet}.txt"))).expect(sheet);
        let sheet_numbers = Sheet::from_pairs(pairs(&names)).expect(sheet);
        let file = |ending: &str| fs::read(repository(&format!("payloads/{sheet}/{name}.{ending}")));
        let payload = file("payload").expect(name);
        let reserve = file("reserve").unwrap_or_default();
        let reserve: Vec<u32> =
            reserve.chunks_exact(4).map(|c| u32::from_le_bytes([c[0], c[1], c[2], c[3]])).collect();
        assert_eq!((payload.len(), reserve.len()), (bytes, reservations), "{sheet} {name}");
        let call = Call { reservations: &reserve, ..Call::new(&sheet_numbers, &payload) };
        let answer = read(&call);
        let listed = listing(&answer);
        assert_eq!(listed.lines().next(), Some(first), "{sheet} {name}");
        assert_eq!(sha256::hex(listed.as_bytes()), sum, "{sheet} {name}: {first}");
        accepted += answer.is_ok() as usize;
    }
    assert!(accepted >= 45, "{accepted} accepted");
}

/// Each payload that lies there has an answer, and each answer a payload.
#[test]
fn all_have_answers() {
    let text = fs::read_to_string(repository("payloads/ANSWERS.tsv")).expect("ANSWERS.tsv");
    let mut named: Vec<String> =
        answers(&text).iter().map(|answer| format!("{}/{}.payload", answer.sheet, answer.name)).collect();
    let mut found = Vec::new();
    for folder in fs::read_dir(repository("payloads")).expect("payloads/") {
        let folder = folder.expect("an entry").path();
        if folder.is_dir() {
            let files = fs::read_dir(&folder).expect("a folder").map(|file| file.expect("an entry").path());
            let payloads = files.filter(|file| file.extension().is_some_and(|ending| ending == "payload"));
            let name = |file: std::path::PathBuf| {
                let below = file.strip_prefix(repository("payloads")).expect("a file of payloads/");
                below.display().to_string()
            };
            found.extend(payloads.map(name));
        }
    }
    named.sort();
    found.sort();
    assert_eq!(found, named);
}

/// The examples of FIPS 180-4, and a length at which the padding takes a block of its own.
#[test]
fn sums_are_those_of_sha256() {
    let wanted = [
        ("", "e3b0c44298fc1c149afbf4c8996fb92427ae41e4649b934ca495991b7852b855"),
        ("abc", "ba7816bf8f01cfea414140de5dae2223b00361a396177a9cb410ff61f20015ad"),
        (
            "abcdbcdecdefdefgefghfghighijhijkijkljklmklmnlmnomnopnopq",
            "248d6a61d20638b8e5c026930c3e6039a33ce45964ff2167f6ecedd419db06c1",
        ),
    ];
    for (text, sum) in wanted {
        assert_eq!(sha256::hex(text.as_bytes()), sum);
    }
}
