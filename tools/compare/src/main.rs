//! Compares the library with the Rust on generated inputs and on real payloads.

mod payloads;
mod port;
mod random;
mod rust;
mod sheets;

use oracle::sheet::{Sheet as Numbers, NAMES};
use oracle::{reader, real, Input};
use payloads::{Integer, Written};
use port::{Call, Graph, FIELDS};
use random::Random;
use std::collections::BTreeMap;
use std::path::PathBuf;
use std::process::ExitCode;

const USAGE: &str = "usage: compare [--seed N] [--count N] [--show N] [--real FOLDER or none]";
const TOP: u32 = 1 << 31;

struct Options {
    seed: u64,
    count: u64,
    show: usize,
    real: Option<PathBuf>,
}

/// What was met, by family and outcome, and the first differences.
#[derive(Default)]
struct Tally {
    outcomes: BTreeMap<(String, u64), u64>,
    /// Cases in which the Rust's debug output does not tell every value.
    partly: u64,
    /// Cases with kRootArray inside the span of kNewObject, which the Rust reads otherwise.
    not_asked: u64,
    rooms: u64,
    /// Cases in which the generator's own count of long integers was compared, and how many of them
    /// have such integers.
    noted: [u64; 2],
    /// Long integers of accepted cases, by what they belong to, and of how many bytes they are.
    long: BTreeMap<&'static str, [u64; 3]>,
    differences: u64,
    shown: usize,
}

fn options() -> Result<Options, String> {
    let mut given = Options { seed: 1, count: 10_000, show: 5, real: Some(real::folder()) };
    let mut words = std::env::args().skip(1);
    while let Some(word) = words.next() {
        let value = words.next().ok_or(USAGE)?;
        let number = || value.parse::<u64>().map_err(|_| USAGE.to_string());
        match word.as_str() {
            "--seed" => given.seed = number()?,
            "--count" => given.count = number()?,
            "--show" => given.show = number()? as usize,
            "--real" if value == "none" => given.real = None,
            "--real" => given.real = Some(value.into()),
            _ => return Err(USAGE.into()),
        }
    }
    Ok(given)
}

fn main() -> ExitCode {
    let given = options().and_then(|given| match oracle::PRESENT {
        true => Ok(given),
        false => Err(oracle::WANTED.into()),
    });
    let given = match given {
        Ok(given) => given,
        Err(text) => {
            eprintln!("{text}");
            return ExitCode::from(2);
        }
    };
    let mut capture = rust::Capture::new();
    let mut tally = Tally { shown: given.show, ..Tally::default() };
    let sheets = sheets::all();
    for (name, call, wanted) in limits(&sheets) {
        let got = port::graph(&call, [512; 4]);
        *tally.outcomes.entry(("limits".into(), got.number)).or_default() += 1;
        let difference = got.left_over().or_else(|| different(&got.text(), wanted));
        tally.report(name, &call, difference);
    }
    let difference = longest(&sheets[0]);
    *tally.outcomes.entry(("limits".into(), 0)).or_default() += 1;
    tally.report("longest payload, accepted", &empty(&sheets[0]), difference);
    for number in 0..given.count {
        // A case depends on the seed and its number alone.
        let seed = given.seed.wrapping_mul(1_000_003).wrapping_add(number);
        let (family, call, integers) = generated(seed, &sheets);
        let difference = compared(&mut capture, &mut tally, &family, &call, integers);
        tally.report(&format!("case {number}, {family}"), &call, difference);
    }
    if let Some(folder) = &given.real {
        match real::payloads(folder) {
            Ok(found) => {
                for real::Payload { sheet, name, input } in found {
                    let call = call(input);
                    let difference = compared(&mut capture, &mut tally, &sheet, &call, None);
                    tally.report(&format!("{sheet} {name}"), &call, difference);
                }
            }
            Err(text) => {
                eprintln!("{text}");
                return ExitCode::from(2);
            }
        }
    }
    tally.print();
    ExitCode::from((tally.differences > 0) as u8)
}

// ---- inputs

/// The call of a real payload.
fn call(input: Input) -> Call {
    Call {
        sheet: input.sheet.numbers().to_vec(),
        scratch: Call::full_scratch(&input.payload),
        fill: input.payload.len() as u64,
        payload: input.payload,
        reserve: input.reserve,
        trusted: input.trusted,
    }
}

/// A sheet's family, a call, and the integers that were written, where they are known.
fn generated(seed: u64, sheets: &[sheets::Sheet]) -> (String, Call, Option<Vec<Integer>>) {
    let random = &mut Random::new(seed);
    let fixed = random.chance(700);
    let sheet =
        if fixed { sheets[random.below(sheets.len())].clone() } else { sheets::coinciding(random, sheets) };
    let reserve = if sheet.legacy() { reservations(random) } else { Vec::new() };
    let spaces = reserve.iter().filter(|r| **r >= TOP).count() + 1;
    let trusted = match random.below(3) {
        0 => (0..random.below(40)).map(|_| random.one_of(&[0, 0, 1, 7])).collect(),
        _ => Vec::new(),
    };
    let budget = random.one_of(&[10, 20, 40, 80, 300]);
    let way = random.below(100);
    let deepest = random.one_of(&[4, 4, 10, 40]);
    let mut written = match way {
        0..=4 => payloads::drawn(random, &sheet),
        5 => payloads::noise(random),
        6..=9 => payloads::Writer::new(random, &sheet, spaces, budget, deepest).write_deep(),
        10..=11 => {
            let words = random.from_to(100, 4000);
            payloads::Writer::new(random, &sheet, spaces, 4 * words, 4).write_wide(words)
        }
        12 | 13 if sheet.has("kDeferred") && sheet.has("kWeakPrefix") => {
            payloads::Writer::new(random, &sheet, spaces, budget, deepest).write_large()
        }
        _ => payloads::Writer::new(random, &sheet, spaces, budget, deepest).write(),
    };
    if way >= 70 {
        payloads::damage(random, &sheet, &mut written);
    }
    let Written { payload, integers } = written;
    let scratch = scratch_length(random, &payload);
    let mut call = Call { sheet: sheet.numbers.to_vec(), payload, reserve, trusted, scratch, fill: seed };
    if random.chance(10) {
        call.sheet = sheets::unusable(random, sheets);
        return ("unusable".into(), call, None);
    }
    (sheet.family.into(), call, integers)
}

/// Too little scratch for pending numbers; enough for these, and none, too little or some for the
/// index of legacy addresses; enough for both.
fn scratch_length(random: &mut Random, payload: &[u8]) -> usize {
    let bytes = payload.len();
    let index = bytes + 9;
    let some = Call::scratch_for(payload, random.below(40));
    let less = some - 1 - random.below(7);
    let full = Call::full_scratch(payload);
    random.one_of(&[0, 1, 3, 64, bytes, bytes + 8, index, index + 8, some, less, full, 100_000])
}

/// Inputs at the limits of lengths and one past them, with the answers that docs/FORMAT.md says
/// ("Refusals"). The payload, zeros, opens objects until they lie too deep.
fn limits(sheets: &[sheets::Sheet]) -> Vec<(&'static str, Call, &'static str)> {
    let call = |payload: usize, reserve: usize| Call {
        sheet: sheets[0].numbers.to_vec(),
        payload: vec![0; payload],
        reserve: vec![0; reserve],
        trusted: Vec::new(),
        scratch: 0,
        fill: 0,
    };
    let (bytes, most) = (oracle::MOST_BYTES, oracle::MOST_RESERVATIONS);
    let unusable = Call { sheet: Vec::new(), ..call(bytes + 1, 0) };
    vec![
        ("longest payload", call(bytes, most), "refused 6 130"),
        ("payload too long", call(bytes + 1, 0), "refused 2 0"),
        ("too many reservations", call(200, most + 1), "refused 2 0"),
        ("unusable sheet, payload too long", unusable, "refused 1 0"),
    ]
}

fn empty(sheet: &sheets::Sheet) -> Call {
    Call {
        sheet: sheet.numbers.to_vec(),
        payload: Vec::new(),
        reserve: Vec::new(),
        trusted: Vec::new(),
        scratch: 0,
        fill: 0,
    }
}

/// A payload as long as one may be, of one object whose words are all root constants: what differs,
/// if anything does.
fn longest(sheet: &sheets::Sheet) -> Option<String> {
    let bytes = oracle::MOST_BYTES;
    let words = bytes - 6;
    let tag = |name: &str| sheet.numbers[sheets::place(name)] as u8;
    let mut payload = vec![tag("kNewObject")];
    payload.extend(((words as u32) << 2 | 3).to_le_bytes());
    payload.resize(bytes - 1, tag("kRootArrayConstants"));
    payload.push(tag("kSynchronize"));
    let graph = port::graph(&Call { payload, ..empty(sheet) }, [4, 6 * words, 0, 0]);
    let wanted = [1, words as u64, 0, 0, bytes as u64, 0, 0];
    let alike = graph.number == 0 && graph.outcome == wanted;
    (!alike).then(|| format!("{} {:?}, and not {wanted:?}", graph.number, graph.outcome))
}

fn reservations(random: &mut Random) -> Vec<u32> {
    match random.below(6) {
        0 => Vec::new(),
        1 => vec![TOP; 3],
        2 | 3 => vec![TOP; 6],
        4 => vec![64, TOP | 128, TOP, 32, 32, TOP | 8, TOP | 16],
        _ => {
            let mut found = vec![TOP; 7];
            found.extend([5, 6]);
            found
        }
    }
}

// ---- comparing

/// What differs, if anything does.
fn compared(
    capture: &mut rust::Capture,
    tally: &mut Tally,
    family: &str,
    call: &Call,
    integers: Option<Vec<Integer>>,
) -> Option<String> {
    let bytes = call.payload.len();
    // Deferred entries can ask for far more slots than these; the Rust is not walked then.
    let records = [bytes / 2 + 2, 8 * bytes + 4096, bytes + 2, bytes / 2 + 2];
    let graph = port::graph(call, [0, 1, 2, 3].map(|table| records[table] * FIELDS[table]));
    *tally.outcomes.entry((family.into(), graph.number)).or_default() += 1;
    let odd = graph.left_over();
    odd.or_else(|| against_reader(tally, call, &graph, integers))
        .or_else(|| against_rust(capture, tally, call, &graph))
        .or_else(|| other_scratch(call, &graph))
        .or_else(|| other_rooms(tally, call, &graph))
}

/// The library beside the reader that was written from docs/FORMAT.md alone (tools/oracle): the
/// first line of `graphlist`. Where that reader meets the integers that the generator wrote, each at
/// its place, the generator's own count is compared too.
fn against_reader(
    tally: &mut Tally,
    call: &Call,
    graph: &Graph,
    integers: Option<Vec<Integer>>,
) -> Option<String> {
    let sheet = Numbers::from_numbers(&call.sheet)?;
    let (trusted, payload, reserve) = (Vec::new(), call.payload.clone(), call.reserve.clone());
    let input = Input { sheet, trusted, payload, reserve };
    if graph.number == 3 || input.not_walked().is_some() {
        return None;
    }
    let read = reader::read(&input);
    let (got, wanted) = (graph.first_line(), reader::first_line(&read));
    if got != wanted {
        return Some(format!("{got}, the reader of docs/FORMAT.md has {wanted}"));
    }
    let reading = read.ok()?;
    for integer in reading.integers.iter().filter(|integer| integer.bytes > integer.needed) {
        tally.long.entry(integer.what).or_default()[integer.bytes - 2] += 1;
    }
    let integers = integers?;
    if !reading.integers.iter().map(|i| i.place).eq(integers.iter().map(|i| i.place)) {
        return None;
    }
    let long = integers.iter().filter(|integer| integer.long).count() as u64;
    tally.noted[0] += 1;
    tally.noted[1] += (long > 0) as u64;
    (graph.outcome[6] != long)
        .then(|| format!("{} integers longer than needed, {long} were written", graph.outcome[6]))
}

fn against_rust(
    capture: &mut rust::Capture,
    tally: &mut Tally,
    call: &Call,
    graph: &Graph,
) -> Option<String> {
    let got = graph.text();
    let sheet = Numbers::from_numbers(&call.sheet);
    let input = sheet.map(|sheet| Input {
        sheet,
        trusted: call.trusted.clone(),
        payload: call.payload.clone(),
        reserve: call.reserve.clone(),
    });
    let not_walked = input.as_ref().map_or(Some("refused 1 0"), Input::not_walked);
    if let Some(wanted) = not_walked {
        return (got != wanted).then(|| format!("{got}, and not {wanted}"));
    }
    let input = input?;
    if input.sheet.root_array_inside() {
        tally.not_asked += 1;
        return None;
    }
    if graph.number == 3 {
        return None;
    }
    let walked = capture.walk(&input);
    let wanted = capture.answer(&input, &walked);
    let accepted = graph.number == 0;
    // The Rust goes on where 16 refuses.
    if let (Ok(objects), true) = (&walked.objects, accepted) {
        if let Some(text) = graph.differs_from(objects) {
            return Some(text);
        }
    }
    if wanted.starts_with("refused 16 ") {
        return (graph.number != 16).then(|| format!("{}, the Rust wraps a sum", graph.first_line()));
    }
    let untold = wanted.contains('?') || may_hide_values(&input.sheet);
    if untold && accepted && wanted.starts_with("graph") {
        tally.partly += 1;
        return different(&told(&got), &told(&wanted));
    }
    different(&got, &wanted)
}

/// Where kResolvePendingForwardRef has the byte of another name, values that the closing section
/// drops may be missing in what is rebuilt from the Rust's answer (tools/oracle).
fn may_hide_values(sheet: &Numbers) -> bool {
    let numbers = sheet.numbers().try_into().expect("a sheet that was taken has 58 numbers");
    let sheet = sheets::Sheet { family: "", numbers };
    let Some(byte) = sheet.get("kResolvePendingForwardRef") else { return false };
    let shares = |name: &str| {
        let first = sheet.get(name).unwrap_or(usize::MAX);
        let opens = if name == "kNewObject" { sheet.or("kBackref", 0).saturating_sub(first) } else { 0 };
        first <= byte && byte - first < sheet.span(name).max(opens)
    };
    let others = NAMES[..sheets::TAGS].iter().filter(|name| **name != "kResolvePendingForwardRef");
    others.into_iter().any(|name| shares(name))
}

/// Without the values, their count and their numbers.
fn told(text: &str) -> String {
    let lines = text.lines().filter(|line| !line.starts_with('v')).map(|line| {
        let words: Vec<&str> = line.split(' ').collect();
        match words[..] {
            ["graph", objects, slots, _, addresses, end, long] => {
                format!("graph {objects} {slots} {addresses} {end} {long}")
            }
            ["s", object, index, "7", count, _, waits] => format!("s {object} {index} 7 {count} {waits}"),
            ["s", object, index, "12", _, b, waits] => format!("s {object} {index} 12 {b} {waits}"),
            _ => line.into(),
        }
    });
    lines.collect::<Vec<_>>().join("\n")
}

fn different(got: &str, wanted: &str) -> Option<String> {
    if got == wanted {
        return None;
    }
    let mut pairs = got.lines().zip(wanted.lines());
    let (got, wanted) = pairs.find(|(a, b)| a != b).unwrap_or(("one has more lines", "the other fewer"));
    Some(format!("{got}, the Rust has {wanted}"))
}

/// Without scratch, with room in the index for half of the records, and with as much as is of use,
/// which holds other numbers than before, the graph is the same.
fn other_scratch(call: &Call, graph: &Graph) -> Option<String> {
    if graph.number != 0 {
        return None;
    }
    let payload = &call.payload;
    let half = Call::scratch_for(payload, graph.outcome[3] as usize / 2);
    [0, half, Call::full_scratch(payload)].into_iter().find_map(|scratch| {
        let other = port::graph(&Call { scratch, fill: !call.fill, ..call.clone() }, graph.lengths());
        let changed = || (!graph.is_same(&other)).then(|| format!("another graph with {scratch} of scratch"));
        other.left_over().or_else(changed)
    })
}

/// With rooms that are just enough the answer is the same; with one record less in one table it is
/// 3.
fn other_rooms(tally: &mut Tally, call: &Call, graph: &Graph) -> Option<String> {
    if graph.number != 0 || call.payload.len() > 100_000 {
        return None;
    }
    tally.rooms += 1;
    let lengths = graph.lengths();
    let exact = port::graph(call, lengths);
    let odd = exact.left_over().or_else(|| {
        (exact.text() != graph.text()).then(|| format!("{} with exact rooms", exact.first_line()))
    });
    if odd.is_some() {
        return odd;
    }
    for table in 0..4 {
        if lengths[table] == 0 {
            continue;
        }
        let mut short = lengths;
        short[table] -= 1;
        let refused = port::graph(call, short);
        if refused.number != 3 || refused.outcome[5] > call.payload.len() as u64 {
            return Some(format!("{} with a short table {table}", refused.first_line()));
        }
        if let Some(odd) = refused.left_over() {
            return Some(format!("{odd}, with a short table {table}"));
        }
    }
    None
}

// ---- what is printed

impl Tally {
    fn report(&mut self, name: &str, call: &Call, difference: Option<String>) {
        let Some(text) = difference else {
            return;
        };
        self.differences += 1;
        if self.shown == 0 {
            return;
        }
        self.shown -= 1;
        println!("{name}: {text}");
        let sheet: Vec<u8> = call.sheet.iter().flat_map(|n| n.to_le_bytes()).collect();
        let reserve: Vec<u8> = call.reserve.iter().flat_map(|n| n.to_le_bytes()).collect();
        println!("  sheet {}", hex(&sheet));
        println!("  payload {}", hex(&call.payload));
        println!("  reserve {}", hex(&reserve));
        println!("  trusted {}, scratch {} of {}", hex(&call.trusted), call.scratch, call.fill);
    }

    fn print(&self) {
        let mut families: BTreeMap<&str, Vec<String>> = BTreeMap::new();
        let mut numbers: BTreeMap<u64, u64> = BTreeMap::new();
        for ((family, number), count) in &self.outcomes {
            let name = if *number == 0 { "accepted".into() } else { number.to_string() };
            families.entry(family).or_default().push(format!("{name}: {count}"));
            *numbers.entry(*number).or_default() += count;
        }
        for (family, counts) in families {
            println!("{family}: {}", counts.join(", "));
        }
        let total: u64 = numbers.values().sum();
        let outside: u64 = [1, 2, 3, 16].iter().filter_map(|n| numbers.get(n)).sum();
        let refused: Vec<String> =
            numbers.iter().filter(|(n, _)| **n != 0).map(|(n, count)| format!("{n}: {count}")).collect();
        println!(
            "{total} inputs, {} accepted, {outside} outside the comparison of graphs",
            numbers.get(&0).unwrap_or(&0)
        );
        println!("refused {}", refused.join(", "));
        println!("{} accepted with other rooms, {} compared without values", self.rooms, self.partly);
        println!("{} with kRootArray inside the new-object span, not run against the Rust", self.not_asked);
        let [noted, long] = self.noted;
        println!("{noted} by the generator's own count of long integers, {long} of them with some");
        println!("long integers that were read:");
        for (what, [two, three, four]) in &self.long {
            println!("  {what}: {two} of 2 bytes, {three} of 3, {four} of 4");
        }
        println!("{} differences", self.differences);
    }
}

fn hex(bytes: &[u8]) -> String {
    let most = 2000;
    let text: String = bytes.iter().take(most).map(|b| format!("{b:02x}")).collect();
    if bytes.len() > most {
        format!("{text}.. ({} bytes)", bytes.len())
    } else {
        text
    }
}
