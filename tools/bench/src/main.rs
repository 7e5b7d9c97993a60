//! Times the library beside the Rust that it is a port of, and beside a walker written by hand
//! (twin.rs), on the same payloads; and its calls over filled tables.

mod clock;
mod filled;
mod library;
mod real;
mod rows;
mod sheets;
mod stack;
mod twin;

use library::{Call, Outcome, Tables};
use oracle::sheet::Sheet;
use oracle::Input;
use rows::ROWS;
use sheets::Family;
use std::collections::BTreeMap;
use std::path::PathBuf;
use std::process::ExitCode;
use std::sync::atomic::Ordering;
use std::time::{Duration, Instant};

const USAGE: &str = "usage: bench [--sizes MB,MB,..] [--repeats N] [--seconds S] [--variables N]
             [--only TEXT] [--without rust] [--without scratch] [--seed N]
             [--real FOLDER or none] [--payloads N] [--stack yes]";
const MB: f64 = 1048576.0;
/// At the largest size the time for a byte is at most so many times that at the smallest; and at
/// most so many times the twin's.
const GROWTH_AIM: f64 = 1.5;
const TWIN_AIM: f64 = 2.0;

struct Options {
    /// Payload sizes in bytes.
    sizes: Vec<usize>,
    repeats: usize,
    /// After this time no further run of the same is begun.
    limit: Duration,
    /// How many environment variables there are.
    variables: usize,
    only: String,
    rust: bool,
    scratch: bool,
    real: Option<PathBuf>,
    /// How many real payloads are timed.
    payloads: usize,
    stack: bool,
}

fn options() -> Result<Options, String> {
    let mut given = Options {
        sizes: [1.0, 4.0, 16.0].map(|n| (n * MB) as usize).to_vec(),
        repeats: 5,
        limit: Duration::from_secs(2),
        variables: 0,
        only: String::new(),
        rust: oracle::PRESENT,
        scratch: true,
        real: Some(oracle::real::folder()),
        payloads: 3,
        stack: false,
    };
    let mut words = std::env::args().skip(1);
    while let Some(word) = words.next() {
        let value = words.next().ok_or(USAGE)?;
        let number = |text: &str| text.parse::<f64>().ok().filter(|n| *n >= 0.0).ok_or(USAGE.to_string());
        match word.as_str() {
            "--sizes" => {
                let sizes: Result<Vec<f64>, String> = value.split(',').map(number).collect();
                given.sizes = sizes?.into_iter().map(|n| (n * MB) as usize).collect();
            }
            "--repeats" => given.repeats = number(&value)? as usize,
            "--seconds" => given.limit = Duration::from_secs_f64(number(&value)?),
            "--variables" => given.variables = number(&value)? as usize,
            "--only" => given.only = value,
            "--without" if value == "rust" => given.rust = false,
            "--without" if value == "scratch" => given.scratch = false,
            "--seed" => library::SEED.store(value.parse().map_err(|_| USAGE)?, Ordering::Relaxed),
            "--real" if value == "none" => given.real = None,
            "--real" => given.real = Some(value.into()),
            "--payloads" => given.payloads = number(&value)? as usize,
            "--stack" => given.stack = value == "yes",
            _ => return Err(USAGE.into()),
        }
    }
    Ok(given)
}

fn main() -> ExitCode {
    match options().and_then(|given| run(&given)) {
        Ok(()) => ExitCode::SUCCESS,
        Err(text) => {
            eprintln!("{text}");
            ExitCode::FAILURE
        }
    }
}

/// Nanoseconds for each byte of a payload.
struct Timed {
    library: f64,
    rust: Option<f64>,
    twin: Option<f64>,
    /// Integers of the payload that are longer than their values need.
    long: u64,
}

/// The times of one row at each size, and how many times as fast as the Rust the library should be.
struct Times {
    name: String,
    aim: f64,
    sizes: Vec<Timed>,
}

fn run(given: &Options) -> Result<(), String> {
    let wanted = |name: &str| name.contains(&given.only);
    let real = match &given.real {
        Some(folder) => real::calls(folder, given.payloads, wanted)?,
        None => Vec::new(),
    };
    if !oracle::PRESENT {
        eprintln!("{}", oracle::WANTED);
    }
    // The Rust asks for several environment variables for each byte, and each asking takes longer
    // the more there are.
    std::env::vars_os().for_each(|(name, _)| std::env::remove_var(name));
    (0..given.variables).for_each(|k| std::env::set_var(format!("VARIABLE_{k}"), "value"));

    println!(
        "Nanoseconds of processor time for each payload byte, the least of up to {} runs.",
        given.repeats
    );
    println!();
    println!("| payload | bytes | Rust | library | Rust / library | aim | twin | library / twin |");
    println!("|---|---:|---:|---:|---:|---:|---:|---:|");
    let mut times: Vec<Times> = Vec::new();
    for row in ROWS.iter().filter(|row| wanted(row.name)) {
        let mut sizes: Vec<Timed> = Vec::new();
        for size in &given.sizes {
            sizes.push(measured(given, row.name, &row.call(*size), row.aim)?);
        }
        times.push(Times { name: row.name.into(), aim: row.aim, sizes });
    }
    for (title, call) in real {
        let sizes = vec![measured(given, &title, &call, real::AIM)?];
        times.push(Times { name: title, aim: real::AIM, sizes });
    }
    print_notes(given, &times);
    print_aims(&times);
    filled::print(given)?;
    if given.stack {
        print_stack();
    }
    Ok(())
}

fn print_notes(given: &Options, times: &[Times]) {
    let mut long: BTreeMap<u64, usize> = BTreeMap::new();
    for timed in times.iter().flat_map(|row| &row.sizes) {
        *long.entry(timed.long).or_default() += 1;
    }
    let long: Vec<String> = long.iter().map(|(long, count)| format!("{long} in {count} payloads")).collect();
    if !long.is_empty() {
        println!();
        println!("Integers longer than their values need: {}.", long.join(", "));
    }
    let mut timed = ROWS.iter().filter(|row| row.name.contains(&given.only));
    if given.rust && timed.any(|row| row.family == Family::Six) {
        println!();
        println!(
            "The Rust's time for 6.x repeats grows with the square of a chain's length: chains are short."
        );
    }
}

/// The worst of each row beside the aims.
fn print_aims(rows: &[Times]) {
    println!();
    println!("The worst size of each row, and growth from the first size to the last; missed aims in bold:");
    println!();
    println!("| payload | Rust / library, least | aim | growth | aim | library / twin, most | aim |");
    println!("|---|---:|---:|---:|---:|---:|---:|");
    for row in rows {
        let against_rust = row.sizes.iter().filter_map(|t| t.rust.map(|rust| rust / t.library));
        let against_twin = row.sizes.iter().filter_map(|t| t.twin.map(|twin| t.library / twin));
        let growth = match &row.sizes[..] {
            [first, .., last] => Some(last.library / first.library),
            _ => None,
        };
        println!(
            "| {} | {} | {} | {} |",
            row.name,
            against_aim(against_rust.reduce(f64::min), 2, row.aim, |n| n >= row.aim),
            against_aim(growth, 2, GROWTH_AIM, |n| n <= GROWTH_AIM),
            against_aim(against_twin.reduce(f64::max), 1, TWIN_AIM, |n| n <= TWIN_AIM),
        );
    }
}

/// A number with so many decimals, and its aim.
fn against_aim(number: Option<f64>, decimals: usize, aim: f64, met: impl Fn(f64) -> bool) -> String {
    let Some(number) = number else { return "– | –".into() };
    let bold = if met(number) { "" } else { "**" };
    format!("{bold}{number:.decimals$}{bold} | {aim}")
}

fn print_stack() {
    println!();
    println!("Bytes of stack that a call takes, with objects inside each other:");
    println!();
    println!("| payload | objects | each in a slot | each in a map | refusal |");
    println!("|---|---:|---:|---:|---:|");
    for (name, objects, [slot, map], number) in stack::measured() {
        println!("| {name} | {objects} | {slot} | {map} | {number} |");
    }
}

/// Checks that all give the same, times them and prints a line.
fn measured(given: &Options, name: &str, call: &Call, aim: f64) -> Result<Timed, String> {
    let input = Input {
        sheet: Sheet::from_numbers(&call.sheet).ok_or("not a sheet")?,
        trusted: Vec::new(),
        payload: call.payload.clone(),
        reserve: call.reserve.clone(),
    };
    let plain = !input.sheet.legacy();
    let mut tables = exact(given, name, call, !plain)?;
    let first = match oracle::PRESENT {
        true => check_rust(name, &input, library::graph(call, &mut tables).1)?,
        false => Duration::MAX,
    };
    let long = library::graph(call, &mut tables).1[6];
    let mut other = plain.then(|| tables.clone());
    if let Some(other) = &mut other {
        check_twin(name, call, &mut tables, other)?;
    }
    let bytes = call.payload.len();
    let of_byte = |time: Duration| time.as_nanos() as f64 / bytes as f64;
    let library = of_byte(least(given, || library::graph(call, &mut tables)));
    let twin = other.map(|mut other| of_byte(least(given, || twin::graph(call, &mut other))));
    drop(tables);
    let rust = given.rust.then(|| of_byte(first.min(least(given, || input.walk(&input.payload)))));
    let number = |n: Option<f64>| n.map_or("–".into(), |n| format!("{n:.2}"));
    println!(
        "| {name} | {bytes} | {} | {library:.2} | {} | {aim} | {} | {} |",
        number(rust),
        number(rust.map(|rust| rust / library)),
        number(twin),
        number(twin.map(|twin| library / twin)),
    );
    Ok(Timed { library, rust, twin, long })
}

/// The least time of some runs. What a run gives is dropped outside the time.
fn least<T>(given: &Options, mut work: impl FnMut() -> T) -> Duration {
    let begin = Instant::now();
    let mut least = Duration::MAX;
    for run in 0..given.repeats.max(1) {
        if run > 0 && begin.elapsed() >= given.limit {
            break;
        }
        let start = clock::used();
        let answer = std::hint::black_box(work());
        least = least.min(clock::used() - start);
        drop(answer);
    }
    least
}

/// Tables with exactly the room that a payload needs.
fn exact(given: &Options, name: &str, call: &Call, legacy: bool) -> Result<Tables, String> {
    let bytes = call.payload.len();
    let mut tables = Tables::enough(bytes, legacy);
    let (number, outcome) = library::graph(call, &mut tables);
    if number != 0 {
        return Err(format!("{name}: the library refuses it with {number} at {}", outcome[5]));
    }
    tables.shrink(bytes, legacy, &outcome);
    if !given.scratch {
        tables.scratch = Vec::new();
    }
    Ok(tables)
}

/// The time that the Rust takes, if it has as many objects and slots as the library.
fn check_rust(name: &str, input: &Input, outcome: Outcome) -> Result<Duration, String> {
    let start = clock::used();
    let walked = input.walk(&input.payload);
    let time = clock::used() - start;
    let objects = walked.map_err(|text| format!("{name}: the Rust refuses it, {text}"))?;
    let slots: usize = objects.iter().map(|object| object.slots.len()).sum();
    let (rust, library) = ([objects.len() as u64, slots as u64], [outcome[0], outcome[1]]);
    if rust != library {
        return Err(format!(
            "{name}: objects and slots are {rust:?} in the Rust, {library:?} in the library"
        ));
    }
    Ok(time)
}

fn check_twin(name: &str, call: &Call, tables: &mut Tables, other: &mut Tables) -> Result<(), String> {
    let same = library::graph(call, tables) == twin::graph(call, other) && tables.records == other.records;
    if same {
        Ok(())
    } else {
        Err(format!("{name}: the twin's tables are not the library's"))
    }
}
