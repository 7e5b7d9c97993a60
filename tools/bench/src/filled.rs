//! Calls over filled tables (docs/FORMAT.md, "Filled tables"). The tables are written here, not by
//! a walk, with as many slots as a size has bytes.

use crate::library::{kept, range_at, Tables};
use crate::rows::Random;
use crate::{against_aim, least, Options, GROWTH_AIM};
use std::hint::black_box;
use std::time::Duration;

pub struct Row {
    pub name: &'static str,
    make: fn(usize) -> Case,
}

struct Case {
    tables: Tables,
    asked: Asked,
}

enum Asked {
    /// Which range covers the byte at this offset, and what is to be answered.
    Covering(u64, [u64; 3]),
    /// What the top object keeps: each object of the table, in no row under a weak value.
    Kept,
}

/// Bytes of each object.
const BYTES: u64 = 8;
/// The bytes of each range, and from the begin of one to that of the next.
const RANGE: u64 = 8;
const STRIDE: u64 = 16;
/// In the answer of the search, no slot.
const NONE: u64 = u64::MAX;
/// Kinds of values.
const OBJECT: u64 = 1;
const RAW: u64 = 5;
const REPEAT: u64 = 7;
/// How many times in a run a call is made that looks at one slot.
const TIMES: usize = 1000;

pub const ROWS: [Row; 8] = [
    Row { name: "range_at, the first slot covers", make: first_covers },
    Row { name: "range_at, the last slot covers", make: last_covers },
    Row { name: "range_at, none covers, ranges scattered", make: none_covers },
    Row { name: "kept, list in table order", make: |n| list((1..n).chain([0]).collect()) },
    Row {
        name: "kept, list against table order",
        make: |n| list([n - 1].into_iter().chain(0..n - 1).collect()),
    },
    Row { name: "kept, list scattered", make: |n| list(cycle(n)) },
    Row { name: "kept, one object of all slots", make: one_object },
    Row { name: "kept, slots at each record of a chain", make: chain },
];

/// A number for each below `n`, so that going from one to its number meets all.
fn cycle(n: usize) -> Vec<usize> {
    let mut next: Vec<usize> = (0..n).collect();
    let mut random = Random(6);
    (1..n).rev().for_each(|k| next.swap(k, random.below(k)));
    next
}

/// Tables with these records, and scratch as the call over objects needs it for linear time.
fn tables(objects: usize, slots: impl Iterator<Item = [u64; 6]>, values: Vec<u64>) -> Tables {
    let objects = [BYTES, 0, 0, 1].repeat(objects);
    let slots: Vec<u64> = slots.flatten().collect();
    let scratch = values.len() / 3 + slots.len() / 6 + 2 * (objects.len() / 4);
    let lent = Tables::with_room([0; 4], scratch);
    Tables { records: [objects, slots, values, Vec::new()], scratch: lent.scratch }
}

/// One object whose slots have these ranges, by their numbers from the payload's begin on.
fn ranges(numbers: impl Iterator<Item = usize>) -> Tables {
    let slot = |(k, range): (usize, usize)| [0, k as u64, RAW, range as u64 * STRIDE, RANGE, 0];
    tables(1, numbers.enumerate().map(slot), Vec::new())
}

fn first_covers(n: usize) -> Case {
    Case { tables: ranges(0..n), asked: Asked::Covering(0, [0, NONE, NONE]) }
}

/// Each range is nearer than the one before.
fn last_covers(n: usize) -> Case {
    let last = n as u64 - 1;
    Case { tables: ranges(0..n), asked: Asked::Covering(last * STRIDE, [last, NONE, NONE]) }
}

fn none_covers(n: usize) -> Case {
    let order = cycle(n);
    let slot = |range: usize| order.iter().position(|r| *r == range).map_or(NONE, |k| k as u64);
    let middle = n / 2;
    let asked = Asked::Covering(middle as u64 * STRIDE + RANGE, [NONE, slot(middle), slot(middle + 1)]);
    Case { tables: ranges(order.into_iter()), asked }
}

/// Objects of one slot each, which refers to the object of the number that stands there.
fn list(next: Vec<usize>) -> Case {
    let slot = |(k, next): (usize, usize)| [k as u64, 0, OBJECT, next as u64, 0, 0];
    Case {
        tables: tables(next.len(), next.into_iter().enumerate().map(slot), Vec::new()),
        asked: Asked::Kept,
    }
}

/// All slots of the first of two objects refer to the other.
fn one_object(n: usize) -> Case {
    let slots = (0..n as u64).map(|k| [0, k, OBJECT, 1, 0, 0]);
    Case { tables: tables(2, slots, Vec::new()), asked: Asked::Kept }
}

/// As many value records as slots, each a repeat of the record before; and a slot that is a repeat
/// of each.
fn chain(n: usize) -> Case {
    let slots = (0..n as u64).map(|k| [0, k, REPEAT, 2, k, 0]);
    let before = (0..n as u64 - 1).flat_map(|k| [REPEAT, 2, k]);
    Case { tables: tables(2, slots, [OBJECT, 1, 0].into_iter().chain(before).collect()), asked: Asked::Kept }
}

/// The sum of all numbers, which reads the tables once.
fn sum(tables: &Tables) -> u64 {
    tables
        .records
        .iter()
        .map(|table| table.iter().fold(0u64, |sum, n| sum.wrapping_add(*n)))
        .fold(0, u64::wrapping_add)
}

/// Nanoseconds for each slot looked at, of the call and of reading the tables once.
fn measured(given: &Options, name: &str, case: &mut Case, n: usize) -> Result<(f64, Option<f64>), String> {
    let of_slot = |time: Duration, slots: usize| time.as_nanos() as f64 / slots as f64;
    let tables = &mut case.tables;
    let call = match case.asked {
        Asked::Covering(offset, wanted) => {
            if range_at(tables, offset) != (0, wanted) {
                return Err(format!("{name}: another slot is found"));
            }
            if wanted[0] == 0 {
                let call = |_| _ = black_box(range_at(tables, black_box(offset)));
                return Ok((of_slot(least(given, || (0..TIMES).for_each(call)), TIMES), None));
            }
            least(given, || range_at(tables, offset))
        }
        Asked::Kept => {
            let mut marks = vec![9; tables.records[0].len() / 4];
            let bytes = BYTES * marks.len() as u64;
            if kept(tables, &mut marks) != (0, [bytes; 2]) || marks.iter().any(|mark| *mark != 1) {
                return Err(format!("{name}: not all is kept"));
            }
            least(given, || kept(tables, &mut marks))
        }
    };
    Ok((of_slot(call, n), Some(of_slot(least(given, || sum(tables)), n))))
}

/// Times the rows that are wanted, and prints them.
pub fn print(given: &Options) -> Result<(), String> {
    let rows: Vec<&Row> = ROWS.iter().filter(|row| row.name.contains(&given.only)).collect();
    if rows.is_empty() {
        return Ok(());
    }
    println!();
    println!("Nanoseconds of processor time for each slot looked at, calls over filled tables:");
    println!();
    println!("| call | slots | library | tables read once | library / read |");
    println!("|---|---:|---:|---:|---:|");
    let mut growths = Vec::new();
    for row in rows {
        let mut times = Vec::new();
        for size in &given.sizes {
            let n = (*size).max(2);
            let (call, read) = measured(given, row.name, &mut (row.make)(n), n)?;
            let number = |n: Option<f64>| n.map_or("–".into(), |n| format!("{n:.2}"));
            println!(
                "| {} | {n} | {call:.2} | {} | {} |",
                row.name,
                number(read),
                number(read.map(|read| call / read)),
            );
            times.push(call);
        }
        if let [first, .., last] = times[..] {
            growths.push((row.name, last / first));
        }
    }
    if !growths.is_empty() {
        println!();
        println!("| call | growth | aim |");
        println!("|---|---:|---:|");
    }
    for (name, growth) in growths {
        println!("| {name} | {} |", against_aim(Some(growth), 2, GROWTH_AIM, |n| n <= GROWTH_AIM));
    }
    Ok(())
}
