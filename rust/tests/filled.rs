//! What is asked of filled tables, held to a search that looks at every slot and object, over
//! tables of random numbers.

mod common;
#[allow(dead_code)]
#[path = "../src/ffi.rs"]
mod ffi;

/// What src/ffi.rs takes of the crate.
mod read {
    pub use dawichko::Call;
}

use common::{bytes, pairs, repository, sheet, A};
use dawichko::{decode_smi_bytes, read, Call, Covering, Graph, Number, Refusal, Sheet, Value, Wish};
use ffi::Filled;
use std::fs;

/// Numbers from a seed, by xorshift.
struct Random(u64);

impl Random {
    fn next(&mut self) -> u64 {
        self.0 ^= self.0 << 13;
        self.0 ^= self.0 >> 7;
        self.0 ^= self.0 << 17;
        self.0
    }

    fn below(&mut self, most: u64) -> u64 {
        self.next() % most
    }

    /// Mostly a small number, at times one near 2^64.
    fn number(&mut self, most: u64) -> u64 {
        match self.below(24) {
            0 => u64::MAX - self.below(most),
            1 => self.next(),
            _ => self.below(most),
        }
    }
}

/// Tables with any numbers in them, with counts and starts that mostly fit.
struct Tables {
    objects: Vec<u64>,
    slots: Vec<u64>,
    values: Vec<u64>,
    starts: [u64; 4],
    counts: [u64; 4],
}

const FIELDS: [usize; 4] = [4, 6, 3, 5];

impl Tables {
    fn random(random: &mut Random) -> Tables {
        let rooms = [random.below(6), random.below(12), random.below(6), 0];
        let mut table = |n: usize| -> Vec<u64> {
            let numbers = rooms[n] as usize * FIELDS[n] + random.below(FIELDS[n] as u64) as usize;
            (0..numbers).map(|_| random.number(14)).collect()
        };
        let (mut objects, slots, values) = (table(0), table(1), table(2));
        // byte sizes whose sum seldom passes 2^64 - 1
        for size in objects.iter_mut().step_by(4) {
            *size = if random.below(40) == 0 { random.next() } else { random.below(100) };
        }
        let counts = rooms.map(|room| match random.below(30) {
            0 => room + 1,
            1 => random.number(8),
            _ => room - random.below(room.min(2) + 1),
        });
        let starts = counts.map(|count| match random.below(30) {
            0 => count.saturating_add(1),
            n if n < 12 => random.below(count.min(4) + 1),
            _ => 0,
        });
        Tables { objects, slots, values, starts, counts }
    }

    fn filled(&self) -> Filled<'_> {
        let Tables { objects, slots, values, starts, counts } = self;
        Filled { objects, slots, values, addresses: &[], starts: *starts, counts: *counts }
    }

    /// 17 does not come.
    fn fits(&self, starts: [u64; 4]) -> bool {
        let lengths = [self.objects.len(), self.slots.len(), self.values.len(), 0];
        (0..4).all(|n| starts[n] <= self.counts[n] && self.counts[n] <= (lengths[n] / FIELDS[n]) as u64)
    }

    fn slot(&self, k: u64) -> &[u64] {
        &self.slots[k as usize * 6..][..6]
    }

    /// The range of a slot, if it is raw.
    fn range(&self, k: u64) -> Option<(u128, u128)> {
        let slot = self.slot(k);
        let begin = slot[3] as u128;
        matches!(slot[2], 5 | 6).then_some((begin, begin + slot[4] as u128))
    }

    fn listed_slots(&self) -> impl Iterator<Item = u64> {
        self.starts[1]..self.counts[1]
    }

    fn covering(&self, offset: u64) -> [u64; 3] {
        const NONE: u64 = u64::MAX;
        let offset = offset as u128;
        let ranges = || self.listed_slots().filter_map(|k| self.range(k).map(|(begin, end)| (k, begin, end)));
        if let Some((k, ..)) = ranges().find(|(_, begin, end)| *begin <= offset && offset < *end) {
            return [k, NONE, NONE];
        }
        let before = ranges().filter(|(.., end)| *end <= offset).map(|(k, _, end)| (offset - end, k)).min();
        let after = ranges().filter(|(_, begin, _)| offset < *begin).map(|(k, begin, _)| (begin - offset, k));
        [NONE, before.map_or(NONE, |(_, k)| k), after.min().map_or(NONE, |(_, k)| k)]
    }

    /// The object that a slot leads to, and whether under a weak value.
    fn reference(&self, k: u64) -> Option<(u64, bool)> {
        let slot = self.slot(k);
        let (mut kind, mut a, mut b) = (slot[2], slot[3], slot[4]);
        let (mut weak, mut most) = (false, self.counts[2]);
        loop {
            let value = match kind {
                1 => return (self.starts[0] <= a && a < self.counts[0]).then_some((a, weak)),
                7 => b,
                12 => a,
                _ => return None,
            };
            weak |= kind == 12;
            if value < self.starts[2] || most <= value {
                return None;
            }
            most = value;
            let record = &self.values[value as usize * 3..][..3];
            (kind, a, b) = (record[0], record[1], record[2]);
        }
    }

    /// Marks by going over all slots until no mark is new.
    fn reached(&self, through_weak: bool) -> Vec<bool> {
        let mut marks = vec![false; self.counts[0] as usize];
        if self.starts[0] < self.counts[0] {
            marks[self.starts[0] as usize] = true;
        }
        loop {
            let before = marks.clone();
            for k in self.listed_slots() {
                let object = self.slot(k)[0];
                let listed = self.starts[0] <= object && object < self.counts[0];
                if let (true, Some((target, weak))) = (listed, self.reference(k)) {
                    if marks[object as usize] && (through_weak || !weak) {
                        marks[target as usize] = true;
                    }
                }
            }
            if marks == before {
                return marks;
            }
        }
    }

    fn size(&self, object: usize) -> u128 {
        self.objects[object * 4] as u128
    }
}

const TABLES: usize = 20_000;

#[test]
fn ranges_as_by_search() {
    let mut random = Random(0x9E37_79B9_7F4A_7C15);
    let mut seen = [0; 3];
    for _ in 0..TABLES {
        let tables = Tables::random(&mut random);
        let (length, offset) = (random.number(20), random.number(16));
        let (number, answer) = ffi::range_at(tables.filled(), length, offset);
        let wanted = match (tables.fits(tables.starts), offset < length) {
            (false, _) => (17, [0; 3]),
            (_, false) => (18, [0; 3]),
            _ => (0, tables.covering(offset)),
        };
        assert_eq!((number, answer), wanted, "{length} {offset} {:?}", tables.slots);
        seen[if number == 0 { 0 } else { number as usize - 16 }] += 1;
    }
    assert!(seen.iter().all(|n| *n > TABLES / 50), "{seen:?}");
}

#[test]
fn kept_as_by_search() {
    let mut random = Random(0xD1B5_4A32_D192_ED03);
    let mut seen = [0; 3];
    for _ in 0..TABLES {
        let tables = Tables::random(&mut random);
        let fits = tables.fits(tables.starts);
        let objects = if fits { tables.counts[0] as usize } else { 3 };
        let length = (objects + random.below(3) as usize).saturating_sub((random.below(20) == 0) as usize);
        let mut marks = vec![9; length];
        let mut scratch = vec![0; random.below(40) as usize];
        scratch.iter_mut().for_each(|number| *number = random.number(20));
        let (number, sums) = ffi::kept(tables.filled(), &mut marks, &mut scratch);
        let part = || tables.starts[0] as usize..tables.counts[0] as usize;
        if !fits || length < objects || part().map(|o| tables.size(o)).sum::<u128>() > u64::MAX as u128 {
            assert_eq!((number, sums), (if fits { 19 } else { 17 }, [0; 2]));
            assert!(marks.iter().all(|mark| *mark == 9));
        } else {
            let any = tables.reached(true);
            let strong = tables.reached(false);
            let sum = |marks: &[bool]| part().filter(|o| marks[*o]).map(|o| tables.size(o) as u64).sum();
            assert_eq!((number, sums), (0, [sum(&any), sum(&strong)]));
            let mut wanted: Vec<u8> = any.into_iter().map(u8::from).collect();
            wanted.resize(length, 0);
            assert_eq!(marks, wanted);
        }
        let place = [0, 17, 19].iter().position(|known| *known == number).expect("a number of this call");
        seen[place] += 1;
    }
    assert!(seen.iter().all(|n| *n > TABLES / 200), "{seen:?}");
}

/// The small integer of a word, by its bits.
fn smi(word: &[u8]) -> Option<u64> {
    match *word {
        [a, b, c, d] if a % 2 == 0 => Some((i32::from_le_bytes([a, b, c, d]) / 2) as i64 as u64),
        [0, 0, 0, 0, a, b, c, d] => Some(i32::from_le_bytes([a, b, c, d]) as i64 as u64),
        _ => None,
    }
}

#[test]
fn numbers_as_by_hand() {
    let mut random = Random(0x2545_F491_4F6C_DD1D);
    let mut seen = [0; 4];
    for _ in 0..TABLES {
        let tables = Tables::random(&mut random);
        let payload: Vec<u8> = (0..random.below(40))
            .map(|_| if random.below(2) == 0 { 0 } else { random.next() as u8 })
            .collect();
        let (slot, at) = (random.number(12), random.number(6));
        let wish = [0, 4, 4, 8, 8, 5, u64::MAX][random.below(7) as usize];
        let in_payload = || {
            let listed = tables.fits([0; 4]) && slot < tables.counts[1];
            let (begin, end) = listed.then(|| tables.range(slot)).flatten()?;
            (end <= payload.len() as u128).then_some((begin as usize, end as usize))
        };
        let view = ffi::view(tables.filled(), &payload, slot);
        let number = ffi::number(tables.filled(), &payload, slot, at, wish);
        match in_payload() {
            None => assert_eq!((view, number), ((17, [0; 2]), (17, [0; 2]))),
            Some((begin, end)) => {
                assert_eq!(view, (0, [begin as u64, (end - begin) as u64]));
                let size = if wish == 0 { 8 } else { wish };
                let rest = payload[begin..end].get(at as usize..).unwrap_or_default();
                let word = if size <= rest.len() as u64 { &rest[..size as usize] } else { &[] };
                let double = || word.try_into().ok().map(u64::from_le_bytes);
                let wanted = match wish {
                    0 => double().map_or([0, 0], |bits| [2, bits]),
                    _ => smi(word).map_or([0, 0], |bits| [1, bits]),
                };
                assert_eq!(number, (0, wanted));
            }
        }
        assert_eq!(ffi::smi(&payload[..payload.len().min(8)]), smi(&payload[..payload.len().min(8)]));
        seen[if number.0 == 0 { number.1[0] as usize } else { 3 }] += 1;
    }
    assert!(seen.iter().all(|n| *n > 0), "{seen:?}");
}

/// Two raw slots of one object, of eight bytes each, with one byte between them: a small integer,
/// and a NaN with bits of its own.
#[test]
fn of_a_graph() {
    let payload = bytes("00 0C 45 60 00 00 00 00 FE FF FF FF 60 01 02 03 04 05 06 F4 FF 0D");
    let sheet = sheet(A);
    let graph = read(&Call::new(&sheet, &payload)).expect("the payload is accepted");
    assert_eq!(graph.range_at(4), Ok(Covering::Slot(1)));
    assert_eq!(graph.range_at(11), Ok(Covering::Slot(1)));
    assert_eq!(graph.range_at(3), Ok(Covering::Gap { before: None, after: Some(1) }));
    assert_eq!(graph.range_at(12), Ok(Covering::Gap { before: Some(1), after: Some(2) }));
    assert_eq!(graph.range_at(21), Ok(Covering::Gap { before: Some(2), after: None }));
    assert_eq!(graph.range_at(22), Err(Refusal { number: 18, place: 0 }));
    assert_eq!(graph.view(1), Ok(4..12));
    assert_eq!(graph.view(0), Err(Refusal { number: 17, place: 0 }));
    assert_eq!(graph.number(1, 0, Wish::Smi(8)), Ok(Number::Smi(-2)));
    assert_eq!(graph.number(1, 4, Wish::Smi(4)), Ok(Number::Smi(-1)));
    for size in [0, 1, 5, 16] {
        assert_eq!(graph.number(1, 0, Wish::Smi(size)), Ok(Number::Empty));
    }
    assert_eq!(graph.number(1, 1, Wish::Smi(8)), Ok(Number::Empty));
    assert_eq!(graph.number(0, 0, Wish::Smi(8)), Err(Refusal { number: 17, place: 0 }));
    let Ok(Number::Double(nan)) = graph.number(2, 0, Wish::Double) else {
        panic!("eight bytes are a double")
    };
    assert_eq!(nan.to_bits(), 0xFFF4_0605_0403_0201);
    assert_eq!(decode_smi_bytes(&[0xFE, 0xFF, 0xFF, 0xFF]), Some(-1));
    assert_eq!(decode_smi_bytes(&[1, 0, 0, 0]), None);
}

/// Object 0 refers to object 1 weakly; object 2 stands in the closing section, and nothing refers
/// to it.
#[test]
fn kept_of_a_graph() {
    let payload = bytes("00 08 45 10 00 04 46 00 0C 45 46 46 0D");
    let sheet = sheet(A);
    let graph = read(&Call::new(&sheet, &payload)).expect("the payload is accepted");
    let kept = graph.kept().expect("the sizes are small");
    assert_eq!(kept.marks, [true, true, false]);
    assert_eq!((kept.bytes, kept.strong_bytes), (24, 16));
}

/// The object that a value leads to, and whether under a weak value.
fn target(graph: &Graph, value: Value) -> Option<(usize, bool)> {
    match value {
        Value::Object(object) => Some((object, false)),
        Value::Repeat { value, .. } => target(graph, graph.value(value)?),
        Value::Weak(value) => target(graph, graph.value(value)?).map(|(object, _)| (object, true)),
        _ => None,
    }
}

/// The objects that the top object reaches, by a stack of those whose slots are to be looked at.
fn reached(graph: &Graph, through_weak: bool) -> Vec<bool> {
    let slots = graph.slots_by_object();
    let mut marks = vec![false; slots.len()];
    let mut stack = vec![0];
    while let Some(object) = stack.pop() {
        if !marks[object] {
            marks[object] = true;
            let targets = slots[object].iter().filter_map(|slot| target(graph, slot.value));
            stack.extend(targets.filter(|(_, weak)| through_weak || !weak).map(|(object, _)| object));
        }
    }
    marks
}

/// Every accepted payload of payloads/, in the order of ANSWERS.tsv.
#[test]
fn kept_of_real_payloads() {
    let text = fs::read_to_string(repository("payloads/ANSWERS.tsv")).expect("ANSWERS.tsv");
    let mut asked = 0;
    for line in text.lines().skip(1) {
        let cells: Vec<&str> = line.split('\t').collect();
        let file = |ending: &str| repository(&format!("payloads/{}/{}.{ending}", cells[0], cells[1]));
        let names = fs::read_to_string(repository(&format!("sheets/{}.txt", cells[0]))).expect("a sheet");
        let sheet = Sheet::from_pairs(pairs(&names)).expect("a sheet");
        let payload = fs::read(file("payload")).expect("a payload");
        let reserve = fs::read(file("reserve")).unwrap_or_default();
        let reservations: Vec<u32> =
            reserve.chunks_exact(4).map(|c| u32::from_le_bytes([c[0], c[1], c[2], c[3]])).collect();
        let Ok(graph) = read(&Call { reservations: &reservations, ..Call::new(&sheet, &payload) }) else {
            continue;
        };
        let kept = graph.kept().expect("the sizes are small");
        let sizes: Vec<u64> = graph.objects().map(|object| object.bytes).collect();
        let sum = |marks: &[bool]| (0..sizes.len()).filter(|o| marks[*o]).map(|o| sizes[o]).sum::<u64>();
        let marks = reached(&graph, true);
        assert_eq!(kept.bytes, sum(&marks), "{} {}", cells[0], cells[1]);
        assert_eq!(kept.strong_bytes, sum(&reached(&graph, false)), "{} {}", cells[0], cells[1]);
        assert_eq!(kept.marks, marks, "{} {}", cells[0], cells[1]);
        let (all, objects) = (sizes.iter().sum::<u64>(), marks.iter().filter(|mark| **mark).count());
        println!(
            "| {} | {} | {} | {all} | {objects} | {} | {} |",
            cells[0],
            cells[1],
            sizes.len(),
            kept.bytes,
            kept.strong_bytes
        );
        asked += 1;
    }
    assert!(asked > 0);
}
