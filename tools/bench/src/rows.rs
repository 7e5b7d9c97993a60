//! The generated payloads, one kind of item each. The first object holds the items, unless a row
//! says otherwise.

use crate::library::Call;
use crate::sheets::Family;

pub struct Row {
    pub name: &'static str,
    pub family: Family,
    /// How many times as fast as the Rust the library should be.
    pub aim: f64,
    /// Items up to a payload of about so many bytes.
    items: fn(usize) -> Items,
}

/// What follows the first object's map: its bytes, how many words they fill, and what then stands
/// in the closing section.
struct Items {
    bytes: Vec<u8>,
    words: usize,
    closing: Vec<u8>,
}

const NEW: u8 = 0x00;
const BACK: u8 = 0x08;
const REGISTER: u8 = 0x0e;
const RESOLVE: u8 = 0x0f;
const WEAK: u8 = 0x10;
const ROOT: u8 = 0x40;
const RAW: u8 = 0x60;
const REPEAT: u8 = 0x80;
const HOT: u8 = 0x90;
/// In legacy, a space goes on in its next chunk.
const NEXT_CHUNK: u8 = 0x15;
/// In legacy, an object ends before its declared size.
const DEFERRED: u8 = 0x16;
/// In legacy, the space of objects that are referred to by their number.
const MAP_SPACE: u8 = 4;

/// An object of one word.
const ONE_WORD: [u8; 3] = [NEW, 1 << 2, ROOT + 5];
/// How many objects the rows of back-references open first.
const TARGETS: usize = 1000;
/// Repeats after each root in the row of 6.x repeats.
const CHAIN: usize = 4;

pub const ROWS: [Row; 21] = [
    modern("objects of one word", 20.0, one_word),
    modern("objects of three words", 20.0, three_words),
    modern("objects of one word, closing section", 20.0, closing),
    modern("roots", 20.0, roots),
    modern("raws of 8 bytes", 10.0, short_raws),
    modern("raws of 256 bytes", 1.0, long_raws),
    modern("back-references", 10.0, back_references),
    modern("hot places", 10.0, hot_places),
    modern("weak", 10.0, weak),
    modern("pending, resolved at once", 10.0, resolved_at_once),
    modern("pending, all open, resolved forwards", 10.0, forwards),
    modern("pending, all open, resolved backwards", 10.0, backwards),
    old("legacy objects of one word", 20.0, one_word),
    old("legacy back-references, only one object", 10.0, only_one),
    old("legacy back-references, scattered", 10.0, scattered),
    old("legacy back-references, to the newest", 10.0, to_newest),
    old("legacy back-references, to the oldest", 10.0, to_oldest),
    old("legacy back-references, misses", 10.0, misses),
    old("legacy back-references by number", 10.0, by_number),
    old("legacy back-references, buckets that collide", 10.0, colliding),
    six("6.x repeats, chains of 4", 10.0, chains),
];

const fn modern(name: &'static str, aim: f64, items: fn(usize) -> Items) -> Row {
    Row { name, family: Family::Modern, aim, items }
}

const fn old(name: &'static str, aim: f64, items: fn(usize) -> Items) -> Row {
    Row { name, family: Family::Legacy, aim, items }
}

const fn six(name: &'static str, aim: f64, items: fn(usize) -> Items) -> Row {
    Row { name, family: Family::Six, aim, items }
}

impl Row {
    /// A payload of about so many bytes, never more.
    pub fn call(&self, size: usize) -> Call {
        // The first object's head, its map and kSynchronize.
        let around = 7;
        let items = (self.items)(size.saturating_sub(around));
        // In legacy the first object lies in space 1, so that the others lie in space 0 from offset
        // 0 on.
        let mut payload = vec![NEW + self.family.legacy() as u8];
        payload.extend((((items.words + 1) as u32) << 2 | 3).to_le_bytes());
        payload.push(ROOT + 5);
        payload.extend(items.bytes);
        payload.extend(items.closing);
        payload.push(self.family.synchronize());
        Call { sheet: self.family.numbers(), payload, reserve: self.family.reservations() }
    }
}

/// The shortest form of an integer.
fn integer(value: usize) -> Vec<u8> {
    let count = (1..4).find(|n| value < 1 << (8 * n - 2)).unwrap_or(4);
    let bytes = (((value as u64) << 2) | (count as u64 - 1)).to_le_bytes();
    bytes[..count].to_vec()
}

/// Random numbers, the same in each run (SplitMix64).
pub struct Random(pub u64);

impl Random {
    pub fn below(&mut self, n: usize) -> usize {
        self.0 = self.0.wrapping_add(0x9e37_79b9_7f4a_7c15);
        let x = (self.0 ^ (self.0 >> 30)).wrapping_mul(0xbf58_476d_1ce4_e5b9);
        let x = (x ^ (x >> 27)).wrapping_mul(0x94d0_49bb_1331_11eb);
        ((x ^ (x >> 31)) % n as u64) as usize
    }
}

/// The same item again and again, of so many words.
fn same(size: usize, item: &[u8], words: usize) -> Items {
    let count = size / item.len();
    Items { bytes: item.repeat(count), words: count * words, closing: Vec::new() }
}

fn one_word(size: usize) -> Items {
    same(size, &ONE_WORD, 1)
}

fn three_words(size: usize) -> Items {
    same(size, &[NEW, 3 << 2, ROOT + 5, ROOT + 6, ROOT + 7], 1)
}

fn closing(size: usize) -> Items {
    Items { bytes: Vec::new(), words: 0, closing: same(size, &ONE_WORD, 1).bytes }
}

fn roots(size: usize) -> Items {
    let bytes: Vec<u8> = (0..size).map(|k| ROOT + (k % 32) as u8).collect();
    Items { words: bytes.len(), bytes, closing: Vec::new() }
}

fn short_raws(size: usize) -> Items {
    same(size, &[RAW, 1, 2, 3, 4, 5, 6, 7, 8], 1)
}

fn long_raws(size: usize) -> Items {
    let mut item = vec![0xaa; 257];
    item[0] = RAW + 31;
    same(size, &item, 32)
}

fn back_references(size: usize) -> Items {
    let mut items = same(3 * TARGETS.min(size / 6), &ONE_WORD, 1);
    let mut random = Random(1);
    let targets = items.words + 1;
    while items.bytes.len() + 3 <= size {
        items.bytes.push(BACK);
        items.bytes.extend(integer(random.below(targets)));
        items.words += 1;
    }
    items
}

/// Eight back-references, then the places that they entered.
fn hot_places(size: usize) -> Items {
    let mut items = same(2 * 8, &[BACK, 0], 1);
    while items.bytes.len() < size {
        items.bytes.push(HOT + (items.words % 8) as u8);
        items.words += 1;
    }
    items
}

fn weak(size: usize) -> Items {
    same(size, &[WEAK, ROOT + 5], 1)
}

/// A pending reference, and an object that resolves it.
fn resolved_at_once(size: usize) -> Items {
    same(size, &[REGISTER, NEW, 1 << 2, ROOT + 6, RESOLVE, 0], 2)
}

/// Pending references, then as many objects that resolve one each.
fn all_open(size: usize, number: fn(usize, usize) -> usize) -> Items {
    let length = |k: usize| 1 + ONE_WORD.len() + 1 + integer(k).len();
    let mut count = 0;
    let mut bytes = 0;
    while bytes + length(count) <= size {
        bytes += length(count);
        count += 1;
    }
    let mut items = same(count, &[REGISTER], 1);
    for k in 0..count {
        items.bytes.extend(ONE_WORD);
        items.bytes.push(RESOLVE);
        items.bytes.extend(integer(number(k, count)));
    }
    items.words += count;
    items
}

fn forwards(size: usize) -> Items {
    all_open(size, |k, _| k)
}

fn backwards(size: usize) -> Items {
    all_open(size, |k, count| count - 1 - k)
}

/// One object, and back-references to it.
fn only_one(size: usize) -> Items {
    let mut items = same(3, &ONE_WORD, 1);
    let more = same(size.saturating_sub(3), &[BACK, 0, 0], 1);
    items.bytes.extend(more.bytes);
    items.words += more.words;
    items
}

/// Legacy objects of one word, then as many back-references to the offset that `offset` gives for
/// the number of objects.
fn legacy(size: usize, mut offset: impl FnMut(usize) -> usize) -> Items {
    let longest = ONE_WORD.len() + 2 + integer(size).len();
    let count = size / longest;
    let mut items = same(3 * count, &ONE_WORD, 1);
    for _ in 0..count {
        items.bytes.extend([BACK, 0]);
        items.bytes.extend(integer(offset(count)));
    }
    items.words += count;
    items
}

fn scattered(size: usize) -> Items {
    let mut random = Random(2);
    legacy(size, |count| 8 * random.below(count))
}

fn to_newest(size: usize) -> Items {
    legacy(size, |count| 8 * (count - 1))
}

fn to_oldest(size: usize) -> Items {
    legacy(size, |_| 0)
}

/// No object begins in the middle of a word.
fn misses(size: usize) -> Items {
    let mut random = Random(3);
    legacy(size, |count| 8 * random.below(count) + 4)
}

/// Objects that are referred to by their number, and scattered references to them.
fn by_number(size: usize) -> Items {
    let longest = ONE_WORD.len() + 1 + integer(size / 4).len();
    let count = size / longest;
    let mut items = same(3 * count, &[NEW + MAP_SPACE, 1 << 2, ROOT + 5], 1);
    let mut random = Random(4);
    for _ in 0..count {
        items.bytes.push(BACK + MAP_SPACE);
        items.bytes.extend(integer(random.below(count)));
    }
    items.words += count;
    items
}

/// Two objects in each chunk, the second at an address whose bucket is one of few, and scattered
/// references to these: near the worst case of the search, since four in five end in lists. The
/// bucket is computed as crates/address_index/src/layout.rt does, with the seed 0; with another
/// seed (`--seed`) they do not collide.
fn colliding(size: usize) -> Items {
    let longest = 12 + 1 + integer(size).len() + 4;
    let count = size / longest;
    let buckets = 3 * (2 * count as u64 + 1);
    let start = |chunk: usize, block: u64| {
        let mixed = ((chunk as u64) << 17 | block).wrapping_mul(11400714819323198485) >> 32;
        mixed * buckets >> 32
    };
    let blocks: Vec<u64> = (0..count)
        .map(|chunk| (1..).find(|&block| start(chunk, block) < buckets / 256 + 1).expect("a block"))
        .collect();
    let mut items = Items { bytes: Vec::new(), words: 0, closing: Vec::new() };
    for (chunk, block) in blocks.iter().enumerate() {
        if 0 < chunk {
            items.bytes.extend([NEXT_CHUNK, 0]);
        }
        items.bytes.push(NEW);
        items.bytes.extend(integer(4096 * *block as usize));
        items.bytes.extend([ROOT + 5, DEFERRED]);
        items.bytes.extend(ONE_WORD);
    }
    let mut random = Random(5);
    for _ in 0..count {
        let chunk = random.below(count);
        items.bytes.push(BACK);
        items.bytes.extend(integer(chunk));
        items.bytes.extend(integer(32768 * blocks[chunk] as usize));
    }
    items.words = 3 * count;
    items
}

/// A root, and repeats that each copy the slot before.
fn chains(size: usize) -> Items {
    let mut item = [REPEAT; 1 + CHAIN];
    item[0] = ROOT + 5;
    same(size, &item, item.len())
}
