//! A reader written from docs/FORMAT.md alone, for what the Rust does not tell: how many integers
//! are longer than their values need. It keeps counts and no tables, and knows no rooms.

use crate::sheet::Sheet;
use crate::Input;
use std::collections::HashSet;
use std::ops::Range;

/// An integer that was read whole.
pub struct Integer {
    /// The place of its first byte.
    pub place: usize,
    /// What it belongs to: a name of the sheet, or some words.
    pub what: &'static str,
    /// How many bytes it has, and how many its value needs, 1 to 4 each.
    pub bytes: usize,
    pub needed: usize,
}

/// What is read of an accepted payload.
pub struct Reading {
    /// Objects, slots, values, addresses.
    pub counts: [u64; 4],
    /// The cursor at the finish.
    pub end: usize,
    /// In the order of reading.
    pub integers: Vec<Integer>,
}

/// A refusal's number and place; in a legacy closing section also 0, which only ends it.
#[derive(Clone, Copy, PartialEq, Eq, Debug)]
pub struct Fault {
    pub number: u64,
    pub place: usize,
}

impl Reading {
    /// How many integers are longer than their values need.
    pub fn long_integers(&self) -> usize {
        self.integers.iter().filter(|integer| integer.bytes > integer.needed).count()
    }
}

/// The first line that `graphlist` prints, where no table is too short.
pub fn first_line(read: &Result<Reading, Fault>) -> String {
    match read {
        Ok(reading) => {
            let [objects, slots, values, addresses] = reading.counts;
            let long = reading.long_integers();
            format!("graph {objects} {slots} {values} {addresses} {} {long}", reading.end)
        }
        Err(fault) => format!("refused {} {}", fault.number, fault.place),
    }
}

/// Reads a payload under a usable sheet, of which neither payload nor reservations are too long.
pub fn read(input: &Input) -> Result<Reading, Fault> {
    let mut reader = Reader::new(input);
    reader.whole()?;
    Ok(Reading { counts: reader.counts, end: reader.at, integers: reader.integers })
}

const LARGEST: u64 = u32::MAX as u64;
const DEEPEST: usize = 64;
const OBJECTS: usize = 0;
const SLOTS: usize = 1;
const VALUES: usize = 2;
const ADDRESSES: usize = 3;

/// What a head byte says is read after it (docs/FORMAT.md, "Head bytes").
#[derive(Clone, Copy)]
enum Head {
    New,
    LegacyBackref,
    LegacyBackrefWithSkip,
    NextChunk,
    Alignment,
    Backref,
    Hot,
    HotWithSkip,
    RootArray,
    /// A with-skip amount or none, so many integers, and what it gives.
    Integers(bool, usize, Value),
    Weak,
    Prefix,
    FixedRaw,
    VariableRaw,
    Skip,
    FixedRepeat,
    FixedRepeatRoot,
    VariableRepeat,
    VariableRepeatRoot,
    FixedRepeatPrevious,
    VariableRepeatPrevious,
    MetaMap,
}

/// What a reference is, as far as its width goes.
#[derive(Clone, Copy)]
enum Value {
    /// All kinds that take one word.
    Word,
    /// Raw data that advances, with its bytes.
    Raw(u64),
    RawThatStays,
    Repeat(u64),
    RepeatPrevious(u64),
    Skip(u64),
    StreamBytes,
}

struct Reader<'a> {
    payload: &'a [u8],
    at: usize,
    /// By byte the row that has it: its name, how far the byte lies from the tag, what is read.
    rows: Vec<Option<(&'static str, u64, Head)>>,
    word: u64,
    raw_advances: bool,
    legacy: bool,
    six_x: bool,
    map_first: bool,
    new_object: u8,
    backref: u8,
    /// How many bytes from kNewObject on open an object, legacy sheets alone.
    opening: u64,
    /// How far from kNewObject the bytes lie that a kRootArray among them leaves out.
    left_out: Range<u64>,
    map_space: u64,
    large_space: u64,
    space_tag_size: u32,
    page_size_bits: u32,
    synchronize: u8,
    nop: u8,
    resolve: Option<u8>,
    deferred: Option<u8>,
    next_chunk: Option<u8>,
    alignment_prefix: Option<u8>,
    counts: [u64; 4],
    integers: Vec<Integer>,
    /// References that entered the hot ring.
    entered: usize,
    /// The with-skip amount that stands.
    skip: u64,
    alignment: u64,
    /// Spaces that have counters: chunk and next free offset.
    counted: u64,
    counters: Vec<(u64, u64)>,
    /// Where objects were placed: space, chunk, offset.
    placed: HashSet<(u64, u64, u64)>,
    /// How many objects were allocated in spaces 4 and 5.
    maps: u64,
    large: u64,
}

/// How many bytes from kNewObject on open an object in legacy sheets, a kRootArray among them left
/// out.
fn opening(sheet: &Sheet) -> u64 {
    let number = |name| sheet.get(name).unwrap_or(0) as u64;
    match sheet.root_array_inside() {
        true => number("kRootArray") - number("kNewObject"),
        false => sheet.get("kNumberOfSpaces").unwrap_or(6) as u64,
    }
}

/// The rows of docs/FORMAT.md, "Head bytes", that a sheet's family tests, in their order: name,
/// span, what is read.
fn rows(sheet: &Sheet) -> Vec<(&'static str, u64, Head)> {
    use Head::*;
    let (legacy, six_x) = (sheet.legacy(), sheet.six_x());
    let spaces = sheet.get("kNumberOfSpaces").unwrap_or(6) as u64;
    let mask = sheet.get("kRootArrayConstantsMask").unwrap_or(31) as u64;
    let number = |name| sheet.get(name).unwrap_or(0) as u64;
    let mut rows = Vec::new();
    if legacy {
        rows.push(("kNewObject", opening(sheet), New));
        if six_x {
            rows.push(("kBackrefWithSkip", spaces, LegacyBackrefWithSkip));
        }
        rows.push(("kBackref", spaces, LegacyBackref));
        rows.push(("kNextChunk", 1, NextChunk));
        rows.push(("kAlignmentPrefix", 3, Alignment));
    } else {
        rows.push(("kNewObject", number("kBackref").saturating_sub(number("kNewObject")), New));
    }
    let word = |count| Integers(false, count, Value::Word);
    rows.extend([
        ("kBackref", 1, Backref),
        ("kHotObject", 8, Hot),
        ("kHotObjectWithSkip", 8, HotWithSkip),
        ("kRootArray", 1, RootArray),
        ("kRootArrayConstants", mask + 1, word(0)),
        ("kRootArrayConstantsWithSkip", mask + 1, Integers(true, 0, Value::Word)),
        ("kReadOnlyHeapRef", 1, word(2)),
        ("kAttachedReference", 1, word(1)),
    ]);
    if six_x {
        let skip = |count| Integers(false, count, Value::Skip(0));
        let stream = |count| Integers(false, count, Value::StreamBytes);
        rows.extend([
            ("kBuiltin", 1, word(1)),
            ("kExternalReference", 1, word(1)),
            ("kApiReference", 1, Integers(true, 1, Value::Word)),
            ("kInternalReference", 1, skip(2)),
            ("kInternalReferenceEncoded", 1, skip(2)),
            ("kDeoptimizerEntryPlain", 1, skip(1)),
            ("kDeoptimizerEntryFromCode", 1, skip(1)),
            ("kOffHeapBackingStore", 1, stream(1)),
            ("kVariableRawCode", 1, stream(1)),
            ("kEmbedderFieldsData", 1, stream(2)),
            ("kOffHeapTarget", 1, Integers(true, 1, Value::Word)),
        ]);
    }
    rows.extend([
        ("kPartialSnapshotCache", 1, word(1)),
        ("kStartupObjectCache", 1, word(1)),
        ("kReadOnlyObjectCache", 1, word(1)),
        ("kSharedHeapObjectCache", 1, word(1)),
        ("kRegisterPendingForwardRef", 1, word(0)),
        ("kClearedWeakReference", 1, word(0)),
        ("kWeakPrefix", 1, Weak),
        ("kIndirectPointerPrefix", 1, Prefix),
        ("kProtectedPointerPrefix", 1, Prefix),
        ("kInitializeSelfIndirectPointer", 1, word(0)),
        ("kAllocateJSDispatchEntry", 1, word(1)),
        ("kJSDispatchEntry", 1, word(1)),
        ("kFixedRawData", 32, FixedRaw),
        ("kVariableRawData", 1, VariableRaw),
        ("kSkip", 1, Skip),
        ("kFixedRepeat", 16, if six_x { FixedRepeatPrevious } else { FixedRepeat }),
    ]);
    if sheet.get("kFixedRepeat").is_none() {
        rows.push(("kFixedRepeatRoot", 16, if six_x { FixedRepeatPrevious } else { FixedRepeatRoot }));
    }
    rows.extend([
        ("kVariableRepeat", 1, if six_x { VariableRepeatPrevious } else { VariableRepeat }),
        ("kVariableRepeatRoot", 1, VariableRepeatRoot),
        ("kNewMetaMap", 1, MetaMap),
        ("kNewContextlessMetaMap", 1, MetaMap),
        ("kNewContextfulMetaMap", 1, MetaMap),
    ]);
    rows
}

impl Reader<'_> {
    fn new(input: &Input) -> Reader<'_> {
        let sheet = &input.sheet;
        let byte = |name| sheet.get(name).map(|number| number as u8);
        let or = |name, default| sheet.get(name).unwrap_or(default) as u64;
        let mut by_byte = vec![None; 256];
        for (name, span, head) in rows(sheet).into_iter().rev() {
            let Some(tag) = sheet.get(name) else { continue };
            for offset in 0..span {
                by_byte[tag as usize + offset as usize] = Some((name, offset, head));
            }
        }
        let ends = input.reserve.iter().filter(|number| *number >> 31 == 1).count();
        Reader {
            payload: &input.payload,
            at: 0,
            rows: by_byte,
            word: sheet.tagged_size() as u64,
            raw_advances: sheet.numbers()[57] != 0,
            legacy: sheet.legacy(),
            six_x: sheet.six_x(),
            map_first: sheet.legacy() && sheet.get("kNewMetaMap").is_some(),
            new_object: byte("kNewObject").unwrap_or(0),
            backref: byte("kBackref").unwrap_or(0),
            opening: opening(sheet),
            left_out: opening(sheet)..or("kNumberOfSpaces", 6),
            map_space: or("kMapSpace", 4),
            large_space: or("kLoSpace", 5),
            space_tag_size: or("kSpaceTagSize", 3) as u32,
            page_size_bits: or("kPageSizeBits", 19) as u32,
            synchronize: byte("kSynchronize").unwrap_or(0),
            nop: byte("kNop").unwrap_or(0),
            resolve: byte("kResolvePendingForwardRef"),
            deferred: byte("kDeferred"),
            next_chunk: byte("kNextChunk"),
            alignment_prefix: byte("kAlignmentPrefix"),
            counts: [0; 4],
            integers: Vec::new(),
            entered: 0,
            skip: 0,
            alignment: 0,
            counted: ends as u64 + 1,
            counters: vec![(0, 0); 256],
            placed: HashSet::new(),
            maps: 0,
            large: 0,
        }
    }

    // ---- bytes and integers

    /// A fault at the cursor.
    fn fault<T>(&self, number: u64) -> Result<T, Fault> {
        Err(Fault { number, place: self.at })
    }

    /// A byte is needed and none is left.
    fn cut<T>(&mut self) -> Result<T, Fault> {
        self.at = self.payload.len();
        self.fault(4)
    }

    fn peek(&self) -> Option<u8> {
        self.payload.get(self.at).copied()
    }

    fn byte(&mut self) -> Result<u8, Fault> {
        match self.peek() {
            Some(byte) => {
                self.at += 1;
                Ok(byte)
            }
            None => self.cut(),
        }
    }

    fn integer(&mut self, what: &'static str) -> Result<u64, Fault> {
        let place = self.at;
        let Some(first) = self.peek() else { return self.cut() };
        let bytes = (first & 3) as usize + 1;
        let Some(all) = self.payload.get(place..place + bytes) else { return self.cut() };
        let number = all.iter().rev().fold(0, |number, byte| number << 8 | *byte as u64) >> 2;
        let needed = match number {
            0..0x40 => 1,
            0x40..0x4000 => 2,
            0x4000..0x40_0000 => 3,
            _ => 4,
        };
        self.at += bytes;
        self.integers.push(Integer { place, what, bytes, needed });
        Ok(number)
    }

    fn amount(&mut self) -> Result<(), Fault> {
        self.skip += self.integer("with-skip amount")?;
        Ok(())
    }

    /// The cursor moves past so many bytes.
    fn raw(&mut self, bytes: u64) -> Result<(), Fault> {
        if self.at as u64 + bytes > self.payload.len() as u64 {
            return self.fault(7);
        }
        self.at += bytes as usize;
        Ok(())
    }

    // ---- references

    fn reference(&mut self, depth: usize) -> Result<Value, Fault> {
        if depth > DEEPEST {
            return self.fault(6);
        }
        let place = self.at;
        let byte = self.byte()?;
        let Some((name, offset, head)) = self.rows[byte as usize] else {
            return Err(Fault { number: 10, place });
        };
        match head {
            Head::New => self.object(depth, offset, place)?,
            Head::LegacyBackref => drop(self.legacy_backref(offset, name)?),
            Head::LegacyBackrefWithSkip => {
                self.amount()?;
                self.legacy_backref(offset, name)?;
            }
            Head::NextChunk => {
                let space = self.byte()?;
                self.change_chunk(space);
                return self.reference(depth + 1);
            }
            Head::Alignment => {
                self.alignment = offset + 1;
                return self.reference(depth + 1);
            }
            Head::Backref => {
                if self.integer(name)? >= self.counts[OBJECTS] {
                    return self.fault(8);
                }
                self.entered += 1;
            }
            Head::Hot => self.hot(byte)?,
            Head::HotWithSkip => {
                self.amount()?;
                self.hot(byte)?;
            }
            Head::RootArray => {
                self.integer(name)?;
                self.entered += 1;
            }
            Head::Integers(amount, count, value) => {
                if amount {
                    self.amount()?;
                }
                for _ in 0..count {
                    self.integer(name)?;
                }
                return Ok(value);
            }
            Head::Weak => {
                self.reference(depth + 1)?;
                self.counts[VALUES] += 1;
            }
            Head::Prefix => return self.reference(depth + 1),
            Head::FixedRaw => {
                let bytes = (offset + 1) * self.word;
                self.raw(bytes)?;
                return Ok(Value::Raw(bytes));
            }
            Head::VariableRaw => {
                let length = self.integer(name)? * if self.legacy { 1 } else { self.word };
                let bytes = length.max(1);
                self.raw(bytes)?;
                return Ok(if self.raw_advances { Value::Raw(bytes) } else { Value::RawThatStays });
            }
            Head::Skip => return Ok(Value::Skip(self.integer(name)?)),
            Head::FixedRepeat => {
                self.reference(depth + 1)?;
                return Ok(self.repeat(offset + 2));
            }
            Head::FixedRepeatRoot => {
                self.byte()?;
                return Ok(self.repeat(offset + 2));
            }
            Head::VariableRepeat => {
                let count = self.integer(name)?;
                self.reference(depth + 1)?;
                return Ok(self.repeat(count + 18));
            }
            Head::VariableRepeatRoot => {
                let count = self.integer(name)?;
                self.byte()?;
                return Ok(self.repeat(count + 18));
            }
            Head::FixedRepeatPrevious => return Ok(Value::RepeatPrevious(offset + 1)),
            Head::VariableRepeatPrevious => return Ok(Value::RepeatPrevious(self.integer(name)?)),
            Head::MetaMap => return Err(Fault { number: 11, place }),
        }
        Ok(Value::Word)
    }

    fn repeat(&mut self, count: u64) -> Value {
        self.counts[VALUES] += 1;
        Value::Repeat(count)
    }

    fn hot(&mut self, byte: u8) -> Result<(), Fault> {
        if (byte & 7) as usize >= self.entered {
            return self.fault(9);
        }
        Ok(())
    }

    fn width(&self, value: Value) -> u64 {
        match value {
            Value::Word => self.word,
            Value::Raw(bytes) | Value::Skip(bytes) => bytes,
            Value::RawThatStays | Value::StreamBytes => 0,
            Value::Repeat(count) | Value::RepeatPrevious(count) => count * self.word,
        }
    }

    // ---- objects

    /// An object whose head at `place` has been read.
    fn object(&mut self, depth: usize, space: u64, place: usize) -> Result<(), Fault> {
        let bytes = self.integer("kNewObject")? * self.word;
        if self.six_x && space == self.large_space {
            self.byte()?;
        }
        self.counts[OBJECTS] += 1;
        let alignment = self.alignment;
        self.reference(depth + 1)?;
        if self.map_first {
            self.alignment = alignment;
            self.after_map(space);
        }
        if self.legacy {
            self.allocate(space, bytes)?;
        }
        self.counts[SLOTS] += 1;
        while self.resolve.is_some() && self.peek() == self.resolve {
            self.at += 1;
            self.integer("kResolvePendingForwardRef")?;
        }
        if self.items(depth, bytes)? != bytes {
            return Err(Fault { number: 12, place });
        }
        Ok(())
    }

    /// The bytes that are read of an object of so many.
    fn items(&mut self, depth: usize, bytes: u64) -> Result<u64, Fault> {
        let mut done = self.word;
        while done < bytes {
            if self.deferred.is_some() && self.peek() == self.deferred {
                self.at += 1;
                return Ok(bytes);
            }
            let value = self.reference(depth + 1)?;
            let skip = std::mem::take(&mut self.skip);
            done += self.width(value);
            if !matches!(value, Value::Skip(_) | Value::StreamBytes) {
                done += skip;
                self.counts[SLOTS] += 1;
            }
            if let Value::RepeatPrevious(_) = value {
                self.counts[VALUES] += 1;
            }
        }
        Ok(done)
    }

    /// Alignment and chunk changes of a map-first sheet.
    fn after_map(&mut self, space: u64) {
        if let Some(alignment) = self.peek().and_then(|byte| self.alignment_of(byte)) {
            self.at += 1;
            self.alignment = alignment;
        }
        while self.next_chunk.is_some() && self.peek() == self.next_chunk {
            let Some(own) = self.payload.get(self.at + 1).filter(|byte| **byte as u64 == space) else {
                return;
            };
            self.at += 2;
            self.change_chunk(*own);
        }
    }

    // ---- legacy allocation and back-references

    fn alignment_of(&self, byte: u8) -> Option<u64> {
        let offset = byte.checked_sub(self.alignment_prefix?)? as u64;
        (offset < 3).then_some(offset + 1)
    }

    fn change_chunk(&mut self, space: u8) {
        if (space as u64) < self.counted {
            let (chunk, free) = &mut self.counters[space as usize];
            (*chunk, *free) = (*chunk + 1, 0);
        }
    }

    fn filler(&self, offset: u64) -> u64 {
        match self.alignment {
            1 if offset % 8 != 0 => self.word,
            2 if offset % 8 == 0 => 8 - self.word,
            _ => 0,
        }
    }

    fn allocate(&mut self, space: u64, bytes: u64) -> Result<(), Fault> {
        if bytes > LARGEST {
            return self.fault(16);
        }
        if space < self.counted {
            let (chunk, free) = self.counters[space as usize];
            let offset = free + self.filler(free);
            let next = free + bytes + if self.alignment > 0 { 8 - self.word } else { 0 };
            if offset > LARGEST || next > LARGEST {
                return self.fault(16);
            }
            self.placed.insert((space, chunk, offset));
            self.counters[space as usize].1 = next;
            self.alignment = 0;
        }
        self.counts[ADDRESSES] += 1;
        self.maps += (space == 4) as u64;
        self.large += (space == 5) as u64;
        Ok(())
    }

    /// Whether it finds an object, and no place of the read-only heap.
    fn legacy_backref(&mut self, space: u64, what: &'static str) -> Result<bool, Fault> {
        let known = match space {
            space if space == self.map_space => Some(self.maps),
            space if space == self.large_space => Some(self.large),
            _ => None,
        };
        let first = self.integer(what)?;
        let index = first & ((1 << (32 - self.space_tag_size)) - 1);
        if let Some(known) = known {
            if (if self.six_x { index } else { first }) >= known {
                return self.fault(15);
            }
            self.entered += 1;
            return Ok(true);
        }
        let (chunk, offset) = if self.six_x {
            let bits = self.page_size_bits - if self.word == 4 { 2 } else { 3 };
            (index >> bits, (index & ((1 << bits) - 1)) * self.word)
        } else {
            (first, self.integer(what)?)
        };
        self.entered += 1;
        let filler = self.filler(offset);
        let placed = |offset| self.placed.contains(&(space, chunk, offset));
        Ok(placed(offset) || filler != 0 && placed(offset + filler))
    }

    // ---- the whole

    fn whole(&mut self) -> Result<(), Fault> {
        let first = self.byte()?;
        let space = first.wrapping_sub(self.new_object) as u64;
        if !(self.new_object..self.backref).contains(&first) || self.left_out.contains(&space) {
            return Err(Fault { number: 5, place: 0 });
        }
        self.object(0, space, 0)?;
        if let Err(fault) = self.closing() {
            if !self.legacy || fault.number == 16 {
                return Err(fault);
            }
        }
        while let Some(byte) = self.peek() {
            if byte == self.nop {
                self.at += 1;
            } else if self.legacy {
                break;
            } else {
                return self.fault(14);
            }
        }
        Ok(())
    }

    fn closing(&mut self) -> Result<(), Fault> {
        while let Some(byte) = self.peek() {
            if byte == self.synchronize {
                self.at += 1;
                return Ok(());
            }
            if let Some(alignment) = self.alignment_of(byte) {
                self.at += 1;
                self.alignment = alignment;
                continue;
            }
            let space = byte.checked_sub(self.new_object).map(|space| space as u64);
            match space.filter(|space| self.legacy && !self.map_first && *space < self.opening) {
                Some(space) => self.entry(space)?,
                None => drop(self.reference(0)?),
            }
        }
        self.fault(13)
    }

    /// A deferred entry.
    fn entry(&mut self, space: u64) -> Result<(), Fault> {
        self.at += 1;
        if !self.legacy_backref(space, "deferred entry's back-reference")? {
            return self.fault(0);
        }
        let size = self.integer("deferred entry's size")?;
        let mut count = 1;
        while count < size {
            let value = self.reference(1)?;
            let width = self.width(value);
            if let Value::Skip(bytes) = value {
                count += bytes;
            } else {
                self.counts[SLOTS] += (width / self.word).max(1);
                count += width.max(self.word);
            }
        }
        Ok(())
    }
}
