//! A walker written by hand for speed, as a mark of what is possible: it fills the same tables by
//! one switch over the head byte, and clears what lies past their records. It reads accepted
//! payloads under plain sheets without a trusted list; what it refuses gets a number without a
//! place, and its tables stay.

use crate::library::{Call, Outcome, Tables, FIELDS};
use oracle::sheet::NAMES;

#[derive(Clone, Copy, PartialEq)]
enum Head {
    None,
    New,
    Back,
    Hot,
    RootArray,
    RootConstant,
    ReadOnly,
    Attached,
    Cache,
    Register,
    Cleared,
    ClearedWithInteger,
    Weak,
    Pointer,
    FixedRaw,
    VariableRaw,
    FixedRepeat,
    FixedRepeatRoot,
    VariableRepeat,
    VariableRepeatRoot,
}

/// A value as a record has it: kind, a and b.
#[derive(Clone, Copy)]
struct Value(u64, u64, u64);

const OBJECT: u64 = 1;
const ROOT: u64 = 2;
const READ_ONLY: u64 = 3;
const ATTACHED: u64 = 4;
const RAW: u64 = 5;
const RAW_THAT_STAYS: u64 = 6;
const REPEAT: u64 = 7;
const CLEARED: u64 = 11;
const WEAK: u64 = 12;
const PENDING: u64 = 13;

struct Sheet<'a>(&'a [u16]);

impl Sheet<'_> {
    fn get(&self, name: &str) -> Option<usize> {
        let place = NAMES.iter().position(|n| *n == name).expect("a name of the sheet");
        Some(self.0[place] as usize).filter(|n| *n != 65535)
    }

    /// What each byte means, with its argument. Of several names that hold a byte the first is
    /// obeyed.
    fn heads(&self) -> [(Head, u8); 256] {
        let new = self.get("kNewObject").unwrap_or(0);
        let opens = self.get("kBackref").unwrap_or(0).saturating_sub(new);
        let mask = self.get("kRootArrayConstantsMask").unwrap_or(31);
        let by_root = self.get("kFixedRepeat").is_none();
        let fixed_repeat_root = if by_root { 16 } else { 0 };
        #[rustfmt::skip]
        let claims = [
            ("kNewObject", opens, Head::New), ("kBackref", 1, Head::Back), ("kHotObject", 8, Head::Hot),
            ("kRootArray", 1, Head::RootArray), ("kRootArrayConstants", mask + 1, Head::RootConstant),
            ("kReadOnlyHeapRef", 1, Head::ReadOnly), ("kAttachedReference", 1, Head::Attached),
            ("kPartialSnapshotCache", 1, Head::Cache), ("kStartupObjectCache", 1, Head::Cache),
            ("kReadOnlyObjectCache", 1, Head::Cache), ("kSharedHeapObjectCache", 1, Head::Cache),
            ("kRegisterPendingForwardRef", 1, Head::Register), ("kClearedWeakReference", 1, Head::Cleared),
            ("kWeakPrefix", 1, Head::Weak), ("kIndirectPointerPrefix", 1, Head::Pointer),
            ("kProtectedPointerPrefix", 1, Head::Pointer),
            ("kInitializeSelfIndirectPointer", 1, Head::Cleared),
            ("kAllocateJSDispatchEntry", 1, Head::ClearedWithInteger),
            ("kJSDispatchEntry", 1, Head::ClearedWithInteger), ("kFixedRawData", 32, Head::FixedRaw),
            ("kVariableRawData", 1, Head::VariableRaw), ("kFixedRepeat", 16, Head::FixedRepeat),
            ("kFixedRepeatRoot", fixed_repeat_root, Head::FixedRepeatRoot),
            ("kVariableRepeat", 1, Head::VariableRepeat),
            ("kVariableRepeatRoot", 1, Head::VariableRepeatRoot),
        ];
        let mut heads = [(Head::None, 0); 256];
        for (name, span, head) in claims.into_iter().rev() {
            let Some(first) = self.get(name) else { continue };
            for (byte, entry) in heads.iter_mut().enumerate().skip(first).take(span) {
                let argument = match head {
                    Head::Hot => byte & 7,
                    Head::RootConstant => byte & mask,
                    _ => byte - first,
                };
                *entry = (head, argument as u8);
            }
        }
        heads
    }
}

struct Walk<'a> {
    payload: &'a [u8],
    at: usize,
    heads: [(Head, u8); 256],
    resolve: Option<u8>,
    word: usize,
    raw: u64,
    objects: &'a mut [u64],
    slots: &'a mut [u64],
    values: &'a mut [u64],
    counts: [usize; 3],
    /// Integers that are longer than their values need.
    long: u64,
    hot: [Value; 8],
    next_hot: usize,
    /// By pending number the slot that waits, counted from 1, or 0.
    pending: Vec<usize>,
    waiting: usize,
}

/// The refusal's number or 0, and the outcome.
pub fn graph(call: &Call, tables: &mut Tables) -> (u64, Outcome) {
    let sheet = Sheet(&call.sheet);
    let [objects, slots, values, _] = &mut tables.records;
    let advances = call.sheet[57] != 0;
    let mut walk = Walk {
        payload: &call.payload,
        at: 0,
        heads: sheet.heads(),
        resolve: sheet.get("kResolvePendingForwardRef").map(|n| n as u8),
        word: call.sheet[56] as usize,
        raw: if advances { RAW } else { RAW_THAT_STAYS },
        objects,
        slots,
        values,
        counts: [0; 3],
        long: 0,
        hot: [Value(0, 0, 0); 8],
        next_hot: 0,
        pending: Vec::new(),
        waiting: 0,
    };
    let number = walk.whole(&sheet).err().unwrap_or(0);
    let (end, long) = (walk.at as u64, walk.long);
    let [objects, slots, values] = walk.counts;
    for ((table, fields), count) in tables.records.iter_mut().zip(FIELDS).zip([objects, slots, values, 0]) {
        table[count * fields..].fill(0);
    }
    (number, [objects as u64, slots as u64, values as u64, 0, end, 0, long])
}

impl Walk<'_> {
    fn whole(&mut self, sheet: &Sheet) -> Result<(), u64> {
        let tag = |name: &str| sheet.get(name).map(|n| n as u8);
        if self.heads[self.byte()? as usize].0 != Head::New {
            return Err(5);
        }
        self.object(0)?;
        let (synchronize, nop, alignment) = (tag("kSynchronize"), tag("kNop"), tag("kAlignmentPrefix"));
        loop {
            let byte = *self.payload.get(self.at).ok_or(13u64)?;
            if Some(byte) == synchronize {
                self.at += 1;
                break;
            }
            if alignment.is_some_and(|first| (first..first + 3).contains(&byte)) {
                self.at += 1;
                continue;
            }
            self.reference(0)?;
        }
        if self.payload[self.at..].iter().any(|byte| Some(*byte) != nop) {
            return Err(14);
        }
        self.at = self.payload.len();
        Ok(())
    }

    #[inline]
    fn byte(&mut self) -> Result<u8, u64> {
        let byte = *self.payload.get(self.at).ok_or(4u64)?;
        self.at += 1;
        Ok(byte)
    }

    #[inline]
    fn integer(&mut self) -> Result<u64, u64> {
        let rest = &self.payload[self.at..];
        // Four bytes are there nearly always.
        if let Some(four) = rest.first_chunk::<4>() {
            let number = u32::from_le_bytes(*four);
            let count = (number & 3) + 1;
            self.at += count as usize;
            let highest = number << (32 - 8 * count);
            // The last byte is 0, and not the only one.
            self.long += (highest < 1 << 24 && count > 1) as u64;
            return Ok((highest >> (32 - 8 * count) >> 2) as u64);
        }
        let count = (rest.first().ok_or(4u64)? & 3) as usize + 1;
        let bytes = rest.get(..count).ok_or(4u64)?;
        self.at += count;
        self.long += (count > 1 && bytes[count - 1] == 0) as u64;
        Ok(bytes.iter().rev().fold(0, |number, byte| number << 8 | *byte as u64) >> 2)
    }

    #[inline]
    fn add_slot(&mut self, object: usize, index: usize, value: Value, waits: u64) -> Result<(), u64> {
        let row = self.slots.get_mut(6 * self.counts[1]..6 * self.counts[1] + 6).ok_or(3u64)?;
        row.copy_from_slice(&[object as u64, index as u64, value.0, value.1, value.2, waits]);
        self.counts[1] += 1;
        Ok(())
    }

    #[inline]
    fn add_value(&mut self, value: Value) -> Result<u64, u64> {
        let number = self.counts[2];
        let row = self.values.get_mut(3 * number..3 * number + 3).ok_or(3u64)?;
        row.copy_from_slice(&[value.0, value.1, value.2]);
        self.counts[2] += 1;
        Ok(number as u64)
    }

    #[inline]
    fn enter_hot(&mut self, value: Value) -> Value {
        self.hot[self.next_hot & 7] = value;
        self.next_hot += 1;
        value
    }

    #[inline]
    fn raw(&mut self, kind: u64, length: usize) -> Result<Value, u64> {
        if self.payload.len() - self.at < length {
            return Err(7);
        }
        let value = Value(kind, self.at as u64, length as u64);
        self.at += length;
        Ok(value)
    }

    /// An object whose head has been read: its number.
    fn object(&mut self, depth: usize) -> Result<u64, u64> {
        let tag = self.at - 1;
        let bytes = self.integer()? as usize * self.word;
        let object = self.counts[0];
        let row = self.objects.get_mut(4 * object..4 * object + 4).ok_or(3u64)?;
        row.copy_from_slice(&[bytes as u64, tag as u64, 0, 0]);
        self.counts[0] += 1;
        let map = self.reference(depth + 1)?;
        self.add_slot(object, 0, map, 0)?;
        while self.resolve.is_some() && self.payload.get(self.at).copied() == self.resolve {
            self.at += 1;
            let number = self.integer()? as usize;
            self.resolve(number, object as u64);
        }
        let mut slots = 1;
        let mut done = self.word;
        while done < bytes {
            let value = self.reference(depth + 1)?;
            let width = match value.0 {
                RAW => value.2 as usize,
                RAW_THAT_STAYS => 0,
                REPEAT => value.1 as usize * self.word,
                _ => self.word,
            };
            let waits = value.0 == PENDING;
            // A division by a word size that is not known takes long.
            let index = if self.word == 8 { done / 8 } else { done / 4 };
            self.add_slot(object, index, value, waits as u64)?;
            if waits {
                self.pending[value.1 as usize] = self.counts[1];
                self.waiting += 1;
            }
            slots += 1;
            done += width;
        }
        self.objects[4 * object + 3] = slots;
        if done == bytes {
            Ok(object as u64)
        } else {
            Err(12)
        }
    }

    fn resolve(&mut self, number: usize, object: u64) {
        let slot = self.pending.get(number).copied().unwrap_or(0);
        if slot != 0 {
            self.slots[6 * slot - 4..6 * slot].copy_from_slice(&[OBJECT, object, 0, 0]);
            self.pending[number] = 0;
            self.waiting -= 1;
        }
        if self.waiting == 0 {
            self.pending.clear();
        }
    }

    fn reference(&mut self, depth: usize) -> Result<Value, u64> {
        if depth > 64 {
            return Err(6);
        }
        let (head, argument) = self.heads[self.byte()? as usize];
        Ok(match head {
            Head::New => Value(OBJECT, self.object(depth)?, 0),
            Head::Back => {
                let number = self.integer()?;
                if number >= self.counts[0] as u64 {
                    return Err(8);
                }
                self.enter_hot(Value(OBJECT, number, 0))
            }
            Head::Hot => {
                let value = self.hot[(argument & 7) as usize];
                if value.0 == 0 {
                    return Err(9);
                }
                value
            }
            Head::RootArray => {
                let number = self.integer()?;
                self.enter_hot(Value(ROOT, number, 0))
            }
            Head::RootConstant => Value(ROOT, argument as u64, 0),
            Head::ReadOnly => {
                let first = self.integer()?;
                Value(READ_ONLY, first, self.integer()?)
            }
            Head::Attached => Value(ATTACHED, self.integer()?, 0),
            Head::Cache => Value(READ_ONLY, u32::MAX as u64, self.integer()?),
            Head::Register => {
                self.pending.push(0);
                Value(PENDING, self.pending.len() as u64 - 1, 0)
            }
            Head::Cleared => Value(CLEARED, 0, 0),
            Head::ClearedWithInteger => {
                self.integer()?;
                Value(CLEARED, 0, 0)
            }
            Head::Weak => {
                let held = self.reference(depth + 1)?;
                Value(WEAK, self.add_value(held)?, 0)
            }
            Head::Pointer => self.reference(depth + 1)?,
            Head::FixedRaw => self.raw(RAW, (argument as usize + 1) * self.word)?,
            Head::VariableRaw => {
                let length = self.integer()? as usize * self.word;
                self.raw(self.raw, length.max(1))?
            }
            Head::FixedRepeat => {
                let held = self.reference(depth + 1)?;
                Value(REPEAT, argument as u64 + 2, self.add_value(held)?)
            }
            Head::FixedRepeatRoot => {
                let held = Value(ROOT, self.byte()? as u64, 0);
                Value(REPEAT, argument as u64 + 2, self.add_value(held)?)
            }
            Head::VariableRepeat => {
                let count = self.integer()? + 18;
                let held = self.reference(depth + 1)?;
                Value(REPEAT, count, self.add_value(held)?)
            }
            Head::VariableRepeatRoot => {
                let count = self.integer()? + 18;
                let held = Value(ROOT, self.byte()? as u64, 0);
                Value(REPEAT, count, self.add_value(held)?)
            }
            Head::None => return Err(10),
        })
    }
}
