//! The library, by the declaration of include/dawichko.h.

use crate::random::Random;
use oracle::serializer::{Object, Ref, SlotValue};

extern "C" {
    fn dawichko_graph(
        sheet: *const u16,
        sheet_length: usize,
        payload: *const u8,
        payload_length: usize,
        reservations: *const u32,
        reservations_length: usize,
        trusted: *const u8,
        trusted_length: usize,
        objects: *mut u64,
        objects_length: usize,
        slots: *mut u64,
        slots_length: usize,
        values: *mut u64,
        values_length: usize,
        addresses: *mut u64,
        addresses_length: usize,
        scratch: *mut u64,
        scratch_length: usize,
        outcome: *mut u64,
    ) -> u64;
}

pub const FIELDS: [usize; 4] = [4, 6, 3, 5];
const LETTERS: [char; 4] = ['o', 's', 'v', 'd'];

/// A call's input; the sheet may have any length. Scratch is as long as `scratch` says, and `fill`
/// is the seed of what it and the tables hold before.
#[derive(Clone)]
pub struct Call {
    pub sheet: Vec<u16>,
    pub payload: Vec<u8>,
    pub reserve: Vec<u32>,
    pub trusted: Vec<u8>,
    pub scratch: usize,
    pub fill: u64,
}

impl Call {
    /// Scratch in which nothing has to be searched: a place for each pending number, then the index
    /// of legacy addresses.
    pub fn full_scratch(payload: &[u8]) -> usize {
        Call::scratch_for(payload, payload.len() / 2 + 2)
    }

    /// The same, with an index that has room for so many records.
    pub fn scratch_for(payload: &[u8], records: usize) -> usize {
        payload.len() + 9 + 8 * records
    }

    /// So many numbers that slots and records can have, and larger ones; others for each `part`.
    fn filled(&self, length: usize, part: u64) -> Vec<u64> {
        let mut random = Random::new(!self.fill ^ part);
        let mut number = || {
            let bits = random.one_of(&[2, 4, 6, 12, 32, 64]);
            random.next() >> (64 - bits)
        };
        (0..length).map(|_| number()).collect()
    }
}

/// The counts of the four tables, `end`, the refusal's place, and how many integers are longer than
/// their values need.
pub type Outcome = [u64; 7];

/// What a call gives: number, outcome and the four tables whole.
pub struct Graph {
    pub number: u64,
    pub outcome: Outcome,
    pub tables: [Vec<u64>; 4],
}

/// Calls the library with tables of these lengths, which hold numbers at random before, as scratch
/// does.
pub fn graph(call: &Call, lengths: [usize; 4]) -> Graph {
    let [objects, slots, values, addresses] = lengths;
    let mut tables =
        [call.filled(objects, 1), call.filled(slots, 2), call.filled(values, 3), call.filled(addresses, 4)];
    let mut scratch = call.filled(call.scratch, 0);
    let mut outcome = [u64::MAX; 7];
    let [objects, slots, values, addresses] = &mut tables;
    // Each length is that of the slice whose pointer stands before it, and no two of them overlap.
    let number = unsafe {
        dawichko_graph(
            call.sheet.as_ptr(),
            call.sheet.len(),
            call.payload.as_ptr(),
            call.payload.len(),
            call.reserve.as_ptr(),
            call.reserve.len(),
            call.trusted.as_ptr(),
            call.trusted.len(),
            objects.as_mut_ptr(),
            objects.len(),
            slots.as_mut_ptr(),
            slots.len(),
            values.as_mut_ptr(),
            values.len(),
            addresses.as_mut_ptr(),
            addresses.len(),
            scratch.as_mut_ptr(),
            scratch.len(),
            outcome.as_mut_ptr(),
        )
    };
    Graph { number, outcome, tables }
}

impl Graph {
    fn record(&self, table: usize, number: usize) -> &[u64] {
        let fields = FIELDS[table];
        &self.tables[table][number * fields..(number + 1) * fields]
    }

    fn count(&self, table: usize) -> usize {
        self.outcome[table] as usize
    }

    /// How long the tables have to be for these records.
    pub fn lengths(&self) -> [usize; 4] {
        [0, 1, 2, 3].map(|table| self.count(table) * FIELDS[table])
    }

    /// What is not zero and should be, or a count past its table's room.
    pub fn left_over(&self) -> Option<String> {
        let lengths = self.lengths();
        for table in 0..4 {
            if lengths[table] > self.tables[table].len() {
                return Some(format!("more records than room in table {}", LETTERS[table]));
            }
            if self.tables[table][lengths[table]..].iter().any(|n| *n != 0) {
                return Some(format!("table {} is not zero past its records", LETTERS[table]));
            }
        }
        let [counts @ .., place, long] = self.outcome;
        let unused = if self.number == 0 { place } else { long | counts.iter().fold(0, |all, n| all | n) };
        (unused != 0).then(|| "an unused number of the outcome is not zero".into())
    }

    /// Number, outcome and records are the same.
    pub fn is_same(&self, other: &Graph) -> bool {
        let lengths = self.lengths();
        let alike = |table: usize| {
            let used = ..lengths[table];
            self.tables[table].get(used) == other.tables[table].get(used)
        };
        (self.number, self.outcome) == (other.number, other.outcome) && (0..4).all(alike)
    }

    /// The first line of `graphlist`.
    pub fn first_line(&self) -> String {
        let [objects, slots, values, addresses, end, place, long] = self.outcome;
        match self.number {
            0 => format!("graph {objects} {slots} {values} {addresses} {end} {long}"),
            number => format!("refused {number} {place}"),
        }
    }

    /// In the form of `graphlist`.
    pub fn text(&self) -> String {
        let mut lines = vec![self.first_line()];
        if self.number != 0 {
            return lines.remove(0);
        }
        let words = |numbers: &[u64]| numbers.iter().map(u64::to_string).collect::<Vec<_>>().join(" ");
        for (table, letter) in LETTERS.iter().enumerate() {
            let records =
                (0..self.count(table)).map(|k| format!("{letter} {}", words(self.record(table, k))));
            lines.extend(records);
        }
        lines.join("\n")
    }

    /// Where objects or slots are not those of the Rust's own list, values unfolded.
    pub fn differs_from(&self, objects: &[Object]) -> Option<String> {
        if self.count(0) != objects.len() {
            return Some(format!("{} objects, the Rust has {}", self.count(0), objects.len()));
        }
        let mut slots = vec![Vec::new(); objects.len()];
        for k in 0..self.count(1) {
            let record = self.record(1, k);
            match slots.get_mut(record[0] as usize) {
                Some(of_object) => of_object.push(record),
                None => return Some(format!("slot {k} has no object")),
            }
        }
        for (number, object) in objects.iter().enumerate() {
            let record = self.record(0, number);
            let raw_len = object.raw_len as u64;
            let wanted =
                [object.byte_size as u64, object.start_offset as u64, raw_len, object.slots.len() as u64];
            if record != wanted || slots[number].len() != object.slots.len() {
                return Some(format!("object {number} is {record:?}, the Rust has {wanted:?}"));
            }
            for (record, slot) in slots[number].iter().zip(&object.slots) {
                if record[1] != slot.index as u64 || !self.is(&record[2..5], &slot.value) {
                    return Some(format!("slot {record:?}, the Rust has {} {:?}", slot.index, slot.value));
                }
            }
        }
        None
    }

    /// Whether a kind with its two numbers stands for a value of the Rust's.
    fn is(&self, record: &[u64], value: &SlotValue) -> bool {
        let holds = |number: u64, inner: &SlotValue| {
            (number as usize) < self.count(2) && self.is(self.record(2, number as usize), inner)
        };
        match value {
            SlotValue::Ref(Ref::Object(number)) => record == [1, *number as u64, 0],
            SlotValue::Ref(Ref::Root(index)) => record == [2, *index as u64, 0],
            SlotValue::Ref(Ref::RoRef(a, b)) => record == [3, *a as u64, *b as u64],
            SlotValue::Ref(Ref::Attached(index)) => record == [4, *index as u64, 0],
            SlotValue::Raw(raw) => {
                record == [if raw.advances { 5 } else { 6 }, raw.off as u64, raw.len as u64]
            }
            SlotValue::Repeat(count, inner) => record[..2] == [7, *count as u64] && holds(record[2], inner),
            SlotValue::RepeatPrev(count) => record == [8, *count as u64, 0],
            SlotValue::Skip(bytes) => record == [9, *bytes as u64, 0],
            SlotValue::StreamBytes(bytes) => record == [10, *bytes as u64, 0],
            SlotValue::ClearedWeak => record == [11, 0, 0],
            SlotValue::WeakRef(inner) => record[0] == 12 && record[2] == 0 && holds(record[1], inner),
            SlotValue::PendingRef(number) => record == [13, *number as u64, 0],
        }
    }
}
