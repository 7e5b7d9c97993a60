//! The library, by the declaration of include/dawichko.h.

use std::sync::atomic::{AtomicU64, Ordering};

extern "C" {
    fn dawichko_graph(
        sheet: *const u16,
        sheet_length: usize,
        payload: *const u8,
        payload_length: usize,
        reservations: *const u32,
        reservations_length: usize,
        trusted: *const u8,
        trusted_length: usize,
        objects: *mut u64,
        objects_length: usize,
        slots: *mut u64,
        slots_length: usize,
        values: *mut u64,
        values_length: usize,
        addresses: *mut u64,
        addresses_length: usize,
        scratch: *mut u64,
        scratch_length: usize,
        outcome: *mut u64,
    ) -> u64;

    fn dawichko_range_at(
        objects: *const u64,
        objects_length: usize,
        slots: *const u64,
        slots_length: usize,
        values: *const u64,
        values_length: usize,
        addresses: *const u64,
        addresses_length: usize,
        starts: *const u64,
        counts: *const u64,
        payload_length: u64,
        offset: u64,
        answer: *mut u64,
    ) -> u64;

    fn dawichko_kept(
        objects: *const u64,
        objects_length: usize,
        slots: *const u64,
        slots_length: usize,
        values: *const u64,
        values_length: usize,
        addresses: *const u64,
        addresses_length: usize,
        starts: *const u64,
        counts: *const u64,
        marks: *mut u8,
        marks_length: usize,
        scratch: *mut u64,
        scratch_length: usize,
        sums: *mut u64,
    ) -> u64;
}

/// Numbers in a record of objects, slots, values and addresses.
pub const FIELDS: [usize; 4] = [4, 6, 3, 5];

pub struct Call {
    pub sheet: Vec<u16>,
    pub payload: Vec<u8>,
    pub reserve: Vec<u32>,
}

/// The counts of the four tables, the cursor at the finish, the refusal's place, and how many
/// integers are longer than their values need.
pub type Outcome = [u64; 7];

/// The tables lent to a call.
#[derive(Clone, PartialEq)]
pub struct Tables {
    pub records: [Vec<u64>; 4],
    pub scratch: Vec<u64>,
}

/// Of a byte that is in no table, so that a table that is not cleared is seen.
const OTHER: u64 = 0xabab_abab_abab_abab;

/// The seed of the index of legacy addresses.
pub static SEED: AtomicU64 = AtomicU64::new(0);

/// As much scratch as keeps the library from searching: a place for each pending number, in legacy
/// then the index of addresses.
fn scratch_length(bytes: usize, legacy: bool, addresses: usize) -> usize {
    bytes + if legacy { 9 + 8 * addresses } else { 0 }
}

impl Tables {
    /// Tables with room for so many records, and scratch, which hold other numbers before.
    pub fn with_room(rooms: [usize; 4], scratch: usize) -> Tables {
        let table = |k: usize| vec![OTHER; rooms[k] * FIELDS[k]];
        Tables { records: [table(0), table(1), table(2), table(3)], scratch: vec![OTHER; scratch] }
    }

    /// As many records as an accepted payload of this length can have, deferred entries left out.
    pub fn enough(bytes: usize, legacy: bool) -> Tables {
        let addresses = if legacy { bytes / 2 + 2 } else { 0 };
        let scratch = scratch_length(bytes, legacy, addresses);
        Tables::with_room([bytes / 2 + 2, bytes + 2, bytes + 2, addresses], scratch)
    }

    /// No more than the payload needs, by the counts of the outcome.
    pub fn shrink(&mut self, bytes: usize, legacy: bool, outcome: &Outcome) {
        for k in 0..4 {
            self.records[k].truncate(outcome[k] as usize * FIELDS[k]);
            self.records[k].shrink_to_fit();
        }
        self.scratch.truncate(scratch_length(bytes, legacy, outcome[3] as usize));
        self.scratch.shrink_to_fit();
    }

    /// How many records each table has.
    fn counts(&self) -> [u64; 4] {
        [0, 1, 2, 3].map(|k| (self.records[k].len() / FIELDS[k]) as u64)
    }
}

/// The refusal's number or 0, and the outcome.
pub fn graph(call: &Call, tables: &mut Tables) -> (u64, Outcome) {
    let mut outcome = [u64::MAX; 7];
    if let Some(seed) = tables.scratch.get_mut(call.payload.len() + 8) {
        *seed = SEED.load(Ordering::Relaxed);
    }
    let [objects, slots, values, addresses] = &mut tables.records;
    // Each length is that of the slice whose pointer stands before it, and no two of them overlap.
    let number = unsafe {
        dawichko_graph(
            call.sheet.as_ptr(),
            call.sheet.len(),
            call.payload.as_ptr(),
            call.payload.len(),
            call.reserve.as_ptr(),
            call.reserve.len(),
            [].as_ptr(),
            0,
            objects.as_mut_ptr(),
            objects.len(),
            slots.as_mut_ptr(),
            slots.len(),
            values.as_mut_ptr(),
            values.len(),
            addresses.as_mut_ptr(),
            addresses.len(),
            tables.scratch.as_mut_ptr(),
            tables.scratch.len(),
            outcome.as_mut_ptr(),
        )
    };
    (number, outcome)
}

/// The number that the search for a range returns, and its answer, for a payload that ends after
/// the offset.
pub fn range_at(tables: &Tables, offset: u64) -> (u64, [u64; 3]) {
    let [objects, slots, values, addresses] = &tables.records;
    let mut answer = [0; 3];
    // As in `graph`.
    let number = unsafe {
        dawichko_range_at(
            objects.as_ptr(),
            objects.len(),
            slots.as_ptr(),
            slots.len(),
            values.as_ptr(),
            values.len(),
            addresses.as_ptr(),
            addresses.len(),
            [0; 4].as_ptr(),
            tables.counts().as_ptr(),
            offset + 1,
            offset,
            answer.as_mut_ptr(),
        )
    };
    (number, answer)
}

/// The number that the call returns, and both sums; it writes the marks.
pub fn kept(tables: &mut Tables, marks: &mut [u8]) -> (u64, [u64; 2]) {
    let counts = tables.counts();
    let [objects, slots, values, addresses] = &tables.records;
    let mut sums = [0; 2];
    // As in `graph`.
    let number = unsafe {
        dawichko_kept(
            objects.as_ptr(),
            objects.len(),
            slots.as_ptr(),
            slots.len(),
            values.as_ptr(),
            values.len(),
            addresses.as_ptr(),
            addresses.len(),
            [0; 4].as_ptr(),
            counts.as_ptr(),
            marks.as_mut_ptr(),
            marks.len(),
            tables.scratch.as_mut_ptr(),
            tables.scratch.len(),
            sums.as_mut_ptr(),
        )
    };
    (number, sums)
}
