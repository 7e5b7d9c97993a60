//! The calls of the library, by the declarations of include/dawichko.h. All unsafe code of this
//! crate is here.

use crate::read::Call;
use std::thread;

extern "C" {
    fn dawichko_graph(
        sheet: *const u16,
        sheet_length: usize,
        payload: *const u8,
        payload_length: usize,
        reservations: *const u32,
        reservations_length: usize,
        trusted: *const u8,
        trusted_length: usize,
        objects: *mut u64,
        objects_length: usize,
        slots: *mut u64,
        slots_length: usize,
        values: *mut u64,
        values_length: usize,
        addresses: *mut u64,
        addresses_length: usize,
        scratch: *mut u64,
        scratch_length: usize,
        outcome: *mut u64,
    ) -> u64;

    fn dawichko_range_at(
        objects: *const u64,
        objects_length: usize,
        slots: *const u64,
        slots_length: usize,
        values: *const u64,
        values_length: usize,
        addresses: *const u64,
        addresses_length: usize,
        starts: *const u64,
        counts: *const u64,
        payload_length: u64,
        offset: u64,
        answer: *mut u64,
    ) -> u64;

    fn dawichko_kept(
        objects: *const u64,
        objects_length: usize,
        slots: *const u64,
        slots_length: usize,
        values: *const u64,
        values_length: usize,
        addresses: *const u64,
        addresses_length: usize,
        starts: *const u64,
        counts: *const u64,
        marks: *mut u8,
        marks_length: usize,
        scratch: *mut u64,
        scratch_length: usize,
        sums: *mut u64,
    ) -> u64;

    fn dawichko_number(
        objects: *const u64,
        objects_length: usize,
        slots: *const u64,
        slots_length: usize,
        values: *const u64,
        values_length: usize,
        addresses: *const u64,
        addresses_length: usize,
        counts: *const u64,
        payload: *const u8,
        payload_length: usize,
        slot: u64,
        at: u64,
        wish: u64,
        answer: *mut u64,
    ) -> u64;

    fn dawichko_view(
        objects: *const u64,
        objects_length: usize,
        slots: *const u64,
        slots_length: usize,
        values: *const u64,
        values_length: usize,
        addresses: *const u64,
        addresses_length: usize,
        counts: *const u64,
        payload: *const u8,
        payload_length: usize,
        slot: u64,
        range: *mut u64,
    ) -> u64;

    fn dawichko_smi(bytes: *const u8, bytes_length: usize, answer: *mut u64) -> u64;

    fn dawichko_inspect(sheet: *const u16, sheet_length: usize, names: *mut u16, shared: *mut u8) -> u64;
}

/// Bytes: more than ten times the 141 kB that a call takes at most (docs/BENCHMARKS.md).
const STACK: usize = 2 << 20;

/// What is lent to be written: the four tables and scratch, as include/dawichko.h has them.
pub struct Tables {
    pub objects: Vec<u64>,
    pub slots: Vec<u64>,
    pub values: Vec<u64>,
    pub addresses: Vec<u64>,
    pub scratch: Vec<u64>,
}

/// Tables that a call filled, the start of the part that is asked of, and the record counts; both
/// of objects, slots, values and addresses.
#[derive(Clone, Copy)]
pub struct Filled<'a> {
    pub objects: &'a [u64],
    pub slots: &'a [u64],
    pub values: &'a [u64],
    pub addresses: &'a [u64],
    pub starts: [u64; 4],
    pub counts: [u64; 4],
}

// The calls below are sound because each pointer with its length is that of one slice, so it is
// aligned and leads to as many elements; an array has the elements that are read or written; and
// what is written is borrowed mutably, so that nothing else reads or writes it and it overlaps
// nothing. None of these calls itself, so the stack of any thread is large enough.

/// The number that the search returns, and its answer.
pub fn range_at(filled: Filled, payload_length: u64, offset: u64) -> (u64, [u64; 3]) {
    let mut answer = [0; 3];
    let number = unsafe {
        dawichko_range_at(
            filled.objects.as_ptr(),
            filled.objects.len(),
            filled.slots.as_ptr(),
            filled.slots.len(),
            filled.values.as_ptr(),
            filled.values.len(),
            filled.addresses.as_ptr(),
            filled.addresses.len(),
            filled.starts.as_ptr(),
            filled.counts.as_ptr(),
            payload_length,
            offset,
            answer.as_mut_ptr(),
        )
    };
    (number, answer)
}

/// The number that the call returns, and both sums; it writes the marks.
pub fn kept(filled: Filled, marks: &mut [u8], scratch: &mut [u64]) -> (u64, [u64; 2]) {
    let mut sums = [0; 2];
    let number = unsafe {
        dawichko_kept(
            filled.objects.as_ptr(),
            filled.objects.len(),
            filled.slots.as_ptr(),
            filled.slots.len(),
            filled.values.as_ptr(),
            filled.values.len(),
            filled.addresses.as_ptr(),
            filled.addresses.len(),
            filled.starts.as_ptr(),
            filled.counts.as_ptr(),
            marks.as_mut_ptr(),
            marks.len(),
            scratch.as_mut_ptr(),
            scratch.len(),
            sums.as_mut_ptr(),
        )
    };
    (number, sums)
}

/// The number that the call returns, and kind and bits of the number that is asked for.
pub fn number(filled: Filled, payload: &[u8], slot: u64, at: u64, wish: u64) -> (u64, [u64; 2]) {
    let mut answer = [0; 2];
    let number = unsafe {
        dawichko_number(
            filled.objects.as_ptr(),
            filled.objects.len(),
            filled.slots.as_ptr(),
            filled.slots.len(),
            filled.values.as_ptr(),
            filled.values.len(),
            filled.addresses.as_ptr(),
            filled.addresses.len(),
            filled.counts.as_ptr(),
            payload.as_ptr(),
            payload.len(),
            slot,
            at,
            wish,
            answer.as_mut_ptr(),
        )
    };
    (number, answer)
}

/// The number that the call returns, and the range's offset and length.
pub fn view(filled: Filled, payload: &[u8], slot: u64) -> (u64, [u64; 2]) {
    let mut range = [0; 2];
    let number = unsafe {
        dawichko_view(
            filled.objects.as_ptr(),
            filled.objects.len(),
            filled.slots.as_ptr(),
            filled.slots.len(),
            filled.values.as_ptr(),
            filled.values.len(),
            filled.addresses.as_ptr(),
            filled.addresses.len(),
            filled.counts.as_ptr(),
            payload.as_ptr(),
            payload.len(),
            slot,
            range.as_mut_ptr(),
        )
    };
    (number, range)
}

/// The bits of the small integer in the bytes of a word, if they are one.
pub fn smi(bytes: &[u8]) -> Option<u64> {
    let mut answer = [0; 1];
    let is_one = unsafe { dawichko_smi(bytes.as_ptr(), bytes.len(), answer.as_mut_ptr()) };
    (is_one == 1).then_some(answer[0])
}

/// The number that the call returns, each head byte's name, and whether another has it too.
pub fn inspect(sheet: &[u16]) -> (u64, [u16; 256], [u8; 256]) {
    let (mut names, mut shared) = ([0; 256], [0; 256]);
    let number =
        unsafe { dawichko_inspect(sheet.as_ptr(), sheet.len(), names.as_mut_ptr(), shared.as_mut_ptr()) };
    (number, names, shared)
}

/// The number that the call returns, and its outcome: the four counts, `end`, the place and the
/// number of long integers.
pub fn graph(call: &Call, tables: &mut Tables) -> (u64, [u64; 7]) {
    let work = || {
        let sheet = call.sheet.numbers();
        let mut outcome = [0; 7];
        // Sound: each pointer with its length is that of one slice, so it is aligned and leads to
        // as many elements; the tables, scratch and the outcome are borrowed mutably, so nothing
        // else reads or writes them and they overlap nothing; the outcome has the seven numbers that
        // are written; and this thread's stack is larger than what the call takes.
        let number = unsafe {
            dawichko_graph(
                sheet.as_ptr(),
                sheet.len(),
                call.payload.as_ptr(),
                call.payload.len(),
                call.reservations.as_ptr(),
                call.reservations.len(),
                call.trusted.as_ptr(),
                call.trusted.len(),
                tables.objects.as_mut_ptr(),
                tables.objects.len(),
                tables.slots.as_mut_ptr(),
                tables.slots.len(),
                tables.values.as_mut_ptr(),
                tables.values.len(),
                tables.addresses.as_mut_ptr(),
                tables.addresses.len(),
                tables.scratch.as_mut_ptr(),
                tables.scratch.len(),
                outcome.as_mut_ptr(),
            )
        };
        (number, outcome)
    };
    // The library does not test whether the stack has room, and the caller's may have less, so the
    // call gets a thread of its own.
    thread::scope(|scope| {
        let thread = thread::Builder::new().stack_size(STACK).spawn_scoped(scope, work);
        thread.expect("a thread for the call can be made").join().expect("the library does not panic")
    })
}
