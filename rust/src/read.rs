//! A call, with tables that grow until they suffice.

use crate::ffi::{self, Tables};
use crate::graph::{Graph, ADDRESS, OBJECT, SLOT, VALUE};
use crate::refusal::Refusal;
use crate::sheet::Sheet;
use std::collections::hash_map::RandomState;
use std::hash::{BuildHasher, Hasher};

/// The longest payload that is read, in bytes; a longer one is refused with 2.
pub const MOST_BYTES: usize = 16_777_216;
/// The longest reservation list that is read; a longer one is refused with 2.
pub const MOST_RESERVATIONS: usize = 65_536;

/// What a call reads (docs/FORMAT.md, "The version sheet", "Reservations and the trusted list").
#[derive(Clone, Copy)]
pub struct Call<'a> {
    /// The tag values of the engine version that wrote the payload.
    pub sheet: &'a Sheet,
    /// The payload, without the header of its file.
    pub payload: &'a [u8],
    /// The chunk reservations of a legacy file; none where the format has none.
    pub reservations: &'a [u32],
    /// A byte for each root index: not 0 for the roots that set `raw_len`. It may be empty.
    pub trusted: &'a [u8],
}

impl<'a> Call<'a> {
    /// Without reservations and trusted list.
    pub fn new(sheet: &'a Sheet, payload: &'a [u8]) -> Call<'a> {
        Call { sheet, payload, reservations: &[], trusted: &[] }
    }

    /// The payload's length. One that is too long is refused before its tables are used.
    fn bytes(&self) -> usize {
        Some(self.payload.len()).filter(|bytes| *bytes <= MOST_BYTES).unwrap_or(0)
    }
}

/// How many records each table can hold.
#[derive(Clone, Copy, PartialEq, Eq, Debug)]
pub struct Rooms {
    /// Objects, 32 bytes each.
    pub objects: usize,
    /// Slots, 48 bytes each.
    pub slots: usize,
    /// Values, 24 bytes each.
    pub values: usize,
    /// Addresses, 40 bytes each; none are written outside legacy.
    pub addresses: usize,
}

impl Rooms {
    /// To begin with: two or three times what payloads that V8 wrote need as a rule, an object for
    /// 44 to 56 bytes and 4 to 5 slots for an object.
    pub fn first(call: &Call) -> Rooms {
        let bytes = call.bytes();
        let objects = bytes / 16 + 64;
        let addresses = if call.sheet.is_legacy() { objects } else { 0 };
        Rooms { objects, slots: bytes / 4 + 256, values: bytes / 16 + 64, addresses }
    }

    /// What no payload of this length can pass: an object has a head byte and a size byte of its
    /// own, and a slot and a value record a head byte each. Only the deferred entries of a legacy
    /// payload can write more slots than that; they get as many as the longest payload.
    pub fn most(call: &Call) -> Rooms {
        let bytes = call.bytes();
        let objects = bytes / 2;
        match call.sheet.is_legacy() {
            true => Rooms { objects, slots: MOST_BYTES, values: bytes, addresses: objects },
            false => Rooms { objects, slots: bytes, values: bytes, addresses: 0 },
        }
    }

    fn doubled(self) -> Rooms {
        let twice = |records: usize| records.saturating_mul(2).max(64);
        Rooms {
            objects: twice(self.objects),
            slots: twice(self.slots),
            values: twice(self.values),
            addresses: twice(self.addresses),
        }
    }

    fn at_most(self, most: Rooms) -> Rooms {
        Rooms {
            objects: self.objects.min(most.objects),
            slots: self.slots.min(most.slots),
            values: self.values.min(most.values),
            addresses: self.addresses.min(most.addresses),
        }
    }
}

/// The graph of a payload. Tables are made, and made larger while the call refuses with 3, up to
/// `Rooms::most`.
///
/// # Errors
///
/// The library's refusal: 1 to 16, of which 3 only for a legacy payload whose deferred entries
/// write over 16,777,216 slots.
///
/// # Panics
///
/// If the system gives no thread to call the library on. As elsewhere, running out of memory ends
/// the program.
pub fn read<'a>(call: &Call<'a>) -> Result<Graph<'a>, Refusal> {
    read_up_to(call, Rooms::most(call))
}

/// As `read`, with other largest rooms.
///
/// # Errors
///
/// As those of `read`, with 3 where these rooms do not suffice.
pub fn read_up_to<'a>(call: &Call<'a>, most: Rooms) -> Result<Graph<'a>, Refusal> {
    let mut rooms = Rooms::first(call).at_most(most);
    loop {
        let outcome = read_within(call, rooms);
        let too_short = matches!(outcome, Err(Refusal { number: Refusal::ROOM, .. }));
        if !too_short || rooms == most {
            return outcome;
        }
        // The refusal does not say which table was too short.
        rooms = rooms.doubled().at_most(most);
    }
}

/// As much scratch as keeps the call from searching: a place for each pending number, of which
/// there are no more than payload bytes, and for legacy sheets the index of addresses, nine numbers
/// and eight for each record.
fn scratch_length(call: &Call, rooms: Rooms) -> usize {
    let records = rooms.addresses.saturating_mul(8);
    let index = if call.sheet.is_legacy() { records.saturating_add(9) } else { 0 };
    call.bytes().saturating_add(index)
}

/// Scratch with a random seed of the index (include/dawichko.h).
fn scratch(call: &Call, rooms: Rooms) -> Vec<u64> {
    let mut scratch = vec![0; scratch_length(call, rooms)];
    if let Some(seed) = scratch.get_mut(call.bytes() + 8) {
        *seed = RandomState::new().build_hasher().finish();
    }
    scratch
}

/// One call with tables of these rooms.
///
/// # Errors
///
/// As those of `read`, with 3 where these rooms do not suffice.
pub fn read_within<'a>(call: &Call<'a>, rooms: Rooms) -> Result<Graph<'a>, Refusal> {
    // Zeros, because such memory is given without being written; the library asks nothing of what
    // the tables and scratch hold.
    let table = |records: usize, fields: usize| vec![0; records.saturating_mul(fields)];
    let mut tables = Tables {
        objects: table(rooms.objects, OBJECT),
        slots: table(rooms.slots, SLOT),
        values: table(rooms.values, VALUE),
        addresses: table(rooms.addresses, ADDRESS),
        scratch: scratch(call, rooms),
    };
    let (number, [objects, slots, values, addresses, end, place, long_integers]) =
        ffi::graph(call, &mut tables);
    if number != 0 {
        return Err(Refusal { number, place: place as usize });
    }
    let records = |mut table: Vec<u64>, count: u64, fields: usize| {
        table.truncate(count as usize * fields);
        table.shrink_to_fit();
        table
    };
    Ok(Graph {
        payload: call.payload,
        objects: records(tables.objects, objects, OBJECT),
        slots: records(tables.slots, slots, SLOT),
        values: records(tables.values, values, VALUE),
        addresses: records(tables.addresses, addresses, ADDRESS),
        end: end as usize,
        long_integers: long_integers as usize,
    })
}
