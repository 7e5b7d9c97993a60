//! Tables that are too short at first, and how far they grow.

mod common;

use common::{bytes, sheet, A, L8, SIX_SPACES};
use dawichko::{read, read_up_to, read_within, Call, Refusal, Rooms, Value};

const ROOM: u64 = Refusal::ROOM;

/// An integer of four bytes.
fn integer(number: u32) -> [u8; 4] {
    (number << 2 | 3).to_le_bytes()
}

/// An object whose words are one byte each.
fn wide(words: u32) -> Vec<u8> {
    let mut payload = vec![0];
    payload.extend(integer(words));
    payload.extend(vec![0x45; words as usize]);
    payload.push(0x0D);
    payload
}

/// So many objects of one word in the closing section.
fn many(objects: usize) -> Vec<u8> {
    let mut payload = [0, 4, 0x45].repeat(objects);
    payload.push(0x0D);
    payload
}

/// An object whose words are weak references.
fn weak(words: u32) -> Vec<u8> {
    let mut payload = vec![0];
    payload.extend(integer(words));
    payload.push(0x45);
    payload.extend([0x10, 0x46].repeat(words as usize - 1));
    payload.push(0x0D);
    payload
}

#[test]
fn slots_grow() {
    let (sheet, payload) = (sheet(A), wide(100_000));
    let call = Call::new(&sheet, &payload);
    assert_eq!(read_within(&call, Rooms::first(&call)).unwrap_err().number, ROOM);
    let graph = read(&call).expect("tables that suffice");
    assert_eq!((graph.objects().len(), graph.slots().len()), (1, 100_000));
    assert!(graph.slots().enumerate().all(|(k, slot)| slot.index == k && slot.value == Value::Root(5)));
    assert_eq!(graph.end(), payload.len());
}

#[test]
fn objects_grow() {
    let (sheet, payload) = (sheet(A), many(20_000));
    let call = Call::new(&sheet, &payload);
    assert_eq!(read_within(&call, Rooms::first(&call)).unwrap_err().number, ROOM);
    let graph = read(&call).expect("tables that suffice");
    assert_eq!((graph.objects().len(), graph.slots().len()), (20_000, 20_000));
    assert!(graph.objects().enumerate().all(|(k, object)| object.tag_offset == 3 * k && object.bytes == 8));
}

#[test]
fn values_grow() {
    let (sheet, payload) = (sheet(A), weak(50_000));
    let call = Call::new(&sheet, &payload);
    assert_eq!(read_within(&call, Rooms::first(&call)).unwrap_err().number, ROOM);
    let graph = read(&call).expect("tables that suffice");
    assert_eq!((graph.slots().len(), graph.values().len()), (50_000, 49_999));
    assert!(graph.slots().skip(1).enumerate().all(|(k, slot)| slot.value == Value::Weak(k)));
    assert!(graph.values().all(|value| value == Value::Root(6)));
}

/// A deferred entry of a few bytes that writes a repeat out: more slots than the payload has bytes.
fn deferred(count: u32) -> Vec<u8> {
    let mut payload = bytes("02 08 45 16 02 00 00 0C 1A");
    payload.extend(integer(count - 18));
    payload.extend([0x46, 0x14]);
    payload
}

#[test]
fn legacy_slots_grow_past_the_payload() {
    let (sheet, payload) = (sheet(L8), deferred(40_000));
    let call = Call { reservations: &SIX_SPACES, ..Call::new(&sheet, &payload) };
    let graph = read(&call).expect("tables that suffice");
    assert_eq!((graph.objects().len(), graph.slots().len(), graph.addresses().len()), (1, 40_001, 1));
    assert_eq!(graph.slot(40_000).map(|slot| (slot.index, slot.value)), Some((40_000, Value::Root(6))));
}

/// Legacy objects, and references to all of them by address, to the newest first.
#[test]
fn legacy_addresses_grow() {
    let count = 20_000;
    let mut payload = vec![1];
    payload.extend(integer(2 * count + 1));
    payload.push(0x45);
    payload.extend([2, 4, 0x46].repeat(count as usize));
    (0..count).rev().for_each(|k| {
        payload.extend([0x0A, 0]);
        payload.extend(integer(8 * k));
    });
    payload.push(0x14);
    let sheet = sheet(L8);
    let call = Call { reservations: &SIX_SPACES, ..Call::new(&sheet, &payload) };
    assert_eq!(read_within(&call, Rooms::first(&call)).unwrap_err().number, ROOM);
    let graph = read(&call).expect("tables that suffice");
    let count = count as usize;
    assert_eq!((graph.slots().len(), graph.addresses().len()), (3 * count + 1, count + 1));
    assert!(graph
        .slots()
        .skip(2 * count + 1)
        .enumerate()
        .all(|(k, slot)| slot.value == Value::Object(count - k)));
}

#[test]
fn largest_rooms_are_kept() {
    let (sheet, payload) = (sheet(L8), deferred(40_000));
    let call = Call { reservations: &SIX_SPACES, ..Call::new(&sheet, &payload) };
    let rooms = |slots| Rooms { slots, ..Rooms::most(&call) };
    assert_eq!(read_up_to(&call, rooms(40_000)).unwrap_err().number, ROOM);
    assert_eq!(read_up_to(&call, rooms(40_001)), read(&call));
    let nothing = Rooms { objects: 0, slots: 0, values: 0, addresses: 0 };
    let refusal = read_up_to(&call, nothing).unwrap_err();
    let words = "refused 3 at 2: the record to append next is the first past its table's room";
    assert_eq!(refusal.to_string(), words);
}

/// Growing ends also where a table has no room at first that may have some at last.
#[test]
fn growing_ends() {
    let (sheet, payload) = (sheet(A), wide(1000));
    let call = Call::new(&sheet, &payload);
    let most = Rooms { objects: 1000, slots: 999, values: 0, addresses: 1000 };
    assert_eq!(Rooms::first(&call).addresses, 0);
    assert_eq!(read_up_to(&call, most).unwrap_err().number, ROOM);
    assert!(read_up_to(&call, Rooms { slots: 1000, ..most }).is_ok());
}

/// Rooms that are just enough give the same graph, and one record less is refused.
#[test]
fn rooms_that_are_just_enough() {
    let (sheet, payload) = (sheet(A), weak(1000));
    let call = Call::new(&sheet, &payload);
    let rooms = Rooms { objects: 1, slots: 1000, values: 999, addresses: 0 };
    assert_eq!(read_within(&call, rooms), read(&call));
    for short in
        [Rooms { objects: 0, ..rooms }, Rooms { slots: 999, ..rooms }, Rooms { values: 998, ..rooms }]
    {
        assert_eq!(read_within(&call, short).unwrap_err().number, ROOM);
    }
}

/// What `Rooms::most` rests on: payloads with as many records for their length as can be.
#[test]
fn no_payload_passes_the_largest_rooms() {
    let sheet = sheet(A);
    for payload in [wide(1), wide(3000), many(1), many(3000), weak(2), weak(3000), bytes("00 04 45 0D")] {
        assert!(read(&Call::new(&sheet, &payload)).is_ok());
    }
    // Chains of weak references in the closing section, each with a value record.
    let mut payload = bytes("00 04 45");
    payload.extend([vec![0x10; 60], vec![0x46]].concat().repeat(100));
    payload.push(0x0D);
    let graph = read(&Call::new(&sheet, &payload)).expect("tables that suffice");
    assert_eq!(graph.values().len(), 6000);
}

/// The deepest walk, called from a thread whose stack the library alone would not fit on.
#[test]
fn callers_with_little_stack() {
    let payload = [[0x00, 0x04].repeat(64), vec![0x45, 0x0D]].concat();
    let called = move || read(&Call::new(&sheet(A), &payload)).map(|graph| graph.objects().len());
    let thread = std::thread::Builder::new().stack_size(64 << 10).spawn(called).expect("a thread");
    assert_eq!(thread.join().expect("the call returns"), Ok(64));
}
