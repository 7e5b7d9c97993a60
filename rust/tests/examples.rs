//! The examples a to l (docs/FORMAT.md, "Examples") and further short payloads, read by hand.

mod common;

use common::{bytes, sheet, A, L8, SIX_SPACES};
use dawichko::{read, Address, Call, Object, Refusal, Slot, Value};

fn refusal(payload: &str) -> (u64, usize) {
    let refusal = read(&Call::new(&sheet(A), &bytes(payload))).expect_err("the payload is refused");
    (refusal.number, refusal.place)
}

type Expected<'a> = (&'a [Object], &'a [Slot], &'a [Value], usize);

fn accepted(payload: &str, (objects, slots, values, end): Expected) {
    let payload = bytes(payload);
    let sheet = sheet(A);
    let graph = read(&Call::new(&sheet, &payload)).expect("the payload is accepted");
    assert_eq!(graph.objects().collect::<Vec<_>>(), objects);
    assert_eq!(graph.slots().collect::<Vec<_>>(), slots);
    assert_eq!(graph.values().collect::<Vec<_>>(), values);
    assert_eq!(graph.addresses().len(), 0);
    assert_eq!(graph.end(), end);
    assert_eq!(graph.payload(), payload);
}

/// How many integers of an accepted payload are longer than their values need.
fn long_integers(sheet: &str, payload: &str) -> usize {
    let (sheet, payload) = (common::sheet(sheet), bytes(payload));
    let reservations: &[u32] = if sheet.is_legacy() { &SIX_SPACES } else { &[] };
    let call = Call { reservations, ..Call::new(&sheet, &payload) };
    read(&call).expect("the payload is accepted").long_integers()
}

fn object(bytes: u64, tag_offset: usize, slots: usize) -> Object {
    Object { bytes, tag_offset, raw_len: false, slots }
}

fn slot(object: usize, index: usize, value: Value) -> Slot {
    Slot { object, index, value, waits: false }
}

const ROOT_5: Value = Value::Root(5);
const ROOT_6: Value = Value::Root(6);

#[test]
fn example_a() {
    let slots = [slot(0, 0, ROOT_5), slot(0, 1, ROOT_6)];
    accepted("00 08 45 46 0D", (&[object(16, 0, 2)], &slots, &[], 5));
}

#[test]
fn example_b() {
    assert_eq!(refusal(""), (4, 0));
}

#[test]
fn example_c() {
    accepted("00 04 45 0D", (&[object(8, 0, 1)], &[slot(0, 0, ROOT_5)], &[], 4));
}

#[test]
fn example_d() {
    assert_eq!(refusal("00 00 45 0D"), (12, 0));
}

#[test]
fn example_e() {
    let slots = [slot(0, 0, ROOT_5), slot(0, 1, Value::Repeat { count: 3, value: 0 })];
    accepted("00 10 45 81 46 0D", (&[object(32, 0, 2)], &slots, &[ROOT_6], 6));
}

#[test]
fn example_f() {
    assert_eq!(refusal("00 0C 45 81 46 0D"), (12, 0));
}

#[test]
fn example_g() {
    let slots = [slot(0, 0, ROOT_5), slot(0, 1, Value::Object(0)), slot(0, 2, Value::Object(0))];
    accepted("00 0C 45 08 00 90 0D", (&[object(24, 0, 3)], &slots, &[], 7));
}

#[test]
fn example_h() {
    assert_eq!(refusal("00 08 45 90 0D"), (9, 4));
}

#[test]
fn example_i() {
    assert_eq!(refusal("00 08 45 08 04 0D"), (8, 5));
}

#[test]
fn example_j() {
    let slots =
        [slot(0, 0, ROOT_5), slot(0, 1, Value::Object(1)), slot(1, 0, ROOT_6), slot(0, 2, Value::Object(1))];
    accepted("00 0C 45 0E 00 04 46 0F 00 0D", (&[object(24, 0, 3), object(8, 4, 1)], &slots, &[], 10));
}

#[test]
fn example_k() {
    assert_eq!(refusal("00 08 45 46 0D 0D"), (14, 5));
}

#[test]
fn example_l() {
    assert_eq!(refusal("00 08 45 12 00 AA 46 0D"), (12, 0));
}

/// Example a without its last byte, and with a longer form of its size.
#[test]
fn example_a_changed() {
    assert_eq!(refusal("00 08 45 46"), (13, 4));
    let slots = [slot(0, 0, ROOT_5), slot(0, 1, ROOT_6)];
    accepted("00 09 00 45 46 0D", (&[object(16, 0, 2)], &slots, &[], 6));
}

#[test]
fn long_integers_of_each_length() {
    // example a, with its size of 2 in one to four bytes
    for (payload, wanted) in [
        ("00 08 45 46 0D", 0),
        ("00 09 00 45 46 0D", 1),
        ("00 0A 00 00 45 46 0D", 1),
        ("00 0B 00 00 00 45 46 0D", 1),
        // an index that needs as many bytes, and one that needs one fewer
        ("00 08 45 0B FC 0D", 0),
        ("00 08 45 0B 01 01 0D", 0),
        ("00 08 45 0B FD 00 0D", 1),
        ("00 08 45 0B 02 00 01 0D", 0),
        ("00 08 45 0B FE FF 00 0D", 1),
        ("00 08 45 0B 03 00 00 01 0D", 0),
        ("00 08 45 0B FF FF FF 00 0D", 1),
        // 0 in one byte, and in four
        ("00 08 45 08 00 0D", 0),
        ("00 08 45 08 03 00 00 00 0D", 1),
        // size, both numbers of a read-only reference, a resolve, the closing section
        ("00 0D 00 45 0E 00 05 00 46 0F 01 00 09 01 00 05 00 0B 01 00 0D", 6),
        // a repeated root is a byte, and no integer
        ("00 4D 00 45 13 01 00 46 0D", 2),
    ] {
        assert_eq!(long_integers(A, payload), wanted, "{payload}");
    }
    let roots = A.replace("kFixedRepeat 80", "kFixedRepeatRoot 80");
    assert_eq!(long_integers(&roots, "00 0C 45 80 01 0D"), 0);
}

/// Those of a legacy closing section count that a fault ends, if they were read whole.
#[test]
fn long_integers_before_a_fault() {
    for (payload, wanted) in [
        // a back-reference whose offset is missing, or is cut, or whose chunk is
        ("00 04 45 1D 08 01 00", 1),
        ("00 04 45 1D 08 01 00 01", 1),
        ("00 04 45 1D 08 01", 0),
        // an entry that finds no object
        ("00 04 45 00 05 00 09 00 14", 2),
        // a map's number that there is not
        ("00 04 45 1D 0C 05 00 14", 1),
    ] {
        assert_eq!(long_integers(L8, payload), wanted, "{payload}");
    }
    // In 6.x the integer's own value counts, before the bits of the space are taken off.
    let six = format!("{L8} kBackrefWithSkip 30 kSpaceTagSize 10");
    assert_eq!(long_integers(&six, "00 08 45 08 03 00 40 00 14"), 1);
    assert_eq!(long_integers(&six, "00 08 45 08 03 00 00 04 14"), 0);
}

/// Values of each kind that the sheet has, with what is resolved on request.
#[test]
fn kinds_of_values() {
    let payload = bytes("00 28 45 09 04 08 0B 0C 60 01 02 03 04 05 06 07 08 11 10 0E 10 80 46 0E 46 46 0D");
    let sheet = sheet(A);
    let graph = read(&Call::new(&sheet, &payload)).expect("the payload is accepted");
    let raw = Value::Raw { offset: 9, len: 8, advances: true };
    let values: Vec<Value> = graph.slots().map(|slot| slot.value).collect();
    let wanted = [
        ROOT_5,
        Value::ReadOnly(1, 2),
        Value::Attached(3),
        raw,
        Value::ClearedWeak,
        Value::Weak(0),
        Value::Weak(2),
        Value::Pending(1),
        ROOT_6,
        ROOT_6,
    ];
    assert_eq!(values, wanted);
    let waits: Vec<usize> = graph.slots().filter(|slot| slot.waits).map(|slot| slot.index).collect();
    assert_eq!(waits, [7]);
    assert_eq!(graph.value(0), Some(Value::Pending(0)));
    assert_eq!(graph.value(1), Some(ROOT_6));
    assert_eq!(graph.value(2), Some(Value::Repeat { count: 2, value: 1 }));
    assert_eq!(graph.value(3), None);
    assert_eq!(graph.slot(3).map(|slot| slot.value), Some(raw));
    assert_eq!(graph.slot(10), None);
    assert_eq!(graph.object(0), Some(object(80, 0, 10)));
    assert_eq!(graph.object(1), None);
    let bytes = graph.raw_bytes(raw).expect("a raw value has bytes");
    assert_eq!(bytes, [1, 2, 3, 4, 5, 6, 7, 8]);
    // a part of the payload itself, not a copy
    assert_eq!(bytes.as_ptr(), payload[9..].as_ptr());
    assert_eq!(graph.raw_bytes(ROOT_5), None);
    assert_eq!(graph.raw_bytes(Value::Raw { offset: 20, len: 8, advances: true }), None);
    assert_eq!(graph.raw_bytes(Value::Raw { offset: 1, len: usize::MAX, advances: true }), None);
}

#[test]
fn raw_data_that_does_not_advance() {
    let sheet = sheet(&A.replace("var_raw_advances 1", "var_raw_advances 0"));
    let payload = bytes("00 08 45 12 04 01 02 03 04 05 06 07 08 46 0D");
    let graph = read(&Call::new(&sheet, &payload)).expect("the payload is accepted");
    let values: Vec<Value> = graph.slots().map(|slot| slot.value).collect();
    assert_eq!(values, [ROOT_5, Value::Raw { offset: 5, len: 8, advances: false }, ROOT_6]);
}

/// Kinds that only 6.x sheets have, and kSkip: as map they become slots.
#[test]
fn kinds_of_6x() {
    let sheet = sheet(&format!("{L8} kBackrefWithSkip 30 kSkip 20 kOffHeapBackingStore 28"));
    let value = |payload: &str| {
        let payload = bytes(payload);
        let call = Call { reservations: &SIX_SPACES, ..Call::new(&sheet, &payload) };
        let graph = read(&call).expect("the payload is accepted");
        graph.slot(0).map(|slot| slot.value)
    };
    assert_eq!(value("00 04 82 14"), Some(Value::RepeatPrevious(3)));
    assert_eq!(value("00 04 20 14 14"), Some(Value::Skip(5)));
    assert_eq!(value("00 04 28 18 14"), Some(Value::StreamBytes(6)));
}

#[test]
fn trusted_list() {
    let (sheet, payload) = (sheet(A), bytes("00 04 45 0D"));
    let raw_len = |trusted: &[u8]| {
        let call = Call { trusted, ..Call::new(&sheet, &payload) };
        read(&call).expect("the payload is accepted").object(0).map(|object| object.raw_len)
    };
    assert_eq!(raw_len(&[0, 0, 0, 0, 0, 9]), Some(true));
    assert_eq!(raw_len(&[1, 1, 1, 1, 1, 0, 1]), Some(false));
    assert_eq!(raw_len(&[1, 1, 1, 1, 1]), Some(false));
}

#[test]
fn addresses_of_legacy() {
    let sheet = sheet(L8);
    // An object in space 2 that has another one in the next chunk of that space, and a reference to
    // it by address.
    let payload = bytes("02 10 45 46 15 02 02 04 46 0A 04 00 14");
    let call = Call { reservations: &SIX_SPACES, ..Call::new(&sheet, &payload) };
    let graph = read(&call).expect("the payload is accepted");
    let address = |chunk, offset, object| Address { space: 2, chunk, offset, object, placed: true };
    assert_eq!(graph.addresses().collect::<Vec<_>>(), [address(0, 0, 0), address(1, 0, 1)]);
    assert_eq!(graph.slot(4).map(|slot| slot.value), Some(Value::Object(1)));
    // Space 7 has no counters.
    let payload = bytes("07 04 45 14");
    let call = Call { reservations: &SIX_SPACES, ..Call::new(&sheet, &payload) };
    let graph = read(&call).expect("the payload is accepted");
    let unplaced = Address { space: 7, chunk: 0, offset: 0, object: 0, placed: false };
    assert_eq!(graph.addresses().collect::<Vec<_>>(), [unplaced]);
}

#[test]
fn slots_by_object() {
    let (sheet, payload) = (sheet(A), bytes("00 0C 45 0E 00 04 46 0F 00 0D"));
    let graph = read(&Call::new(&sheet, &payload)).expect("the payload is accepted");
    let indexes: Vec<Vec<usize>> =
        graph.slots_by_object().iter().map(|slots| slots.iter().map(|slot| slot.index).collect()).collect();
    assert_eq!(indexes, [vec![0, 1, 2], vec![0]]);
}

/// Every number of the table, with an input that gets it, and the words that are shown.
#[test]
fn refusals() {
    let legacy = format!("{L8} kMapSpace 3");
    let meta = format!("{A} kNewMetaMap 14");
    let deep = "00 04 ".repeat(65);
    let long = vec![0; dawichko::MOST_BYTES + 1];
    let inputs: [(&str, &str, &str); 14] = [
        ("tagged_size 8", "00 04 45 0D", "refused 1 at 0: sheet not usable"),
        (A, "00", "refused 4 at 1: a byte is needed and none is left"),
        (A, "08 04 45 0D", "refused 5 at 0: the first byte opens no object"),
        (A, &deep, "refused 6 at 130: a reference at depth over 64"),
        (A, "00 08 45 60 01 0D", "refused 7 at 4: raw range passes the payload's end"),
        (A, "00 08 45 08 04 0D", "refused 8 at 5: back-reference by plain index not below the object count"),
        (A, "00 08 45 90 0D", "refused 9 at 4: hot place empty"),
        (A, "00 08 45 FF 0D", "refused 10 at 3: head byte without meaning"),
        (&meta, "00 08 45 14 0D", "refused 11 at 3: a meta-map tag"),
        (A, "00 08 45 00 00 45 0D", "refused 12 at 3: bytes consumed differ from the declared size"),
        (A, "00 08 45 46", "refused 13 at 4: not legacy, payload ends before kSynchronize"),
        (A, "00 08 45 46 0D 0C 0D", "refused 14 at 6: not legacy, other than kNop after kSynchronize"),
        (
            &legacy,
            "00 0C 45 03 04 46 0B 00 14",
            "refused 15 at 8: legacy map or large-object number has no entry",
        ),
        (
            L8,
            "00 FF FF FF FF 45 16 14",
            "refused 16 at 6: a legacy address, size or next free offset passes 2^32 − 1",
        ),
    ];
    for (names, payload, wanted) in inputs {
        let (sheet, payload) = (sheet(names), bytes(payload));
        let reservations: &[u32] = if sheet.is_legacy() { &SIX_SPACES } else { &[] };
        let call = Call { reservations, ..Call::new(&sheet, &payload) };
        let refusal = read(&call).expect_err(wanted);
        assert_eq!(refusal.to_string(), wanted);
    }
    let sheet = sheet(A);
    let limit = "refused 2 at 0: payload over 16,777,216 bytes or over 65,536 reservations";
    let refusal = read(&Call::new(&sheet, &long)).expect_err(limit);
    assert_eq!(refusal.to_string(), limit);
    let many = vec![0; dawichko::MOST_RESERVATIONS + 1];
    let refusal = read(&Call { reservations: &many, ..Call::new(&sheet, &[0]) }).expect_err(limit);
    assert_eq!(refusal.to_string(), limit);
    // 3 is in rooms.rs, and 17 to 19 in filled.rs.
    let words = "the record to append next is the first past its table's room";
    assert_eq!(Refusal { number: Refusal::ROOM, place: 0 }.words(), words);
    for number in [0, 20, u64::MAX] {
        assert_eq!(Refusal { number, place: 0 }.words(), "a number that a call does not return");
    }
}
