//! Compares a graph with the Rust's list of objects.

use dawichko::{Graph, Value};
use oracle::serializer::{Object, Ref, SlotValue};

/// Where objects or slots are not those of the Rust, values followed through the value records.
pub fn differs(graph: &Graph, objects: &[Object]) -> Option<String> {
    if graph.objects().len() != objects.len() {
        return Some(format!("{} objects, the Rust has {}", graph.objects().len(), objects.len()));
    }
    let slots = graph.slots_by_object();
    for (number, (got, wanted)) in graph.objects().zip(objects).enumerate() {
        let alike = got.bytes == wanted.byte_size as u64
            && got.tag_offset == wanted.start_offset
            && got.raw_len == wanted.raw_len
            && got.slots == wanted.slots.len()
            && slots[number].len() == wanted.slots.len();
        if !alike {
            return Some(format!("object {number} is {got:?}, the Rust has {wanted:?}"));
        }
        for (got, wanted) in slots[number].iter().zip(&wanted.slots) {
            if got.index != wanted.index || !is(graph, got.value, &wanted.value) {
                return Some(format!("slot {got:?}, the Rust has {wanted:?}"));
            }
        }
    }
    None
}

/// Whether a value is the Rust's.
fn is(graph: &Graph, value: Value, wanted: &SlotValue) -> bool {
    let holds = |number, inner: &SlotValue| graph.value(number).is_some_and(|value| is(graph, value, inner));
    match (value, wanted) {
        (Value::Object(number), SlotValue::Ref(Ref::Object(wanted))) => number == *wanted,
        (Value::Root(index), SlotValue::Ref(Ref::Root(wanted))) => index == *wanted,
        (Value::ReadOnly(a, b), SlotValue::Ref(Ref::RoRef(page, offset))) => {
            a == *page as u64 && b == *offset as u64
        }
        (Value::Attached(index), SlotValue::Ref(Ref::Attached(wanted))) => index == *wanted,
        (Value::Raw { offset, len, advances }, SlotValue::Raw(raw)) => {
            let bytes = graph.payload().get(raw.off..raw.off + raw.len);
            (offset, len, advances) == (raw.off, raw.len, raw.advances)
                && bytes.is_some()
                && graph.raw_bytes(value) == bytes
        }
        (Value::Repeat { count, value }, SlotValue::Repeat(wanted, inner)) => {
            count == *wanted && holds(value, inner)
        }
        (Value::RepeatPrevious(count), SlotValue::RepeatPrev(wanted)) => count == *wanted,
        (Value::Skip(bytes), SlotValue::Skip(wanted)) => bytes == *wanted,
        (Value::StreamBytes(bytes), SlotValue::StreamBytes(wanted)) => bytes == *wanted,
        (Value::ClearedWeak, SlotValue::ClearedWeak) => true,
        (Value::Weak(number), SlotValue::WeakRef(inner)) => holds(number, inner),
        (Value::Pending(number), SlotValue::PendingRef(wanted)) => number == *wanted as u64,
        _ => false,
    }
}
