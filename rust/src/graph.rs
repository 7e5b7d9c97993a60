//! The graph: the four tables (docs/FORMAT.md, "The tables"), with typed records.

use std::iter::Map;
use std::slice::ChunksExact;

/// Numbers of each table's record.
pub(crate) const OBJECT: usize = 4;
pub(crate) const SLOT: usize = 6;
pub(crate) const VALUE: usize = 3;
pub(crate) const ADDRESS: usize = 5;

/// The graph of an accepted payload. Objects, slots, values and addresses are numbered from 0 in
/// the order of the records. It borrows the payload.
#[derive(Clone, PartialEq, Eq, Debug)]
pub struct Graph<'a> {
    pub(crate) payload: &'a [u8],
    pub(crate) objects: Vec<u64>,
    pub(crate) slots: Vec<u64>,
    pub(crate) values: Vec<u64>,
    pub(crate) addresses: Vec<u64>,
    pub(crate) end: usize,
    pub(crate) long_integers: usize,
}

/// An object that the payload opens.
#[derive(Clone, Copy, PartialEq, Eq, Debug)]
pub struct Object {
    /// The declared size in bytes: the words that the payload says, times the word size.
    pub bytes: u64,
    /// The place of the object's head byte in the payload.
    pub tag_offset: usize,
    /// Whether the length field is a plain number and no Smi, by the trusted list.
    pub raw_len: bool,
    /// How many slots the object has.
    pub slots: usize,
}

/// A place in an object that holds a value.
#[derive(Clone, Copy, PartialEq, Eq, Debug)]
pub struct Slot {
    /// The number of the object that has the slot.
    pub object: usize,
    /// The slot's place in the object, in words; 0 is the map.
    pub index: usize,
    /// What the slot holds, once forward references are resolved.
    pub value: Value,
    /// Whether the slot is a forward reference that waits and was not resolved.
    pub waits: bool,
}

/// What a slot or a value record has. A weak or repeat holds the number of a value record, which
/// `Graph::value` gives.
#[derive(Clone, Copy, PartialEq, Eq, Debug)]
pub enum Value {
    /// The object of this number.
    Object(usize),
    /// The root of this index.
    Root(usize),
    /// A read-only object: page and offset. Things outside the payload have a first number near
    /// 2^32 (docs/FORMAT.md, "The tables"; docs/DIFFERENCES.md, D42).
    ReadOnly(u64, u64),
    /// The attached reference of this index.
    Attached(usize),
    /// Bytes of the payload (`Graph::raw_bytes`).
    Raw {
        /// The place of the first byte in the payload.
        offset: usize,
        /// How many bytes there are.
        len: usize,
        /// Whether they fill as many bytes of the object, or none.
        advances: bool,
    },
    /// Words that each have the same value.
    Repeat {
        /// How many words.
        count: usize,
        /// The number of the value record that they have.
        value: usize,
    },
    /// So many words that each have the value of the slot before (6.x).
    RepeatPrevious(usize),
    /// So many bytes of the object that are left out (6.x).
    Skip(usize),
    /// So many bytes that belong to no slot (6.x).
    StreamBytes(usize),
    /// A weak reference whose target is gone, or an object's reference to itself by its handle
    /// (docs/DIFFERENCES.md, D14).
    ClearedWeak,
    /// A weak reference to the value of this record.
    Weak(usize),
    /// A forward reference of this number, not resolved.
    Pending(u64),
}

/// Where a legacy object was placed (docs/FORMAT.md, "Legacy allocation").
#[derive(Clone, Copy, PartialEq, Eq, Debug)]
pub struct Address {
    /// The space that the object's head byte names.
    pub space: u64,
    /// The number of the chunk in the space.
    pub chunk: u64,
    /// The place in the chunk, in bytes.
    pub offset: u64,
    /// The number of the object.
    pub object: usize,
    /// False if the space has no counters; chunk and offset are then 0.
    pub placed: bool,
}

impl Object {
    fn of(record: &[u64]) -> Object {
        Object {
            bytes: record[0],
            tag_offset: record[1] as usize,
            raw_len: record[2] != 0,
            slots: record[3] as usize,
        }
    }
}

impl Slot {
    fn of(record: &[u64]) -> Slot {
        Slot {
            object: record[0] as usize,
            index: record[1] as usize,
            value: Value::of(&record[2..5]),
            waits: record[5] != 0,
        }
    }
}

impl Value {
    fn of(record: &[u64]) -> Value {
        let (a, b) = (record[1] as usize, record[2] as usize);
        match record[0] {
            1 => Value::Object(a),
            2 => Value::Root(a),
            3 => Value::ReadOnly(record[1], record[2]),
            4 => Value::Attached(a),
            5 => Value::Raw { offset: a, len: b, advances: true },
            6 => Value::Raw { offset: a, len: b, advances: false },
            7 => Value::Repeat { count: a, value: b },
            8 => Value::RepeatPrevious(a),
            9 => Value::Skip(a),
            10 => Value::StreamBytes(a),
            11 => Value::ClearedWeak,
            12 => Value::Weak(a),
            13 => Value::Pending(record[1]),
            kind => unreachable!("no value has kind {kind}"),
        }
    }
}

impl Address {
    fn of(record: &[u64]) -> Address {
        Address {
            space: record[0],
            chunk: record[1],
            offset: record[2],
            object: record[3] as usize,
            placed: record[4] != 0,
        }
    }
}

/// The records of a table, one after the other.
pub type Records<'g, T> = Map<ChunksExact<'g, u64>, fn(&[u64]) -> T>;

fn records<T>(table: &[u64], fields: usize, of: fn(&[u64]) -> T) -> Records<'_, T> {
    table.chunks_exact(fields).map(of)
}

/// The record of a number, if the table has it.
fn record(table: &[u64], fields: usize, number: usize) -> Option<&[u64]> {
    table.chunks_exact(fields).nth(number)
}

impl<'a> Graph<'a> {
    /// All objects, in the order in which they were opened.
    pub fn objects(&self) -> Records<'_, Object> {
        records(&self.objects, OBJECT, Object::of)
    }

    /// The object of this number, if there is one.
    pub fn object(&self, number: usize) -> Option<Object> {
        record(&self.objects, OBJECT, number).map(Object::of)
    }

    /// All slots, in the order in which they were read; those of one object need not stand
    /// together.
    pub fn slots(&self) -> Records<'_, Slot> {
        records(&self.slots, SLOT, Slot::of)
    }

    /// The slot of this number, if there is one.
    pub fn slot(&self, number: usize) -> Option<Slot> {
        record(&self.slots, SLOT, number).map(Slot::of)
    }

    /// The slots of each object, by its number, in the order in which they were read.
    pub fn slots_by_object(&self) -> Vec<Vec<Slot>> {
        let mut found: Vec<Vec<Slot>> =
            self.objects().map(|object| Vec::with_capacity(object.slots)).collect();
        self.slots().for_each(|slot| found[slot.object].push(slot));
        found
    }

    /// All value records, in the order in which they were formed: what weak references and repeats
    /// hold, also those that the closing section drops.
    pub fn values(&self) -> Records<'_, Value> {
        records(&self.values, VALUE, Value::of)
    }

    /// The value record of this number, which a weak or a repeat holds, if there is one.
    pub fn value(&self, number: usize) -> Option<Value> {
        record(&self.values, VALUE, number).map(Value::of)
    }

    /// Where the objects of a legacy payload were placed, in the order of allocating; none for
    /// other sheets.
    pub fn addresses(&self) -> Records<'_, Address> {
        records(&self.addresses, ADDRESS, Address::of)
    }

    /// The place in the payload at which reading ended: its length, unless the sheet is legacy
    /// (docs/FORMAT.md, "A whole call").
    pub fn end(&self) -> usize {
        self.end
    }

    /// How many integers of the payload have more bytes than their values need (docs/FORMAT.md,
    /// "Integers"). They change nothing of the graph, and are no sign of damage; of payloads that
    /// V8 wrote a few legacy ones have some, because their closing sections are read otherwise than
    /// V8 reads them (docs/DIFFERENCES.md, D23, D24).
    pub fn long_integers(&self) -> usize {
        self.long_integers
    }

    /// The payload that was read.
    pub fn payload(&self) -> &'a [u8] {
        self.payload
    }

    /// The bytes of a raw value, which are a part of the payload itself; none for other values.
    pub fn raw_bytes(&self, value: Value) -> Option<&'a [u8]> {
        match value {
            Value::Raw { offset, len, .. } => self.payload.get(offset..)?.get(..len),
            _ => None,
        }
    }
}
