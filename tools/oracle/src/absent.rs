//! Stands in for the Rust's serializer.rs where that isn't given: the types through which its
//! answers are read, with the same names, and a walk that only says what is wanted.

use crate::tables::VersionTable;

/// What a reference stands for: an object by its number, a root by its index, a place in the
/// read-only heap, an attached thing.
#[derive(Debug, Clone, Copy)]
pub enum Ref {
    Object(usize),
    Root(usize),
    RoRef(u32, u32),
    Attached(usize),
}

/// Bytes of the payload, and whether they fill as many of the object.
#[derive(Debug, Clone, Copy)]
pub struct Raw {
    pub off: usize,
    pub len: usize,
    pub advances: bool,
}

/// What a slot holds.
#[derive(Debug, Clone)]
pub enum SlotValue {
    Ref(Ref),
    Repeat(usize, Box<SlotValue>),
    RepeatPrev(usize),
    Skip(usize),
    StreamBytes(usize),
    Raw(Raw),
    ClearedWeak,
    WeakRef(Box<SlotValue>),
    PendingRef(u32),
}

/// A value and its place in the object, in words.
#[derive(Debug, Clone)]
pub struct Slot {
    pub index: usize,
    pub value: SlotValue,
}

/// An object: its size, the place of its head byte, and its slots in the order of their indexes.
#[derive(Debug, Clone)]
pub struct Object {
    pub byte_size: usize,
    pub start_offset: usize,
    pub slots: Vec<Slot>,
    pub raw_len: bool,
}

/// The objects of an accepted payload.
pub struct CodeCache {
    pub objects: Vec<Object>,
}

/// Says what is wanted.
pub fn parse_with(_: &[u8], _: &VersionTable, _: &[u32]) -> Result<CodeCache, String> {
    Err(crate::WANTED.into())
}
