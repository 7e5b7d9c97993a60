//! The part of the Rust's `tables` module that serializer.rs uses.

use std::collections::HashMap;

/// Tag values, constants and root names of a version.
pub struct VersionTable {
    pub v8: String,
    pub tagged_size: u8,
    pub var_raw_advances: bool,
    pub roots: Vec<String>,
    pub roots_shift: usize,
    pub serialization: SerializationCfg,
}

/// Tag values and constants by name.
#[derive(Default)]
pub struct SerializationCfg {
    pub tags: HashMap<String, u8>,
    pub legacy: HashMap<String, u32>,
}

impl VersionTable {
    /// At or above a nonzero shift, the entry shifted down if it is a string's name; else the entry
    /// itself.
    pub fn root_name(&self, index: usize) -> Option<&str> {
        let at = |i: usize| self.roots.get(i).map(String::as_str);
        let shifted = match self.roots_shift {
            0 => None,
            shift => index.checked_sub(shift).and_then(at),
        };
        shifted.filter(|name| name.starts_with("String:")).or_else(|| at(index))
    }

    /// Asked for only by accessors that are out of scope.
    pub fn slot_unit(&self) -> usize {
        8
    }
}
