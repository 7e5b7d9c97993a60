//! Runs the Rust that Dawichko is a port of, and gives its answer in the form of `graphlist`
//! (docs/GRAPHLIST.md). Where the Rust's source isn't given (JSCD_SRC), `WANTED` says what is
//! wanted, and sheets and real payloads can be read all the same.

pub mod heads;
pub mod listing;
pub mod reader;
pub mod real;
pub mod refusal;
pub mod sha256;
pub mod sheet;
pub mod tables;
pub mod trace;

// Takes in serializer.rs, unchanged, as the module `serializer`; and says whether it could
// (build.rs).
include!(concat!(env!("OUT_DIR"), "/taken_in.rs"));

use serializer::Object;
use sheet::Sheet;
use trace::Event;

/// The longest payload that is read.
pub const MOST_BYTES: usize = 16_777_216;
/// The longest reservation list that is read.
pub const MOST_RESERVATIONS: usize = 65_536;

/// What is wanted where `PRESENT` is false.
pub const WANTED: &str =
    "the Rust is not built in: it is src/serializer.rs of the repository ejfkdev/jscd at \
                          commit 40b0a43f7c; set JSCD_SRC to the folder of that file and build again";

/// What a call reads.
pub struct Input {
    /// The numbers of the engine version.
    pub sheet: Sheet,
    /// A byte for each root index, nonzero for those that set `raw_len`.
    pub trusted: Vec<u8>,
    /// The payload, without the header of its file.
    pub payload: Vec<u8>,
    /// The chunk reservations of a legacy file.
    pub reserve: Vec<u32>,
}

impl Input {
    /// The Rust's object list for a payload, all else as in this input.
    pub fn walk(&self, payload: &[u8]) -> Result<Vec<Object>, String> {
        let table = self.sheet.table(&self.trusted);
        serializer::parse_with(payload, &table, &self.reserve).map(|cache| cache.objects)
    }

    /// The refusal of an input that is refused before the walk (docs/FORMAT.md, "Refusals").
    pub fn not_walked(&self) -> Option<&'static str> {
        if !self.sheet.usable() {
            return Some("refused 1 0");
        }
        let long = self.payload.len() > MOST_BYTES || self.reserve.len() > MOST_RESERVATIONS;
        long.then_some("refused 2 0")
    }

    /// What the Rust gives, from the events of a walk of this input and what the walk gave.
    pub fn answer(&self, events: &[Event], walked: &Result<Vec<Object>, String>) -> String {
        if self.sheet.legacy() && listing::passes_32_bits(events) {
            return "refused 16 ?".into();
        }
        match walked {
            Ok(objects) => listing::list(self, objects, events),
            Err(text) => {
                let heads = heads::Heads { sheet: &self.sheet, payload: &self.payload };
                refusal::describe(text, events, &heads)
            }
        }
    }
}

/// Reservations from little-endian bytes.
pub fn reservations(bytes: &[u8]) -> Result<Vec<u32>, String> {
    if bytes.len() % 4 != 0 {
        return Err("the reservations are not whole 32-bit numbers".into());
    }
    Ok(bytes.chunks(4).map(|c| u32::from_le_bytes([c[0], c[1], c[2], c[3]])).collect())
}
