//! Refusals, with their numbers and words (docs/FORMAT.md, "Refusals").

use std::error::Error;
use std::fmt;

/// When each of the numbers 1 to 19 is returned.
const WORDS: [&str; 19] = [
    "sheet not usable",
    "payload over 16,777,216 bytes or over 65,536 reservations",
    "the record to append next is the first past its table's room",
    "a byte is needed and none is left",
    "the first byte opens no object",
    "a reference at depth over 64",
    "raw range passes the payload's end",
    "back-reference by plain index not below the object count",
    "hot place empty",
    "head byte without meaning",
    "a meta-map tag",
    "bytes consumed differ from the declared size",
    "not legacy, payload ends before kSynchronize",
    "not legacy, other than kNop after kSynchronize",
    "legacy map or large-object number has no entry",
    "a legacy address, size or next free offset passes 2^32 − 1",
    "counts that do not fit the tables, or a slot without view",
    "an offset that is not below the payload's length",
    "fewer marks than objects, or byte sizes past 2^64 − 1",
];

/// Why a payload has no graph, or a graph no answer (docs/FORMAT.md, "Refusals").
#[derive(Clone, Copy, PartialEq, Eq, Debug)]
pub struct Refusal {
    /// 1 to 16 where a payload has no graph, 17 to 19 where a graph is asked for what it does not
    /// have.
    pub number: u64,
    /// A place in the payload, from 0 to its length; which one depends on the number. 0 for 1, 2
    /// and 17 to 19.
    pub place: usize,
}

impl Refusal {
    /// The number that is returned when a table is too short.
    pub const ROOM: u64 = 3;

    /// When a call returns the number, in a few words; what `Display` shows after number and place.
    pub fn words(&self) -> &'static str {
        let known =
            usize::try_from(self.number).ok().and_then(|n| n.checked_sub(1)).and_then(|n| WORDS.get(n));
        known.copied().unwrap_or("a number that a call does not return")
    }
}

impl fmt::Display for Refusal {
    fn fmt(&self, to: &mut fmt::Formatter) -> fmt::Result {
        write!(to, "refused {} at {}: {}", self.number, self.place, self.words())
    }
}

impl Error for Refusal {}
