//! What is asked of a graph: which raw range covers a byte, numbers in raw data, and what the top
//! object keeps (docs/FORMAT.md, "Filled tables").

use crate::ffi::{self, Filled};
use crate::graph::{Graph, ADDRESS, OBJECT, SLOT, VALUE};
use crate::refusal::Refusal;
use std::ops::Range;

/// What covers a byte of the payload (docs/FORMAT.md, "Which range covers a byte").
#[derive(Clone, Copy, PartialEq, Eq, Debug)]
pub enum Covering {
    /// The lowest slot whose range contains the byte.
    Slot(usize),
    /// No range contains it.
    Gap {
        /// The slot whose range ends nearest at or before the byte, the lowest of equally near
        /// ones.
        before: Option<usize>,
        /// The slot whose range begins nearest after the byte, the lowest of equally near ones.
        after: Option<usize>,
    },
}

/// What is looked for in raw data (docs/FORMAT.md, "Numbers in raw data").
#[derive(Clone, Copy, PartialEq, Eq, Debug)]
pub enum Wish {
    /// A small integer in a word of so many bytes.
    Smi(u64),
    /// A double, in eight bytes.
    Double,
}

/// A number in raw data.
#[derive(Clone, Copy, PartialEq, Debug)]
pub enum Number {
    /// A small integer.
    Smi(i32),
    /// A double. Its bits are those of the payload, a NaN's too.
    Double(f64),
    /// No number: too few bytes, or a word that is no small integer.
    Empty,
}

/// What the top object keeps (docs/FORMAT.md, "What the top object keeps").
#[derive(Clone, PartialEq, Eq, Debug)]
pub struct Kept {
    /// For each object, whether the top object reaches it through any reference.
    pub marks: Vec<bool>,
    /// The byte sizes of these objects, added up.
    pub bytes: u64,
    /// Those of the objects that it reaches through references under no weak value.
    pub strong_bytes: u64,
}

/// The small integer in the bytes of a word, if they are one (docs/FORMAT.md, "Small integers").
pub fn decode_smi_bytes(bytes: &[u8]) -> Option<i32> {
    ffi::smi(bytes).map(|bits| bits as i32)
}

fn refused(number: u64) -> Result<(), Refusal> {
    if number == 0 {
        Ok(())
    } else {
        Err(Refusal { number, place: 0 })
    }
}

/// The number of a slot; 2^64 - 1 stands for none.
fn slot(number: u64) -> Option<usize> {
    (number != u64::MAX).then_some(number as usize)
}

impl Graph<'_> {
    fn filled(&self) -> Filled<'_> {
        let count = |table: &[u64], fields: usize| (table.len() / fields) as u64;
        Filled {
            objects: &self.objects,
            slots: &self.slots,
            values: &self.values,
            addresses: &self.addresses,
            starts: [0; 4],
            counts: [
                count(&self.objects, OBJECT),
                count(&self.slots, SLOT),
                count(&self.values, VALUE),
                count(&self.addresses, ADDRESS),
            ],
        }
    }

    /// Which raw slot's range covers the payload byte at this offset.
    ///
    /// # Errors
    ///
    /// 18, if the payload has no such byte.
    pub fn range_at(&self, offset: u64) -> Result<Covering, Refusal> {
        let (number, answer) = ffi::range_at(self.filled(), self.payload.len() as u64, offset);
        refused(number)?;
        let [covering, before, after] = answer.map(slot);
        Ok(covering.map_or(Covering::Gap { before, after }, Covering::Slot))
    }

    /// The number in the range of a raw slot, so many bytes after the range's first.
    ///
    /// # Errors
    ///
    /// 17, if there is no such slot, if it is not raw, or if its range is not in the payload.
    pub fn number(&self, slot: usize, at: u64, wish: Wish) -> Result<Number, Refusal> {
        let size = match wish {
            Wish::Double => 0,
            // 0 would ask for a double; a word of one byte is no number either.
            Wish::Smi(size) => size.max(1),
        };
        let (number, [kind, bits]) = ffi::number(self.filled(), self.payload, slot as u64, at, size);
        refused(number)?;
        Ok(match kind {
            0 => Number::Empty,
            1 => Number::Smi(bits as i32),
            2 => Number::Double(f64::from_bits(bits)),
            kind => unreachable!("no number has kind {kind}"),
        })
    }

    /// Where the bytes of a raw slot lie in the payload.
    ///
    /// # Errors
    ///
    /// 17, if there is no such slot, if it is not raw, or if its range is not in the payload.
    pub fn view(&self, slot: usize) -> Result<Range<usize>, Refusal> {
        let (number, [offset, len]) = ffi::view(self.filled(), self.payload, slot as u64);
        refused(number)?;
        Ok(offset as usize..(offset + len) as usize)
    }

    /// What the top object keeps, in linear time.
    ///
    /// # Errors
    ///
    /// 19, if all byte sizes add up past 2^64 - 1.
    pub fn kept(&self) -> Result<Kept, Refusal> {
        let filled = self.filled();
        let [objects, slots, values, _] = filled.counts;
        let mut marks = vec![0; objects as usize];
        let mut scratch = vec![0; (values + slots + 2 * objects) as usize];
        let (number, [bytes, strong_bytes]) = ffi::kept(filled, &mut marks, &mut scratch);
        refused(number)?;
        Ok(Kept { marks: marks.into_iter().map(|mark| mark != 0).collect(), bytes, strong_bytes })
    }
}
