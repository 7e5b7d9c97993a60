//! The inspection of a sheet: which name each head byte obeys (docs/FORMAT.md, "Head bytes").

use crate::ffi;
use crate::refusal::Refusal;
use crate::sheet::{Sheet, NAMES};

/// What a head byte is where a reference is read.
#[derive(Clone, Copy, PartialEq, Eq, Debug)]
pub struct Obeyed {
    /// The name that it obeys, one of `NAMES`; none if it has no meaning there.
    pub name: Option<&'static str>,
    /// Whether another present name lays hold of the byte too.
    pub shared: bool,
}

impl Sheet {
    /// Which name each of the 256 head bytes obeys where a reference is read.
    ///
    /// # Errors
    ///
    /// 1, if the sheet is not usable.
    pub fn inspect(&self) -> Result<[Obeyed; 256], Refusal> {
        let (number, names, shared) = ffi::inspect(self.numbers());
        if number != 0 {
            return Err(Refusal { number, place: 0 });
        }
        Ok(std::array::from_fn(|byte| Obeyed {
            name: NAMES.get(names[byte] as usize).copied(),
            shared: shared[byte] != 0,
        }))
    }
}
