//! Where a reference goes on after its head byte, for the few heads whose answer needs it.

use crate::sheet::Sheet;

/// The head bytes of a payload under a sheet.
pub struct Heads<'a> {
    /// The sheet.
    pub sheet: &'a Sheet,
    /// The payload.
    pub payload: &'a [u8],
}

/// A head that another reference follows, and the place of what follows.
pub enum Prefix {
    /// Chunk change, alignment, indirect and protected pointer: the value is the next one's.
    Through(usize),
    /// A weak reference to what follows.
    Weak(usize),
    /// A repeat of what follows.
    Repeat(usize),
    /// A repeat of a root whose index is the one byte there.
    RepeatRoot(usize),
}

impl Heads<'_> {
    /// Whether the byte at `place` lies in a name's span.
    pub fn holds(&self, place: usize, name: &str, span: u16) -> bool {
        let byte = self.payload[place] as u16;
        self.sheet.get(name).is_some_and(|first| (first..first + span).contains(&byte))
    }

    /// The place after the integer that begins at `place`.
    pub fn after_int(&self, place: usize) -> usize {
        place + 1 + (self.payload.get(place).unwrap_or(&0) & 3) as usize
    }

    /// For a reference known to be a prefix or a repeat. The order is that of `parse_ref_inner`.
    pub fn prefix(&self, place: usize) -> Prefix {
        let is = |name, span| self.holds(place, name, span);
        let next = place + 1;
        if self.sheet.legacy() && is("kNextChunk", 1) {
            Prefix::Through(next + 1)
        } else if self.sheet.legacy() && is("kAlignmentPrefix", 3) {
            Prefix::Through(next)
        } else if is("kWeakPrefix", 1) {
            Prefix::Weak(next)
        } else if is("kIndirectPointerPrefix", 1) || is("kProtectedPointerPrefix", 1) {
            Prefix::Through(next)
        } else if is("kFixedRepeat", 16) {
            Prefix::Repeat(next)
        } else if is("kFixedRepeatRoot", 16) && self.sheet.get("kFixedRepeat").is_none() {
            Prefix::RepeatRoot(next)
        } else if is("kVariableRepeat", 1) {
            Prefix::Repeat(self.after_int(next))
        } else {
            Prefix::RepeatRoot(self.after_int(next))
        }
    }

    /// Outside legacy the debug output takes eight bytes from kNewObject on for new objects and
    /// says nothing when such a reference is read whole. Whether this hides one that may form a
    /// value.
    pub fn hidden(&self) -> bool {
        let from = self.sheet.get("kBackref").unwrap_or(0);
        let to = self.sheet.get("kNewObject").unwrap_or(0) + 8;
        let names = [
            ("kWeakPrefix", 1),
            ("kIndirectPointerPrefix", 1),
            ("kProtectedPointerPrefix", 1),
            ("kFixedRepeat", 16),
            ("kFixedRepeatRoot", 16),
            ("kVariableRepeat", 1),
            ("kVariableRepeatRoot", 1),
        ];
        let inside =
            |(name, span)| self.sheet.get(name).is_some_and(|first| first < to && first + span > from);
        !self.sheet.legacy() && names.into_iter().any(inside)
    }

    /// Whether an item of the closing section is an alignment or, outside legacy, a new object.
    pub fn forms_nothing(&self, place: usize) -> bool {
        let first = |name| self.sheet.get(name).unwrap_or(0);
        let spaces = first("kBackref").saturating_sub(first("kNewObject"));
        self.holds(place, "kAlignmentPrefix", 3) || self.holds(place, "kNewObject", spaces)
    }

    /// The cursor at a raw range that passes the payload's end.
    pub fn after_raw_head(&self, place: usize) -> usize {
        if self.holds(place, "kFixedRawData", 32) {
            place + 1
        } else {
            self.after_int(place + 1)
        }
    }

    /// The cursor at an empty hot place.
    pub fn after_hot_head(&self, place: usize) -> usize {
        if self.holds(place, "kHotObject", 8) {
            place + 1
        } else {
            self.after_int(place + 1)
        }
    }

    /// The cursor after a map's or large object's number, which in 6.x a skip may precede.
    pub fn after_ordinal(&self, place: usize) -> usize {
        let spaces = self.sheet.get("kNumberOfSpaces").unwrap_or(6);
        let number = if self.sheet.six_x() && self.holds(place, "kBackrefWithSkip", spaces) {
            self.after_int(place + 1)
        } else {
            place + 1
        };
        self.after_int(number)
    }

    /// The cursor after a new object's size and, for a 6.x large object, its further byte.
    pub fn after_size(&self, place: usize, space: u64) -> usize {
        let large = self.sheet.get("kLoSpace").unwrap_or(5) as u64;
        self.after_int(place + 1) + (self.sheet.six_x() && space == large) as usize
    }
}
