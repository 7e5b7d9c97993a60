//! Rebuilds the four tables (docs/FORMAT.md, "The tables") from the Rust's object list and its
//! debug output.

use crate::heads::{Heads, Prefix};
use crate::reader::{self, Reading};
use crate::serializer::{Object, Raw, Ref, SlotValue};
use crate::trace::{Event, Holds};
use crate::Input;

/// Kind, a, b. Kind 0 stands for a value that could not be rebuilt.
type Record = [u64; 3];
const UNKNOWN: Record = [0; 3];

struct Listing<'a> {
    input: &'a Input,
    heads: Heads<'a>,
    objects: &'a [Object],
    spaces: Vec<u64>,
    slots: Vec<(usize, usize, Record, bool)>,
    values: Vec<Record>,
    addresses: Vec<[u64; 5]>,
    end: usize,
    /// Slots met so far of each object.
    pushed: Vec<usize>,
    /// A weak or repeat read whole whose use isn't known yet.
    formed: Option<(usize, Holds)>,
    /// Where the debug output hides them: the weak and repeat items of the closing section that are
    /// not listed yet, the last one first, each with the place of its end.
    hidden: Option<Vec<(usize, Option<SlotValue>)>>,
    /// The record that the slots of one item of a deferred entry share.
    shared: Option<Record>,
    /// An item of an object's body has just been read.
    item: bool,
}

/// The listing of an accepted payload, in the form of `graphlist`. A value that the Rust could not
/// be asked for is `v ? ? ?`.
pub fn list(input: &Input, objects: &[Object], events: &[Event]) -> String {
    let mut listing = Listing {
        input,
        heads: Heads { sheet: &input.sheet, payload: &input.payload },
        objects,
        spaces: Vec::new(),
        slots: Vec::new(),
        values: Vec::new(),
        addresses: Vec::new(),
        end: input.payload.len(),
        pushed: vec![0; objects.len()],
        formed: None,
        hidden: None,
        shared: None,
        item: false,
    };
    if listing.heads.hidden() {
        listing.hidden = Some(listing.closing_values());
    }
    for event in events {
        listing.take(event);
    }
    listing.drop_formed();
    listing.list_hidden(input.payload.len());
    listing.print()
}

impl Listing<'_> {
    fn take(&mut self, event: &Event) {
        match *event {
            Event::Slot { object, pending } => self.slot(object, pending),
            Event::Alloc { space, object, chunk, offset, .. } => {
                self.addresses.push([space, chunk, offset, object, 1])
            }
            Event::Done { place, holds } => {
                // What was formed is kept by this reference if it begins before it.
                if self.formed.is_some_and(|(inner, _)| place > inner) {
                    self.drop_formed();
                }
                let forms = holds != Holds::Other && self.hidden.is_none();
                self.formed = forms.then_some((place, holds));
            }
            Event::Item => self.formed = None,
            Event::Open { place, space, .. } => {
                self.drop_formed();
                self.list_hidden(place);
                self.spaces.push(space);
            }
            Event::Fault { .. } => self.drop_formed(),
            Event::Tail { place } => {
                self.drop_formed();
                self.end = place;
            }
        }
        self.item = matches!(event, Event::Item);
        if !matches!(event, Event::Slot { .. }) {
            self.shared = None;
        }
    }

    /// A slot is an object's map, an item of its body, or of a legacy deferred entry.
    fn slot(&mut self, object: usize, pending: bool) {
        let slot = &self.objects[object].slots[self.pushed[object]];
        let map = self.pushed[object] == 0;
        self.pushed[object] += 1;
        if map {
            self.address_without_counters(object);
        }
        let record = if map || self.item { self.kept(&slot.value) } else { self.entry_item(&slot.value) };
        let waits = self.item && pending && matches!(slot.value, SlotValue::PendingRef(_));
        self.slots.push((object, slot.index, record, waits));
        self.formed = None;
    }

    /// A space without counters allocates without a debug line, at the map as others do.
    fn address_without_counters(&mut self, object: usize) {
        let placed = self.addresses.last().is_some_and(|address| address[3] == object as u64);
        if self.input.sheet.legacy() && !placed {
            self.addresses.push([self.spaces[object], 0, 0, object as u64, 0]);
        }
    }

    /// In 6.x a repeat copies the slot before it, value number included.
    fn kept(&mut self, value: &SlotValue) -> Record {
        match value {
            SlotValue::Repeat(count, inner)
                if self.item && self.input.sheet.six_x() && holds_value(inner) =>
            {
                let before = self.slots.last().expect("the map at least").2;
                self.hold(7, Some(*count), before)
            }
            _ => self.form(value),
        }
    }

    /// An item of a deferred entry may stand in several slots, but forms its values once. A repeat
    /// is written out there: its slots have the value that it holds.
    fn entry_item(&mut self, value: &SlotValue) -> Record {
        if let Some(record) = self.shared {
            return record;
        }
        let record = self.form(value);
        if let Some((_, Holds::Repeat(_))) = self.formed {
            self.values.push(record);
        }
        self.shared = Some(record);
        record
    }

    /// A weak or repeat that nothing keeps was an item of the closing section.
    fn drop_formed(&mut self) {
        if let Some((place, _)) = self.formed.take() {
            let inner = self.inner_of(place, place).map_or(UNKNOWN, |inner| self.form(&inner));
            self.values.push(inner);
        }
    }

    /// The weak and repeat items of the closing section, found without the debug output: an item
    /// begins where the payload, cut there and ended by kSynchronize, is accepted.
    fn closing_values(&self) -> Vec<(usize, Option<SlotValue>)> {
        let payload = &self.input.payload;
        let end = [self.input.sheet.get("kSynchronize").unwrap_or(0) as u8];
        let begins = |place: &usize| {
            // A resolve belongs to the object before it, which could also do without.
            let resolve = self.heads.holds(*place, "kResolvePendingForwardRef", 1);
            !resolve && self.input.walk(&[&payload[..*place], &end].concat()).is_ok()
        };
        let places: Vec<usize> = (1..payload.len()).filter(begins).collect();
        let items = places.windows(2).rev().map(|pair| (pair[0], pair[1]));
        let values = items.filter(|(place, _)| !self.heads.forms_nothing(*place));
        let values = values.map(|(place, end)| (end, self.probe(place, place)));
        values.filter(|(_, value)| value.as_ref().is_none_or(holds_value)).collect()
    }

    /// Lists the hidden values that end at or before `place`.
    fn list_hidden(&mut self, place: usize) {
        let next = |left: &mut Vec<(usize, _)>| left.pop_if(|(end, _)| *end <= place);
        while let Some((_, value)) = self.hidden.as_mut().and_then(next) {
            match value {
                Some(value) => {
                    self.form(&value);
                }
                None => self.values.push(UNKNOWN),
            }
        }
    }

    /// What the dropped weak or repeat at `place` holds, an item that begins at `first`.
    fn inner_of(&self, first: usize, place: usize) -> Option<SlotValue> {
        match self.heads.prefix(place) {
            Prefix::Through(next) => self.inner_of(first, next),
            // Prefixes in front may be left out, which keeps the depth, but in legacy they change
            // the allocator, and an object that begins an item there means another thing.
            Prefix::Weak(next) | Prefix::Repeat(next) if self.input.sheet.legacy() => self.probe(next, next),
            Prefix::Weak(next) | Prefix::Repeat(next) => self.probe(first, next),
            Prefix::RepeatRoot(next) => Some(SlotValue::Ref(Ref::Root(self.input.payload[next] as usize))),
        }
    }

    /// The value of the reference at `place`, got from the Rust: what lies from `cut` to there is
    /// replaced by a head that opens an object of one word, so that the reference becomes its map.
    /// Objects opened from there on have numbers one higher, and raw ranges lie elsewhere.
    fn probe(&self, cut: usize, place: usize) -> Option<SlotValue> {
        let sheet = &self.input.sheet;
        let mut head = vec![sheet.get("kNewObject")? as u8, 0x04];
        if sheet.six_x() && sheet.get("kLoSpace") == Some(0) {
            head.push(0);
        }
        let payload = &self.input.payload;
        let objects = self.input.walk(&[&payload[..cut], &head, &payload[place..]].concat()).ok()?;
        let around = objects.iter().position(|object| object.start_offset == cut)?;
        let map = objects[around].slots.first()?.value.clone();
        Some(moved_back(map, around, |offset| offset - cut - head.len() + place))
    }

    fn form(&mut self, value: &SlotValue) -> Record {
        match value {
            SlotValue::Ref(Ref::Object(number)) => [1, *number as u64, 0],
            SlotValue::Ref(Ref::Root(index)) => [2, *index as u64, 0],
            SlotValue::Ref(Ref::RoRef(a, b)) => [3, *a as u64, *b as u64],
            SlotValue::Ref(Ref::Attached(index)) => [4, *index as u64, 0],
            SlotValue::Raw(raw) => [if raw.advances { 5 } else { 6 }, raw.off as u64, raw.len as u64],
            SlotValue::Repeat(count, inner) => {
                let inner = self.form(inner);
                self.hold(7, Some(*count), inner)
            }
            SlotValue::RepeatPrev(count) => [8, *count as u64, 0],
            SlotValue::Skip(bytes) => [9, *bytes as u64, 0],
            SlotValue::StreamBytes(bytes) => [10, *bytes as u64, 0],
            SlotValue::ClearedWeak => [11, 0, 0],
            SlotValue::WeakRef(inner) => {
                let inner = self.form(inner);
                self.hold(12, None, inner)
            }
            SlotValue::PendingRef(number) => [13, *number as u64, 0],
        }
    }

    /// Appends what a weak or repeat holds; its own record names that value's number.
    fn hold(&mut self, kind: u64, count: Option<usize>, inner: Record) -> Record {
        let number = self.values.len() as u64;
        self.values.push(inner);
        match count {
            Some(count) => [kind, count as u64, number],
            None => [kind, number, 0],
        }
    }

    /// How many integers are longer than their values need, which the Rust does not tell; unknown
    /// where the reader of docs/FORMAT.md does not read the payload as the Rust does.
    fn long_integers(&self) -> String {
        let counts = [self.objects.len(), self.slots.len(), self.addresses.len(), self.end];
        let alike = |reading: &Reading| {
            let [objects, slots, _, addresses] = reading.counts.map(|count| count as usize);
            [objects, slots, addresses, reading.end] == counts
        };
        let reading = reader::read(self.input).ok().filter(alike);
        reading.map_or("?".into(), |reading| reading.long_integers().to_string())
    }

    fn print(&self) -> String {
        let counts = [self.objects.len(), self.slots.len(), self.values.len(), self.addresses.len()];
        let [objects, slots, values, addresses] = counts;
        let long = self.long_integers();
        let mut lines = vec![format!("graph {objects} {slots} {values} {addresses} {} {long}", self.end)];
        lines.extend(
            self.objects.iter().map(|o| {
                format!("o {} {} {} {}", o.byte_size, o.start_offset, o.raw_len as u8, o.slots.len())
            }),
        );
        lines.extend(self.slots.iter().map(|(object, index, [kind, a, b], waits)| {
            format!("s {object} {index} {kind} {a} {b} {}", *waits as u8)
        }));
        lines.extend(self.values.iter().map(|record| match record {
            [0, ..] => "v ? ? ?".into(),
            [kind, a, b] => format!("v {kind} {a} {b}"),
        }));
        lines.extend(self.addresses.iter().map(|[space, chunk, offset, object, placed]| {
            format!("d {space} {chunk} {offset} {object} {placed}")
        }));
        lines.join("\n")
    }
}

fn holds_value(value: &SlotValue) -> bool {
    matches!(value, SlotValue::Repeat(..) | SlotValue::WeakRef(_))
}

fn moved_back(value: SlotValue, around: usize, back: impl Fn(usize) -> usize) -> SlotValue {
    match value {
        SlotValue::Ref(Ref::Object(number)) if number > around => SlotValue::Ref(Ref::Object(number - 1)),
        SlotValue::Raw(raw) => SlotValue::Raw(Raw { off: back(raw.off), ..raw }),
        SlotValue::WeakRef(inner) => SlotValue::WeakRef(Box::new(moved_back(*inner, around, back))),
        SlotValue::Repeat(count, inner) => {
            SlotValue::Repeat(count, Box::new(moved_back(*inner, around, back)))
        }
        other => other,
    }
}

/// Whether a legacy address, size or next free offset passes 32 bits. The Rust wraps it and goes
/// on.
pub fn passes_32_bits(events: &[Event]) -> bool {
    let limit = u32::MAX as u64;
    let mut sizes: Vec<u64> = Vec::new();
    let mut placing: Option<(u64, u64, u64, u64)> = None;
    for event in events {
        match *event {
            Event::Open { bytes, .. } => sizes.push(bytes),
            Event::Alloc { object, offset, filler, advance, .. } => {
                placing = Some((object, offset, filler, advance));
            }
            Event::Slot { object, .. } => {
                if sizes[object] > limit {
                    return true;
                }
                let wraps = |(id, offset, filler, advance): (u64, u64, u64, u64)| {
                    id == object as u64
                        && (offset < filler || advance < sizes[object] || offset - filler + advance > limit)
                };
                if placing.take().is_some_and(wraps) {
                    return true;
                }
            }
            _ => {}
        }
    }
    false
}
