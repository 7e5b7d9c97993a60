//! Version sheets to try: of every family, with both word sizes, and with names on each other's
//! bytes.

use crate::random::Random;
use oracle::sheet::NAMES;

pub const ABSENT: u16 = 65535;
/// The names that are bytes of a payload come first.
pub const TAGS: usize = 48;

/// A sheet by name; a name that is absent has `ABSENT`.
#[derive(Clone)]
pub struct Sheet {
    pub family: &'static str,
    pub numbers: [u16; 58],
}

pub fn place(name: &str) -> usize {
    NAMES.iter().position(|n| *n == name).unwrap_or_else(|| panic!("no name {name}"))
}

impl Sheet {
    pub fn get(&self, name: &str) -> Option<usize> {
        Some(self.numbers[place(name)]).filter(|n| *n != ABSENT).map(usize::from)
    }

    pub fn has(&self, name: &str) -> bool {
        self.get(name).is_some()
    }

    pub fn or(&self, name: &str, default: usize) -> usize {
        self.get(name).unwrap_or(default)
    }

    pub fn legacy(&self) -> bool {
        self.has("kSpaceMask")
    }

    pub fn six_x(&self) -> bool {
        self.has("kBackrefWithSkip")
    }

    pub fn map_first(&self) -> bool {
        self.legacy() && self.has("kNewMetaMap")
    }

    /// How many bytes belong to a name.
    pub fn span(&self, name: &str) -> usize {
        match name {
            "kHotObject" | "kHotObjectWithSkip" => 8,
            "kRootArrayConstants" | "kRootArrayConstantsWithSkip" => {
                self.or("kRootArrayConstantsMask", 31) + 1
            }
            "kFixedRawData" => 32,
            "kFixedRepeat" | "kFixedRepeatRoot" => 16,
            "kAlignmentPrefix" => 3,
            "kNewObject" | "kBackref" | "kBackrefWithSkip" if self.legacy() => self.or("kNumberOfSpaces", 6),
            _ => 1,
        }
    }

    /// How many bytes from kNewObject on open an object in legacy sheets.
    pub fn new_objects(&self) -> usize {
        let span = self.span("kNewObject");
        match self.has("kNumberOfSpaces") {
            true => span,
            false => {
                span.min(self.or("kRootArray", 256).checked_sub(self.or("kNewObject", 0)).unwrap_or(span))
            }
        }
    }

    /// With further names, `name value` with hexadecimal values; `-name` takes a name away.
    fn with(&self, family: &'static str, text: &str) -> Sheet {
        let mut made = Sheet { family, numbers: self.numbers };
        let mut words = text.split_whitespace();
        while let Some(word) = words.next() {
            match word.strip_prefix('-') {
                Some(name) => made.numbers[place(name)] = ABSENT,
                None => {
                    let value = words.next().expect("a value after a name");
                    made.numbers[place(word)] = u16::from_str_radix(value, 16).expect("hexadecimal");
                }
            }
        }
        made
    }
}

/// Sheet A (docs/FORMAT.md, "Examples").
const A: &str = "kNewObject 00 kBackref 08 kReadOnlyHeapRef 09 kRootArray 0A kAttachedReference 0B kNop 0C
    kSynchronize 0D kRegisterPendingForwardRef 0E kResolvePendingForwardRef 0F kWeakPrefix 10
    kClearedWeakReference 11 kVariableRawData 12 kVariableRepeat 13 kRootArrayConstants 40 kFixedRawData 60
    kFixedRepeat 80 kHotObject 90 tagged_size 8 var_raw_advances 1";

/// Every name of modern sheets, alignment included, which only the closing section looks at there.
const MODERN: &str = "kNewObject 00 kBackref 04 kReadOnlyHeapRef 05 kStartupObjectCache 06 kRootArray 07
    kAttachedReference 08 kReadOnlyObjectCache 09 kSharedHeapObjectCache 0A kNop 0B kSynchronize 0C
    kVariableRepeat 0D kVariableRawData 0E kRegisterPendingForwardRef 0F kResolvePendingForwardRef 10
    kClearedWeakReference 11 kWeakPrefix 12 kIndirectPointerPrefix 13 kProtectedPointerPrefix 14
    kInitializeSelfIndirectPointer 15 kAllocateJSDispatchEntry 16 kJSDispatchEntry 17 kNewMetaMap 18
    kNewContextlessMetaMap 19 kNewContextfulMetaMap 1A kVariableRepeatRoot 1B kPartialSnapshotCache 1C
    kAlignmentPrefix 1D kRootArrayConstants 40 kFixedRawData 60 kFixedRepeat 80 kHotObject 90
    kFixedRepeatRoot A0 tagged_size 8 var_raw_advances 1";

/// In the manner of V8 7.8.
const LEGACY: &str = "kNewObject 00 kBackref 08 kRootArray 11 kAttachedReference 12 kNop 13 kSynchronize 14
    kNextChunk 15 kDeferred 16 kAlignmentPrefix 17 kVariableRepeat 1A kVariableRawData 1B
    kClearedWeakReference 1C kWeakPrefix 1D kRootArrayConstants 40 kFixedRawData 60 kFixedRepeat 80
    kHotObject 90 kSpaceMask 7 tagged_size 8 var_raw_advances 1";
const MORE: &str = "kRegisterPendingForwardRef 1E kResolvePendingForwardRef 1F kPartialSnapshotCache 20
    kReadOnlyObjectCache 21 kReadOnlyHeapRef 22 kIndirectPointerPrefix 23";
const SIX: &str =
    "kBackrefWithSkip 30 kHotObjectWithSkip 38 kRootArrayConstantsWithSkip A0 kSkip 20 kBuiltin 21
    kExternalReference 22 kApiReference 23 kInternalReference 24 kInternalReferenceEncoded 25
    kDeoptimizerEntryPlain 26 kDeoptimizerEntryFromCode 27 kOffHeapBackingStore 28 kVariableRawCode 29
    kEmbedderFieldsData 2A kOffHeapTarget 2B kPartialSnapshotCache 2C kVariableRepeatRoot 2D
    kRegisterPendingForwardRef 1E kResolvePendingForwardRef 1F";

pub fn all() -> Vec<Sheet> {
    let none = Sheet { family: "", numbers: [ABSENT; 58] };
    let modern = none.with("modern", MODERN);
    let legacy = none.with("legacy", LEGACY);
    let more = legacy.with("legacy", MORE);
    let map_first = more.with("mapFirst", "kNewMetaMap 24 kStartupObjectCache 25");
    let six = legacy.with("6.x", SIX);
    vec![
        none.with("modern", A),
        modern.with("modern", "tagged_size 4"),
        modern.with("modern", "var_raw_advances 0"),
        modern.with("modern", "tagged_size 4 var_raw_advances 0"),
        modern.with("modern", "-kFixedRepeat -kVariableRepeat"),
        modern.with("modern", "-kFixedRepeat kFixedRepeatRoot 80 tagged_size 4"),
        // obeyed in every family, but not in plain sheets
        modern.with(
            "modern",
            "-kFixedRepeatRoot kSkip 20 kDeferred 21 kNextChunk 22 kHotObjectWithSkip A8
             kRootArrayConstantsWithSkip B0 kRootArrayConstantsMask 0F kBuiltin 23 kOffHeapTarget 25",
        ),
        modern,
        more.with("legacy", "tagged_size 4"),
        more.with("legacy", "kVariableRepeatRoot 26 kMapSpace 3 kLoSpace 2 var_raw_advances 0"),
        legacy.with("legacy", "kNumberOfSpaces 0"),
        legacy.with("legacy", "-kFixedRepeat kFixedRepeatRoot A0 kNumberOfSpaces 8 tagged_size 4"),
        legacy,
        map_first.with("mapFirst", "-kDeferred tagged_size 4"),
        map_first,
        six.with("6.x", "var_raw_advances 0"),
        six.with("6.x", "kSpaceTagSize 4 kPageSizeBits 0C tagged_size 4"),
        six.with("6.x", "kSpaceTagSize 10 kPageSizeBits 05 kLoSpace 1 kMapSpace 0"),
        six.with("6.x", "-kFixedRepeat kFixedRepeatRoot C0 kPageSizeBits 03 tagged_size 4"),
        // in the manner of 6.2: five spaces, and kRootArray is the byte after the last
        six.with("6.x", "kNumberOfSpaces 5 kRootArray 05 kLoSpace 4 kMapSpace 3 var_raw_advances 0"),
        six.with("6.x", "kNewMetaMap 2E tagged_size 4"),
        six,
    ]
}

/// One of the sheets with its tags moved to other bytes, some of them onto bytes of others.
pub fn coinciding(random: &mut Random, sheets: &[Sheet]) -> Sheet {
    let mut made = sheets[random.below(sheets.len())].clone();
    made.family = match made.family {
        "modern" => "modern, shared bytes",
        "legacy" => "legacy, shared bytes",
        "mapFirst" => "mapFirst, shared bytes",
        _ => "6.x, shared bytes",
    };
    let new = random.one_of(&[0, 0, 3, 100]);
    made.numbers[place("kNewObject")] = new;
    made.numbers[place("kBackref")] = new + random.one_of(&[1, 3, 8]);
    let mut taken = [false; 256];
    let fixed = ["kNewObject", "kBackref"];
    for name in fixed {
        let first = made.or(name, 0);
        taken[first..first + made.span(name)].fill(true);
    }
    for name in NAMES[..TAGS].iter().chain(&["kBackrefWithSkip"]) {
        if fixed.contains(name) || !made.has(name) {
            continue;
        }
        let span = made.span(name);
        let free = |first: &usize| taken[*first..*first + span].iter().all(|t| !t);
        let frees: Vec<usize> = (0..256 - span).filter(free).collect();
        let first = match frees.is_empty() || random.chance(200) {
            true => random.below(256 - span),
            false => random.one_of(&frees),
        };
        made.numbers[place(name)] = first as u16;
        taken[first..first + span].fill(true);
    }
    made
}

/// One of the sheets, with one number that makes it unusable, or of another length.
pub fn unusable(random: &mut Random, sheets: &[Sheet]) -> Vec<u16> {
    let mut numbers = sheets[random.below(sheets.len())].numbers.to_vec();
    if random.chance(200) {
        numbers.push(1);
        numbers.truncate(random.one_of(&[0, 57, 59]));
        return numbers;
    }
    let (name, value) = random.one_of(&[
        ("tagged_size", 0),
        ("tagged_size", 5),
        ("tagged_size", ABSENT),
        ("kNop", ABSENT),
        ("kFixedRawData", ABSENT),
        ("kSkip", 256),
        ("kHotObject", 248),
        ("kRootArrayConstants", 224),
        ("kFixedRawData", 224),
        ("kFixedRepeatRoot", 240),
        ("kAlignmentPrefix", 253),
        ("kHotObjectWithSkip", 250),
        ("kRootArrayConstantsMask", 255),
        ("kSpaceTagSize", 0),
        ("kSpaceTagSize", 17),
        ("kPageSizeBits", 2),
        ("kPageSizeBits", 29),
        ("kSynchronize", 300),
    ]);
    numbers[place(name)] = value;
    numbers
}
