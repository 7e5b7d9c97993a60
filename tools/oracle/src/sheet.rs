//! The version sheet (docs/SHEET.md) and how it becomes the Rust's tables.

use crate::tables::{SerializationCfg, VersionTable};

/// The order of docs/SHEET.md.
#[rustfmt::skip]
pub const NAMES: [&str; 58] = [
    "kNewObject", "kBackref", "kRootArray", "kAttachedReference", "kSynchronize", "kNop",
    "kHotObject", "kRootArrayConstants", "kFixedRawData", "kNextChunk", "kAlignmentPrefix",
    "kHotObjectWithSkip", "kRootArrayConstantsWithSkip", "kReadOnlyHeapRef", "kBuiltin",
    "kExternalReference", "kApiReference", "kInternalReference", "kInternalReferenceEncoded",
    "kDeoptimizerEntryPlain", "kDeoptimizerEntryFromCode", "kOffHeapBackingStore",
    "kVariableRawCode", "kEmbedderFieldsData", "kOffHeapTarget", "kPartialSnapshotCache",
    "kStartupObjectCache", "kReadOnlyObjectCache", "kSharedHeapObjectCache",
    "kRegisterPendingForwardRef", "kClearedWeakReference", "kWeakPrefix",
    "kIndirectPointerPrefix", "kProtectedPointerPrefix", "kInitializeSelfIndirectPointer",
    "kAllocateJSDispatchEntry", "kJSDispatchEntry", "kVariableRawData", "kSkip", "kFixedRepeat",
    "kFixedRepeatRoot", "kVariableRepeat", "kVariableRepeatRoot", "kNewMetaMap",
    "kNewContextlessMetaMap", "kNewContextfulMetaMap", "kResolvePendingForwardRef", "kDeferred",
    "kNumberOfSpaces", "kMapSpace", "kLoSpace", "kRootArrayConstantsMask", "kSpaceTagSize",
    "kPageSizeBits", "kSpaceMask", "kBackrefWithSkip", "tagged_size", "var_raw_advances",
];

const TAGS_AND_CONSTANTS: usize = 56;
const REQUIRED: usize = 9;
/// From kNumberOfSpaces on the Rust looks in `legacy` alone.
const FROM_LEGACY: usize = 48;
const ABSENT: u16 = 65535;

/// The numbers of one engine version.
pub struct Sheet {
    numbers: Vec<u16>,
}

impl Sheet {
    /// A sheet of 58 numbers.
    pub fn from_numbers(numbers: &[u16]) -> Option<Sheet> {
        (numbers.len() == NAMES.len()).then(|| Sheet { numbers: numbers.to_vec() })
    }

    /// In the order of docs/SHEET.md.
    pub fn numbers(&self) -> &[u16] {
        &self.numbers
    }

    /// From the bytes of a sheet.bin, two for each number; none where they are more or fewer.
    pub fn from_bytes(bytes: &[u8]) -> Option<Sheet> {
        let numbers = bytes.chunks(2).map(|c| u16::from_le_bytes([c[0], *c.get(1).unwrap_or(&0)]));
        let whole = bytes.len() == 2 * NAMES.len();
        whole.then(|| Sheet { numbers: numbers.collect() })
    }

    /// Lines of a name and a number; `#` begins a comment.
    pub fn from_text(text: &str) -> Result<Sheet, String> {
        let mut numbers = vec![ABSENT; NAMES.len()];
        for line in text.lines() {
            let words: Vec<&str> = line.split('#').next().unwrap_or("").split_whitespace().collect();
            let [name, number] = words[..] else {
                if words.is_empty() {
                    continue;
                }
                return Err(format!("not a name and a number: {line}"));
            };
            let place = NAMES.iter().position(|n| *n == name).ok_or(format!("unknown name {name}"))?;
            numbers[place] = number.parse().map_err(|_| format!("not a number: {line}"))?;
        }
        Ok(Sheet { numbers })
    }

    /// The number of a tag or constant, if it is present.
    pub fn get(&self, name: &str) -> Option<u16> {
        let place = NAMES.iter().position(|n| *n == name).expect("a name of the sheet");
        Some(self.numbers[place]).filter(|n| *n != ABSENT)
    }

    /// Whether the payload has back-references by address, and a call reservations.
    pub fn legacy(&self) -> bool {
        self.get("kSpaceMask").is_some()
    }

    /// Whether the payload is one of 6.x, with amounts that are skipped.
    pub fn six_x(&self) -> bool {
        self.get("kBackrefWithSkip").is_some()
    }

    /// Whether kRootArray is among the bytes of kNewObject in a legacy sheet without
    /// kNumberOfSpaces. The Rust takes it for a new object there, and Dawichko does not
    /// (docs/DIFFERENCES.md, D45).
    pub fn root_array_inside(&self) -> bool {
        let (Some(first), Some(root_array)) = (self.get("kNewObject"), self.get("kRootArray")) else {
            return false;
        };
        self.legacy()
            && self.get("kNumberOfSpaces").is_none()
            && (first..first.saturating_add(6)).contains(&root_array)
    }

    /// Bytes of a word.
    pub fn tagged_size(&self) -> u16 {
        self.numbers[TAGS_AND_CONSTANTS]
    }

    /// Whether the sheet is usable (docs/FORMAT.md, "The version sheet"). The Rust tests only that
    /// the required names are there.
    pub fn usable(&self) -> bool {
        let within = |name, low, high| self.get(name).is_none_or(|n| (low..=high).contains(&n));
        matches!(self.tagged_size(), 4 | 8)
            && self.numbers[..REQUIRED].iter().all(|n| *n != ABSENT)
            && self.numbers[..TAGS_AND_CONSTANTS].iter().all(|n| *n == ABSENT || *n <= 255)
            && within("kSpaceTagSize", 1, 16)
            && within("kPageSizeBits", 3, 28)
            && (self.legacy() || !self.six_x())
            && self.spans().iter().all(|(name, span)| self.get(name).is_none_or(|n| n + span <= 255))
    }

    fn spans(&self) -> Vec<(&'static str, u16)> {
        let constants = self.get("kRootArrayConstantsMask").unwrap_or(31) + 1;
        let mut spans = vec![
            ("kHotObject", 8),
            ("kHotObjectWithSkip", 8),
            ("kRootArrayConstants", constants),
            ("kRootArrayConstantsWithSkip", constants),
            ("kFixedRawData", 32),
            ("kFixedRepeat", 16),
            ("kFixedRepeatRoot", 16),
            ("kAlignmentPrefix", 3),
        ];
        if self.legacy() {
            let spaces = self.get("kNumberOfSpaces").unwrap_or(6);
            spans.extend(["kNewObject", "kBackref", "kBackrefWithSkip"].map(|name| (name, spaces)));
        }
        spans
    }

    /// In legacy every number goes into `legacy`, else tags into `tags`. A root index that the
    /// trusted list flags gets a name that sets `raw_len`, every other one a name that doesn't.
    pub fn table(&self, trusted: &[u8]) -> VersionTable {
        let mut maps = SerializationCfg::default();
        for (place, number) in self.numbers[..TAGS_AND_CONSTANTS].iter().enumerate() {
            let name = NAMES[place].to_string();
            if *number == ABSENT {
                continue;
            } else if self.legacy() || place >= FROM_LEGACY {
                maps.legacy.insert(name, *number as u32);
            } else {
                maps.tags.insert(name, *number as u8);
            }
        }
        let root = |flag: &u8| {
            if *flag != 0 {
                "TrustedFixedArrayMap"
            } else {
                "Plain"
            }
        };
        VersionTable {
            v8: String::new(),
            tagged_size: self.tagged_size() as u8,
            var_raw_advances: self.numbers[TAGS_AND_CONSTANTS + 1] != 0,
            roots: trusted.iter().map(|flag| root(flag).to_string()).collect(),
            roots_shift: 0,
            serialization: maps,
        }
    }
}
