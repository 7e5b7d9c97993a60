//! The version sheet (docs/SHEET.md), by the names that V8 has for its numbers.

use std::collections::HashMap;
use std::error::Error;
use std::fmt;

/// The names of a sheet's numbers, in the order of docs/SHEET.md.
#[rustfmt::skip]
pub const NAMES: [&str; 58] = [
    "kNewObject", "kBackref", "kRootArray", "kAttachedReference", "kSynchronize", "kNop",
    "kHotObject", "kRootArrayConstants", "kFixedRawData", "kNextChunk", "kAlignmentPrefix",
    "kHotObjectWithSkip", "kRootArrayConstantsWithSkip", "kReadOnlyHeapRef", "kBuiltin",
    "kExternalReference", "kApiReference", "kInternalReference", "kInternalReferenceEncoded",
    "kDeoptimizerEntryPlain", "kDeoptimizerEntryFromCode", "kOffHeapBackingStore",
    "kVariableRawCode", "kEmbedderFieldsData", "kOffHeapTarget", "kPartialSnapshotCache",
    "kStartupObjectCache", "kReadOnlyObjectCache", "kSharedHeapObjectCache",
    "kRegisterPendingForwardRef", "kClearedWeakReference", "kWeakPrefix",
    "kIndirectPointerPrefix", "kProtectedPointerPrefix", "kInitializeSelfIndirectPointer",
    "kAllocateJSDispatchEntry", "kJSDispatchEntry", "kVariableRawData", "kSkip", "kFixedRepeat",
    "kFixedRepeatRoot", "kVariableRepeat", "kVariableRepeatRoot", "kNewMetaMap",
    "kNewContextlessMetaMap", "kNewContextfulMetaMap", "kResolvePendingForwardRef", "kDeferred",
    "kNumberOfSpaces", "kMapSpace", "kLoSpace", "kRootArrayConstantsMask", "kSpaceTagSize",
    "kPageSizeBits", "kSpaceMask", "kBackrefWithSkip", "tagged_size", "var_raw_advances",
];

/// The number of an absent name.
pub const ABSENT: u16 = 65535;

/// What the reader takes where one of these is absent.
const DEFAULTS: [(&str, u16); 6] = [
    ("kNumberOfSpaces", 6),
    ("kMapSpace", 4),
    ("kLoSpace", 5),
    ("kRootArrayConstantsMask", 31),
    ("kSpaceTagSize", 3),
    ("kPageSizeBits", 19),
];

/// Names before this place are tags, bytes of a payload.
const TAGS: usize = 48;
const TAGGED_SIZE: usize = 56;
const VAR_RAW_ADVANCES: usize = 57;

/// The numbers of one engine version. Whether they make a usable sheet (docs/FORMAT.md, "The
/// version sheet") is tested by the call, which refuses with 1.
#[derive(Clone, Copy, PartialEq, Eq, Debug)]
pub struct Sheet {
    numbers: [u16; 58],
}

/// Why a sheet can't be made.
#[derive(Clone, PartialEq, Eq, Debug)]
pub enum SheetError {
    /// A name that docs/SHEET.md does not have.
    Unknown(String),
    /// A name that was given before.
    Twice(String),
    /// A number that a sheet can't hold under this name.
    Range {
        /// The name.
        name: &'static str,
        /// The number given.
        value: u32,
    },
    /// A sheet.bin of so many bytes.
    Length(usize),
}

/// The place of a name in the sheet, from 0 to 57, if it is one of `NAMES`.
pub fn place(name: &str) -> Option<usize> {
    NAMES.iter().position(|known| *known == name)
}

/// 65535 marks absent names, but is a true `var_raw_advances` like any other number than 0.
fn most(place: usize) -> u32 {
    if place == VAR_RAW_ADVANCES {
        65535
    } else {
        65534
    }
}

impl Sheet {
    /// From names and numbers, in any order. A name that is not given is absent; an absent
    /// `var_raw_advances` counts as true.
    ///
    /// # Errors
    ///
    /// `Unknown`, `Twice` or `Range`, for the first pair that is wrong.
    pub fn from_pairs<N: AsRef<str>>(pairs: impl IntoIterator<Item = (N, u32)>) -> Result<Sheet, SheetError> {
        let mut numbers = [ABSENT; 58];
        let mut given = [false; 58];
        for (name, value) in pairs {
            let name = name.as_ref();
            let place = place(name).ok_or_else(|| SheetError::Unknown(name.into()))?;
            if given[place] {
                return Err(SheetError::Twice(name.into()));
            }
            given[place] = true;
            numbers[place] = number(place, value)?;
        }
        Ok(Sheet { numbers })
    }

    /// From the maps and fields of the Rust's `VersionTable`, as `parse_with` takes them: a tag is
    /// that of `legacy` if it is a byte there, else that of `tags`; the names from kNumberOfSpaces
    /// on are those of `legacy` alone. Other names of the maps are passed over.
    ///
    /// # Errors
    ///
    /// `Range`, for the first name whose number is too large.
    pub fn from_maps(
        tags: &HashMap<String, u8>,
        legacy: &HashMap<String, u32>,
        tagged_size: u8,
        var_raw_advances: bool,
    ) -> Result<Sheet, SheetError> {
        let mut numbers = [ABSENT; 58];
        for (place, name) in NAMES[..TAGGED_SIZE].iter().enumerate() {
            let of_legacy = legacy.get(*name).copied();
            let value = match place < TAGS {
                true => of_legacy.filter(|n| *n <= 255).or(tags.get(*name).map(|n| *n as u32)),
                false => of_legacy,
            };
            if let Some(value) = value {
                numbers[place] = number(place, value)?;
            }
        }
        numbers[TAGGED_SIZE] = tagged_size as u16;
        numbers[VAR_RAW_ADVANCES] = var_raw_advances as u16;
        Ok(Sheet { numbers })
    }

    /// From all numbers, in the order of docs/SHEET.md, 65535 for absent names.
    pub fn from_numbers(numbers: [u16; 58]) -> Sheet {
        Sheet { numbers }
    }

    /// From the bytes of a sheet.bin, two for each number, the lower one first.
    ///
    /// # Errors
    ///
    /// `Length`, if they are not 116.
    pub fn from_bytes(bytes: &[u8]) -> Result<Sheet, SheetError> {
        let mut numbers = [0; 58];
        if bytes.len() != 2 * numbers.len() {
            return Err(SheetError::Length(bytes.len()));
        }
        let pairs = bytes.chunks_exact(2).map(|pair| u16::from_le_bytes([pair[0], pair[1]]));
        numbers.iter_mut().zip(pairs).for_each(|(number, read)| *number = read);
        Ok(Sheet { numbers })
    }

    /// The bytes of a sheet.bin.
    pub fn to_bytes(&self) -> Vec<u8> {
        self.numbers.iter().flat_map(|number| number.to_le_bytes()).collect()
    }

    /// All numbers, in the order of docs/SHEET.md, 65535 for absent names.
    pub fn numbers(&self) -> &[u16; 58] {
        &self.numbers
    }

    /// The number of a tag or constant, if it is present.
    ///
    /// # Panics
    ///
    /// If `NAMES` does not have the name.
    pub fn get(&self, name: &str) -> Option<u16> {
        let place = place(name).unwrap_or_else(|| panic!("no name {name} in a sheet"));
        Some(self.numbers[place]).filter(|number| *number as u32 <= most(place))
    }

    /// The number of a tag or constant or, if it is absent, its default. Six constants have one.
    ///
    /// # Panics
    ///
    /// If `NAMES` does not have the name.
    pub fn get_or_default(&self, name: &str) -> Option<u16> {
        let default = || DEFAULTS.iter().find(|(known, _)| *known == name).map(|(_, number)| *number);
        self.get(name).or_else(default)
    }

    /// Bytes of a tagged word: 4 or 8 in a usable sheet.
    pub fn tagged_size(&self) -> u16 {
        self.numbers[TAGGED_SIZE]
    }

    /// Whether raw data with its length moves the slot position.
    pub fn var_raw_advances(&self) -> bool {
        self.numbers[VAR_RAW_ADVANCES] != 0
    }

    /// Whether the payload has back-references by address, and a call reservations.
    pub fn is_legacy(&self) -> bool {
        self.get("kSpaceMask").is_some()
    }
}

fn number(place: usize, value: u32) -> Result<u16, SheetError> {
    let fitting = u16::try_from(value).ok().filter(|_| value <= most(place));
    fitting.ok_or(SheetError::Range { name: NAMES[place], value })
}

impl fmt::Display for SheetError {
    fn fmt(&self, to: &mut fmt::Formatter) -> fmt::Result {
        match self {
            SheetError::Unknown(name) => write!(to, "unknown name {name:?}"),
            SheetError::Twice(name) => write!(to, "{name} is given twice"),
            SheetError::Range { name, value } => {
                let most = place(name).map_or(0, most);
                write!(to, "{name} is {value}, not a number from 0 to {most}")
            }
            SheetError::Length(bytes) => write!(to, "{bytes} bytes, but a sheet has 116"),
        }
    }
}

impl Error for SheetError {}
