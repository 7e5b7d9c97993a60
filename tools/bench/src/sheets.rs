//! The version sheets of the generated payloads.

use oracle::sheet::NAMES;

const ABSENT: u16 = 65535;

/// Sheet A (docs/FORMAT.md, "Examples").
const A: &str = "kNewObject 00 kBackref 08 kReadOnlyHeapRef 09 kRootArray 0A kAttachedReference 0B kNop 0C
    kSynchronize 0D kRegisterPendingForwardRef 0E kResolvePendingForwardRef 0F kWeakPrefix 10
    kClearedWeakReference 11 kVariableRawData 12 kVariableRepeat 13 kRootArrayConstants 40 kFixedRawData 60
    kFixedRepeat 80 kHotObject 90 tagged_size 8 var_raw_advances 1";

/// In the manner of V8 7.8. Its kSynchronize is 14.
const LEGACY: &str = "kNewObject 00 kBackref 08 kRootArray 11 kAttachedReference 12 kNop 13 kSynchronize 14
    kNextChunk 15 kDeferred 16 kAlignmentPrefix 17 kVariableRepeat 1A kVariableRawData 1B
    kClearedWeakReference 1C kWeakPrefix 1D kRootArrayConstants 40 kFixedRawData 60 kFixedRepeat 80
    kHotObject 90 kSpaceMask 7 tagged_size 8 var_raw_advances 1";

/// What makes the legacy sheet one of 6.x.
const SIX: &str = "kBackrefWithSkip 30 kHotObjectWithSkip 38 kRootArrayConstantsWithSkip A0 kSkip 20";

/// What kind of sheet a row's payload is written under.
#[derive(Clone, Copy, PartialEq)]
pub enum Family {
    Modern,
    Legacy,
    Six,
}

impl Family {
    pub fn numbers(self) -> Vec<u16> {
        let texts: &[&str] = match self {
            Family::Modern => &[A],
            Family::Legacy => &[LEGACY],
            Family::Six => &[LEGACY, SIX],
        };
        let mut numbers = vec![ABSENT; NAMES.len()];
        for text in texts {
            let words: Vec<&str> = text.split_whitespace().collect();
            for pair in words.chunks(2) {
                let place = NAMES.iter().position(|name| *name == pair[0]).expect("a name of the sheet");
                numbers[place] = u16::from_str_radix(pair[1], 16).expect("hexadecimal");
            }
        }
        numbers
    }

    pub fn legacy(self) -> bool {
        self != Family::Modern
    }

    pub fn synchronize(self) -> u8 {
        if self.legacy() {
            0x14
        } else {
            0x0d
        }
    }

    /// In legacy six spaces that have counters.
    pub fn reservations(self) -> Vec<u32> {
        if self.legacy() {
            vec![1 << 31; 6]
        } else {
            Vec::new()
        }
    }
}
