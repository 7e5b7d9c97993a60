//! Sheets and payloads of docs/FORMAT.md, and files of the repository.

// each file of tests uses a part of this
#![allow(dead_code)]

use dawichko::Sheet;
use std::path::PathBuf;

/// Sheet A (docs/FORMAT.md, "Examples").
pub const A: &str = "kNewObject 00 kBackref 08 kReadOnlyHeapRef 09 kRootArray 0A kAttachedReference 0B kNop 0C kSynchronize 0D
    kRegisterPendingForwardRef 0E kResolvePendingForwardRef 0F kWeakPrefix 10 kClearedWeakReference 11 kVariableRawData 12
    kVariableRepeat 13 kRootArrayConstants 40 kFixedRawData 60 kFixedRepeat 80 kHotObject 90 tagged_size 8 var_raw_advances 1";

/// A legacy sheet in the manner of V8 7.8. Its payloads come with six reservations of the top bit
/// alone.
pub const L8: &str = "kNewObject 00 kBackref 08 kRootArray 11 kAttachedReference 12 kNop 13 kSynchronize 14 kNextChunk 15
    kDeferred 16 kAlignmentPrefix 17 kVariableRepeat 1A kVariableRawData 1B kClearedWeakReference 1C kWeakPrefix 1D
    kRootArrayConstants 40 kFixedRawData 60 kFixedRepeat 80 kHotObject 90 kSpaceMask 7 tagged_size 8 var_raw_advances 1";
pub const SIX_SPACES: [u32; 6] = [1 << 31; 6];

/// A file or folder of the repository.
pub fn repository(file: &str) -> PathBuf {
    PathBuf::from(env!("CARGO_MANIFEST_DIR")).join("..").join(file)
}

/// The names and numbers of a text of sheets/: lines of a name and a number, `#` before a comment.
pub fn pairs(text: &str) -> Vec<(&str, u32)> {
    let lines = text.lines().filter(|line| !line.starts_with('#'));
    lines
        .map(|line| line.split_once(' ').expect("a name and a number"))
        .map(|(name, number)| (name, number.parse().expect("a number")))
        .collect()
}

/// A sheet from names with hexadecimal numbers.
pub fn sheet(text: &str) -> Sheet {
    let words: Vec<&str> = text.split_whitespace().collect();
    let number = |word| u32::from_str_radix(word, 16).expect("hexadecimal");
    Sheet::from_pairs(words.chunks(2).map(|pair| (pair[0], number(pair[1])))).expect("names of a sheet")
}

/// Bytes from their hexadecimal digits.
pub fn bytes(text: &str) -> Vec<u8> {
    text.split_whitespace().map(|word| u8::from_str_radix(word, 16).expect("hexadecimal")).collect()
}
