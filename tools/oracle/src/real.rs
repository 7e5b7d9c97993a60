//! Real payloads, by the sheets that they were written under.
//!
//! A folder of them has sheets/SHEET.txt, and in payloads/ a folder SHEET or an archive
//! SHEET.tar.xz with NAME.payload and, for legacy sheets, NAME.reserve. The repository is such a
//! folder.

use crate::sheet::Sheet;
use crate::{reservations, Input};
use std::path::{Path, PathBuf};
use std::process::Command;
use std::{env, fs};

/// A payload and what a call of it takes; the trusted list is empty.
pub struct Payload {
    /// The sheet's name.
    pub sheet: String,
    /// The file's name, without its ending.
    pub name: String,
    /// Sheet, payload and reservations.
    pub input: Input,
}

/// The repository's root.
pub fn repository() -> PathBuf {
    Path::new(env!("CARGO_MANIFEST_DIR")).join("../..")
}

/// The folder that DAWICHKO_PAYLOADS names, relative paths counted from the repository's root; else
/// the repository.
pub fn folder() -> PathBuf {
    let given = env::var_os("DAWICHKO_PAYLOADS").unwrap_or_default();
    repository().join(given)
}

/// All payloads of a folder, in the order of sheets and names. Archives need `tar` and `xz`.
pub fn payloads(folder: &Path) -> Result<Vec<Payload>, String> {
    let mut found = Vec::new();
    for file in listed(&folder.join("payloads"), "")? {
        if file.is_dir() {
            found.extend(read(folder, &plain_name(&file, ""), &file)?);
        } else if file.to_string_lossy().ends_with(ARCHIVE) {
            found.extend(unpacked(folder, &plain_name(&file, ARCHIVE), &file)?);
        }
    }
    if found.is_empty() {
        return Err(format!("no payloads in {}/payloads", folder.display()));
    }
    Ok(found)
}

const ARCHIVE: &str = ".tar.xz";

/// The payloads of an archive, which is unpacked for a while.
fn unpacked(folder: &Path, sheet: &str, archive: &Path) -> Result<Vec<Payload>, String> {
    let to = env::temp_dir().join(format!("dawichko-{}-{sheet}", std::process::id()));
    fs::create_dir_all(&to).map_err(|e| format!("{}: {e}", to.display()))?;
    let done = Command::new("tar").arg("-xJf").arg(archive).arg("-C").arg(&to).status();
    let done = match done {
        Ok(status) if status.success() => read(folder, sheet, &to),
        _ => Err(format!("{} can't be unpacked", archive.display())),
    };
    fs::remove_dir_all(&to).map_err(|e| format!("{}: {e}", to.display()))?;
    done
}

fn read(folder: &Path, sheet: &str, payloads: &Path) -> Result<Vec<Payload>, String> {
    let bytes = |file: &Path| fs::read(file).map_err(|e| format!("{}: {e}", file.display()));
    let text = bytes(&folder.join("sheets").join(format!("{sheet}.txt")))?;
    let numbers = Sheet::from_text(&String::from_utf8_lossy(&text))?;
    let mut found = Vec::new();
    for file in listed(payloads, ".payload")? {
        let reserve = match file.with_extension("reserve") {
            reserve if reserve.exists() => bytes(&reserve)?,
            _ => Vec::new(),
        };
        let input = Input {
            sheet: Sheet::from_numbers(numbers.numbers()).expect("a sheet that was read has them all"),
            trusted: Vec::new(),
            payload: bytes(&file)?,
            reserve: reservations(&reserve)?,
        };
        found.push(Payload { sheet: sheet.into(), name: plain_name(&file, ".payload"), input });
    }
    Ok(found)
}

fn listed(folder: &Path, ending: &str) -> Result<Vec<PathBuf>, String> {
    let entries = fs::read_dir(folder).map_err(|e| format!("{}: {e}", folder.display()))?;
    let files = entries.filter_map(|entry| entry.ok().map(|e| e.path()));
    let mut files: Vec<PathBuf> = files.filter(|f| f.to_string_lossy().ends_with(ending)).collect();
    files.sort();
    Ok(files)
}

fn plain_name(file: &Path, ending: &str) -> String {
    let name = file.file_name().unwrap_or_default().to_string_lossy();
    name.strip_suffix(ending).unwrap_or(&name).to_string()
}
