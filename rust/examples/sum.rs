//! Prints how many objects a payload lists and the sum of their byte sizes, from which the memory
//! of a title is planned.
//!
//!     cargo run --offline --example sum -- ../examples/v11.3-features
//!
//! The folder has sheet.bin and payload.bin and may have reserve.bin and trusted.bin, as for
//! `graphlist` (docs/GRAPHLIST.md).

use dawichko::{read, Call, Sheet};
use std::io::ErrorKind;
use std::path::Path;
use std::process::ExitCode;
use std::{env, fs};

struct Sum {
    objects: usize,
    bytes: u64,
    long_integers: usize,
    /// Where reading ended, and the payload's length.
    end: usize,
    length: usize,
}

fn sum(folder: &Path) -> Result<Sum, String> {
    let file = |name: &str| fs::read(folder.join(name)).map_err(|e| format!("{name}: {e}"));
    let optional = |name: &str| match fs::read(folder.join(name)) {
        Err(e) if e.kind() == ErrorKind::NotFound => Ok(Vec::new()),
        read => read.map_err(|e| format!("{name}: {e}")),
    };
    let sheet = Sheet::from_bytes(&file("sheet.bin")?).map_err(|e| format!("sheet.bin: {e}"))?;
    let payload = file("payload.bin")?;
    let reserve = optional("reserve.bin")?;
    if reserve.len() % 4 != 0 {
        return Err("reserve.bin: not whole numbers of four bytes".into());
    }
    let reservations: Vec<u32> =
        reserve.chunks(4).map(|c| u32::from_le_bytes([c[0], c[1], c[2], c[3]])).collect();
    let trusted = optional("trusted.bin")?;
    let call = Call { sheet: &sheet, payload: &payload, reservations: &reservations, trusted: &trusted };
    let graph = read(&call).map_err(|refusal| refusal.to_string())?;
    let bytes = graph.objects().map(|object| object.bytes).sum();
    Ok(Sum {
        objects: graph.objects().len(),
        bytes,
        long_integers: graph.long_integers(),
        end: graph.end(),
        length: payload.len(),
    })
}

fn main() -> ExitCode {
    let Some(folder) = env::args_os().nth(1) else {
        eprintln!("usage: sum FOLDER");
        return ExitCode::from(2);
    };
    match sum(folder.as_ref()) {
        Ok(sum) => {
            println!("{} objects, {} bytes", sum.objects, sum.bytes);
            if sum.long_integers > 0 {
                eprintln!("{} integers have more bytes than their values need", sum.long_integers);
            }
            // Only legacy payloads can end early; objects may then be missing.
            if sum.end < sum.length {
                eprintln!(
                    "reading ended at byte {} of {}: see docs/DIFFERENCES.md, D23, before using the sum",
                    sum.end, sum.length
                );
            }
            ExitCode::SUCCESS
        }
        Err(text) => {
            eprintln!("{text}");
            ExitCode::from(1)
        }
    }
}

#[cfg(test)]
mod tests {
    use super::*;

    /// The counts are those of the Rust (tools/oracle).
    #[test]
    fn of_the_example() {
        let folder = Path::new(env!("CARGO_MANIFEST_DIR")).join("../examples/v11.3-features");
        let sum = sum(&folder).expect("the payload is accepted");
        assert_eq!((sum.objects, sum.bytes), (180, 12_720));
        assert_eq!(sum.end, sum.length);
        assert_eq!(sum.long_integers, 0);
    }

    #[test]
    fn of_a_folder_without_files() {
        let folder = Path::new(env!("CARGO_MANIFEST_DIR")).join("src");
        assert!(sum(&folder).is_err_and(|text| text.starts_with("sheet.bin: ")));
    }
}
