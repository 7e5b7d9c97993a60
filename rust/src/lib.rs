//! The object graph of a V8 code-cache payload, read by the proved library that include/dawichko.h
//! declares.
//!
//! A [`Call`] lends a version [`Sheet`], a payload and, for legacy files, the reservations;
//! [`read`] gives the [`Graph`] or a [`Refusal`]. What is read and listed is docs/FORMAT.md, what
//! is proved of it docs/GUARANTEES.md.
//!
//! ```no_run
//! let sheet = dawichko::Sheet::from_bytes(&std::fs::read("sheet.bin")?)?;
//! let payload = std::fs::read("payload.bin")?;
//! let graph = dawichko::read(&dawichko::Call::new(&sheet, &payload))?;
//! println!("{} bytes", graph.objects().map(|object| object.bytes).sum::<u64>());
//! # Ok::<(), Box<dyn std::error::Error>>(())
//! ```

#![deny(unsafe_code)]
#![warn(missing_docs)]

#[cfg(not(target_pointer_width = "64"))]
compile_error!("the library is made for x86-64, and its numbers of 64 bits are taken for usize");

#[allow(unsafe_code)]
mod ffi;
mod filled;
mod graph;
mod inspect;
mod read;
mod refusal;
mod sheet;

pub use filled::{decode_smi_bytes, Covering, Kept, Number, Wish};
pub use graph::{Address, Graph, Object, Records, Slot, Value};
pub use inspect::Obeyed;
pub use read::{read, read_up_to, read_within, Call, Rooms, MOST_BYTES, MOST_RESERVATIONS};
pub use refusal::Refusal;
pub use sheet::{place, Sheet, SheetError, ABSENT, NAMES};
