//! How much stack a call takes: it is made in a thread whose stack was filled with a pattern, and
//! what still holds it was not used.

use crate::library::{graph, Call, Tables};
use crate::sheets::Family;
use std::ffi::c_void;
use std::ptr::null_mut;

/// pthread_attr_t, of at least the size that it has in common C libraries.
#[repr(C, align(16))]
struct Attributes([u8; 128]);

extern "C" {
    fn pthread_attr_init(attributes: *mut Attributes) -> i32;
    fn pthread_attr_setstack(attributes: *mut Attributes, lowest: *mut c_void, bytes: usize) -> i32;
    fn pthread_attr_destroy(attributes: *mut Attributes) -> i32;
    fn pthread_create(
        thread: *mut usize,
        attributes: *const Attributes,
        start: extern "C" fn(*mut c_void) -> *mut c_void,
        argument: *mut c_void,
    ) -> i32;
    fn pthread_join(thread: usize, answer: *mut *mut c_void) -> i32;
}

const BYTES: usize = 8 << 20;
const PAGE: usize = 4096;
const PATTERN: u64 = 0x5aa5_5aa5_5aa5_5aa5;

/// What the thread does: nothing, or a call.
struct Work {
    call: Option<(Call, Tables)>,
    number: u64,
}

extern "C" fn run(work: *mut c_void) -> *mut c_void {
    // The thread that started this one waits for it and keeps the work until then.
    let work = unsafe { &mut *work.cast::<Work>() };
    if let Some((call, tables)) = &mut work.call {
        work.number = graph(call, tables).0;
    }
    null_mut()
}

/// The bytes of its stack that a thread has used after this work, and the number that the call
/// gave.
fn used(call: Option<Call>) -> (usize, u64) {
    let call = call.map(|call| {
        let tables = Tables::enough(call.payload.len(), true);
        (call, tables)
    });
    let mut work = Work { call, number: 0 };
    let mut stack = vec![PATTERN; (BYTES + PAGE) / 8];
    let first = stack.as_ptr().align_offset(PAGE);
    let mut attributes = Attributes([0; 128]);
    let mut thread = 0;
    // The stack and the work live until the thread has ended.
    unsafe {
        let lowest = stack.as_mut_ptr().add(first).cast();
        let set = pthread_attr_init(&mut attributes) | pthread_attr_setstack(&mut attributes, lowest, BYTES);
        let began = pthread_create(&mut thread, &attributes, run, (&raw mut work).cast());
        assert!(set == 0 && began == 0, "no thread");
        assert!(pthread_join(thread, null_mut()) == 0, "the thread can't be waited for");
        pthread_attr_destroy(&mut attributes);
    }
    let words = &stack[first..first + BYTES / 8];
    let left = words.iter().take_while(|word| **word == PATTERN).count();
    (BYTES - 8 * left, work.number)
}

/// Where the outermost of the objects stands.
#[derive(Clone, Copy)]
enum Place {
    First,
    Closing,
    Entry,
}

/// Objects inside each other, each the last slot of the one around it or its map, with a
/// back-reference in the innermost place.
fn nested(family: Family, place: Place, objects: usize, as_map: bool) -> Call {
    let root = 0x45;
    let mut payload: Vec<u8> = match place {
        Place::First => Vec::new(),
        Place::Closing => vec![0, 1 << 2, root],
        // A deferred entry: a back-reference to the first object, and a size.
        Place::Entry => vec![0, 1 << 2, root, 0, 0, 0, 2 << 2],
    };
    for _ in 0..objects {
        payload.extend([0, 2 << 2]);
        if !as_map {
            payload.push(root);
        }
    }
    payload.extend(match family {
        Family::Modern => [0x08, 0].as_slice(),
        Family::Legacy => &[0x08, 0, 0],
        Family::Six => &[0x30, 0, 0],
    });
    if as_map {
        payload.extend(vec![root; objects]);
    }
    payload.push(family.synchronize());
    Call { sheet: family.numbers(), payload, reserve: family.reservations() }
}

/// Kinds of deep payloads: family and place, how many objects lie inside each other, the stack that
/// the call takes with each in the slot and in the map of the one around it, and the number that it
/// gives.
pub fn measured() -> Vec<(&'static str, usize, [usize; 2], u64)> {
    let (nothing, _) = used(None);
    let kinds = [
        ("plain", Family::Modern, Place::First),
        ("plain, closing section", Family::Modern, Place::Closing),
        ("legacy", Family::Legacy, Place::First),
        ("legacy, deferred entry", Family::Legacy, Place::Entry),
        ("6.x", Family::Six, Place::First),
    ];
    let mut found = Vec::new();
    for (name, family, place) in kinds {
        for objects in [1, 32, 64, 65] {
            let ways = [false, true].map(|as_map| used(Some(nested(family, place, objects, as_map))));
            let bytes = ways.map(|(bytes, _)| bytes.saturating_sub(nothing));
            found.push((name, objects, bytes, ways[0].1));
        }
    }
    found
}
