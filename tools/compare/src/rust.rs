//! The Rust's walk in this process, with its debug output.

use oracle::serializer::Object;
use oracle::trace::{event, Event, SWITCHES};
use oracle::Input;
use std::fs::File;
use std::io::{BufRead, BufReader, Seek, SeekFrom};
use std::os::fd::{AsRawFd, FromRawFd};
use std::panic::{catch_unwind, AssertUnwindSafe};

extern "C" {
    fn memfd_create(name: *const std::ffi::c_char, flags: u32) -> i32;
    fn dup(fd: i32) -> i32;
    fn dup2(from: i32, to: i32) -> i32;
}

const STANDARD_ERROR: i32 = 2;

/// Gathers what goes to standard error.
pub struct Capture {
    file: File,
    own: i32,
}

pub struct Walked {
    pub objects: Result<Vec<Object>, String>,
    pub events: Vec<Event>,
}

impl Capture {
    pub fn new() -> Capture {
        // A file in memory, and a second descriptor for what standard error was.
        let (fd, own) = unsafe { (memfd_create(c"debug".as_ptr(), 0), dup(STANDARD_ERROR)) };
        assert!(fd >= 0 && own >= 0, "standard error can't be gathered");
        Capture { file: unsafe { File::from_raw_fd(fd) }, own }
    }

    fn gathered<T>(&mut self, work: impl FnOnce() -> T) -> T {
        self.file.set_len(0).expect("a file in memory");
        self.file.seek(SeekFrom::Start(0)).expect("a file in memory");
        unsafe { dup2(self.file.as_raw_fd(), STANDARD_ERROR) };
        let done = work();
        unsafe { dup2(self.own, STANDARD_ERROR) };
        done
    }

    /// Walks with the debug output switched on. A panic counts as an error text of its own.
    pub fn walk(&mut self, input: &Input) -> Walked {
        SWITCHES.iter().for_each(|(name, value)| std::env::set_var(name, value));
        let objects = self.gathered(|| {
            let walk = AssertUnwindSafe(|| input.walk(&input.payload));
            catch_unwind(walk).unwrap_or(Err("panic".into()))
        });
        SWITCHES.iter().for_each(|(name, _)| std::env::remove_var(name));
        self.file.seek(SeekFrom::Start(0)).expect("a file in memory");
        let lines = BufReader::new(&self.file).split(b'\n').map_while(Result::ok);
        let events = lines.filter_map(|line| event(&String::from_utf8_lossy(&line))).collect();
        Walked { objects, events }
    }

    /// The Rust's answer in the form of `graphlist`; for this it may walk further payloads.
    pub fn answer(&mut self, input: &Input, walked: &Walked) -> String {
        self.gathered(|| input.answer(&walked.events, &walked.objects))
    }
}
