//! What a run of the tool shows and reports.

use std::io::{self, Write};

use crate::failure::Failure;
use crate::files;
use crate::streams;

/// Standard output and standard error, and the exit status so far.
pub struct Console {
    status: u8,
}

impl Console {
    /// For a run in which nothing has failed yet.
    pub fn new() -> Console {
        Console { status: 0 }
    }

    /// The exit status: the largest of all failures', 0 without one.
    pub fn status(&self) -> u8 {
        self.status
    }

    /// Tells of a failure on standard error.
    pub fn report(&mut self, failure: &Failure) {
        self.status = self.status.max(failure.status());
        // where standard error can't be written either, the exit status has to do
        let _ = io::stderr().write_all(failure.text().as_bytes());
    }

    /// Puts a result on standard output.
    pub fn show(&mut self, bytes: impl AsRef<[u8]>) -> Result<(), Failure> {
        streams::write(bytes.as_ref()).map_err(|error| Failure::about("standard output", files::unwritten(&error)))
    }
}
