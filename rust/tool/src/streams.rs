//! Standard input and output, with every error told.
//!
//! Rust's own handles take a stream that can't be used for an empty one, and its start-up code opens /dev/null in the
//! place of a closed one. So the streams are used as files here, and whether they are open is looked at before that
//! code runs.

use std::fs::File;
use std::io::{self, Read, Write};
use std::os::fd::AsFd;
use std::sync::atomic::{AtomicBool, Ordering};

static INPUT_CLOSED: AtomicBool = AtomicBool::new(false);
static OUTPUT_CLOSED: AtomicBool = AtomicBool::new(false);

/// The C library calls the functions of this section before `main`. The attribute counts as unsafe for what it could
/// name; it names an ordinary function here.
#[cfg(target_os = "linux")]
#[allow(unsafe_code)]
#[used]
#[link_section = ".init_array"]
static BEFORE_MAIN: extern "C" fn() = look;

#[cfg(target_os = "linux")]
extern "C" fn look() {
    INPUT_CLOSED.store(opened(io::stdin()).is_err(), Ordering::Relaxed);
    OUTPUT_CLOSED.store(opened(io::stdout()).is_err(), Ordering::Relaxed);
}

fn opened(stream: impl AsFd) -> io::Result<File> {
    Ok(File::from(stream.as_fd().try_clone_to_owned()?))
}

fn unless(closed: &AtomicBool) -> io::Result<()> {
    if closed.load(Ordering::Relaxed) {
        return Err(io::Error::other("it is closed"));
    }
    Ok(())
}

/// Standard input.
pub fn input() -> io::Result<impl Read> {
    unless(&INPUT_CLOSED)?;
    opened(io::stdin())
}

/// Writes to standard output.
pub fn write(bytes: &[u8]) -> io::Result<()> {
    if bytes.is_empty() {
        return Ok(());
    }
    unless(&OUTPUT_CLOSED)?;
    opened(io::stdout())?.write_all(bytes)
}
