//! Files of this machine read into memory, and plain words for what goes wrong.

use std::ffi::OsStr;
use std::fs::File;
use std::io::{self, ErrorKind, Read};

use crate::failure::Failure;
use crate::names;
use crate::streams;

/// More bytes than 65,535 blocks. Nothing is read further: an image so long is refused, and no volume has room for so
/// long a file.
const TOO_MANY: u64 = 65_535 * 512 + 1;

/// All bytes, but no more than `TOO_MANY`.
pub fn contents(from: impl Read) -> io::Result<Vec<u8>> {
    let mut bytes = Vec::new();
    from.take(TOO_MANY).read_to_end(&mut bytes)?;
    Ok(bytes)
}

/// The bytes of a file that is named by an argument.
pub fn read(path: &OsStr) -> Result<Vec<u8>, Failure> {
    let bytes = File::open(path).and_then(contents);
    bytes.map_err(|error| Failure::about(&names::path(path), unread(&error)))
}

/// The bytes of a file that is named by an argument, `-` for standard input.
pub fn read_or_input(path: &OsStr) -> Result<Vec<u8>, Failure> {
    if path != "-" {
        return read(path);
    }
    let bytes = streams::input().and_then(contents);
    bytes.map_err(|error| Failure::about("standard input", unread(&error)))
}

/// That something can't be read, and why.
pub fn unread(error: &io::Error) -> String {
    format!("can't be read: {}", words(error))
}

/// That something can't be written, and why.
pub fn unwritten(error: &io::Error) -> String {
    format!("can't be written: {}", words(error))
}

/// An error in plain words.
pub fn words(error: &io::Error) -> String {
    match error.kind() {
        ErrorKind::NotFound => "there is no such file".to_string(),
        ErrorKind::PermissionDenied => "that is not allowed".to_string(),
        ErrorKind::IsADirectory => "it is a folder".to_string(),
        ErrorKind::StorageFull => "the disk is full".to_string(),
        ErrorKind::ReadOnlyFilesystem => "the disk takes no changes".to_string(),
        ErrorKind::BrokenPipe => "nobody reads it any more".to_string(),
        _ => {
            let text = error.to_string();
            let plain = text.split(" (os error").next();
            plain.unwrap_or_default().to_string()
        }
    }
}
