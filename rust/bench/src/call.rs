//! A call with its arguments.

use crate::baseline::{self, Fork, Refusal};
use std::fmt;
use std::ops::Deref;

/// Bytes given to a call.
#[derive(Clone)]
pub struct Bytes(pub Vec<u8>);

impl Deref for Bytes {
    type Target = [u8];

    fn deref(&self) -> &[u8] {
        &self.0
    }
}

impl fmt::Debug for Bytes {
    fn fmt(&self, f: &mut fmt::Formatter) -> fmt::Result {
        if self.len() > 300 {
            write!(f, "{} bytes", self.len())
        } else {
            write!(f, "b\"{}\"", self.escape_ascii())
        }
    }
}

/// A call and what it is given beside the image or the wrapped file. A fork is its number for the archive.
#[derive(Clone, Debug)]
pub enum Call {
    Check,
    /// Place.
    Entry(u64),
    /// Name.
    Find(Bytes),
    /// Name, fork, place.
    Block(Bytes, u8, u64),
    /// Name, fork, offset, the buffer's length.
    Read(Bytes, u8, u64, usize),
    /// Name, Finder bytes, dates of creation and change.
    Create(Bytes, [u8; 16], u32, u32),
    /// Name, fork, offset, bytes, date of change.
    Write(Bytes, u8, u64, Bytes, u32),
    /// Name, fork, size, date of change.
    Cut(Bytes, u8, u64, u32),
    /// Name.
    Delete(Bytes),
    /// Name, new name, date of change. It takes only bare images.
    Rename(Bytes, Bytes, u32),
    /// Name. It takes only bare images.
    QuickFind(Bytes),
    /// Name, format byte, the buffer's length. It takes only bare images.
    Wrap(Bytes, u8, usize),
}

/// The calls' names, each at its kind. The nine that take wrapped files too come first.
pub const KINDS: [&str; 12] = [
    "check",
    "entry",
    "find",
    "block",
    "read",
    "create",
    "write",
    "cut",
    "delete",
    "rename",
    "quick find",
    "wrap",
];

/// The kind of rename.
pub const RENAME: usize = 9;

/// The kind of quick find.
pub const QUICK_FIND: usize = 10;

/// The kind of wrap.
pub const WRAP: usize = 11;

impl Call {
    /// Which call it is.
    pub fn kind(&self) -> usize {
        match self {
            Call::Check => 0,
            Call::Entry(..) => 1,
            Call::Find(..) => 2,
            Call::Block(..) => 3,
            Call::Read(..) => 4,
            Call::Create(..) => 5,
            Call::Write(..) => 6,
            Call::Cut(..) => 7,
            Call::Delete(..) => 8,
            Call::Rename(..) => RENAME,
            Call::QuickFind(..) => QUICK_FIND,
            Call::Wrap(..) => WRAP,
        }
    }

    /// Whether it may change the image.
    pub fn changes(&self) -> bool {
        (5..=RENAME).contains(&self.kind())
    }

    /// Makes it by the baseline if it is one of those that change an image; the others do nothing here.
    pub fn change(&self, image: &mut [u8]) -> Result<(), Refusal> {
        match self {
            Call::Create(name, finder, created, changed) => baseline::create(image, name, finder, *created, *changed),
            Call::Write(name, fork, offset, bytes, changed) => {
                baseline::write(image, name, Fork::of(*fork), *offset, bytes, *changed)
            }
            Call::Cut(name, fork, size, changed) => baseline::cut(image, name, Fork::of(*fork), *size, *changed),
            Call::Delete(name) => baseline::delete(image, name),
            Call::Rename(name, new, changed) => baseline::rename(image, name, new, *changed),
            _ => Ok(()),
        }
    }

    /// How long a buffer it is lent.
    pub fn buffer_length(&self) -> usize {
        match self {
            Call::Read(_, _, _, length) | Call::Wrap(_, _, length) => *length,
            _ => 0,
        }
    }
}
