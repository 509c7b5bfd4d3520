//! What the calls are given and give back.

use super::layout::{entry_at, LONGEST_NAME, LONGEST_VOLUME_NAME};

/// Why a call is refused.
#[derive(Clone, Copy, Debug, PartialEq, Eq)]
#[repr(u8)]
pub enum Refusal {
    Length = 1,
    Signature = 2,
    Limits = 3,
    VolumeName = 4,
    MapEntry = 5,
    DirectoryEntry = 6,
    Files = 7,
    Fork = 8,
    UnownedBlock = 9,
    FreeCount = 10,
    VolumeLocked = 11,
    NameLength = 12,
    NoSuchFile = 13,
    NameExists = 14,
    FileLocked = 15,
    BeyondFork = 16,
    VolumeFull = 17,
    DirectoryFull = 18,
    NumbersUsedUp = 19,
    NameTooLong = 21,
    Container = 22,
    DataChecksum = 23,
    TagChecksum = 24,
}

impl Refusal {
    /// The number in document 01's table, or in document 02.
    pub fn number(self) -> u8 {
        self as u8
    }
}

/// A call's choice of fork.
#[derive(Clone, Copy, Debug, PartialEq, Eq)]
pub enum Fork {
    Data,
    Resource,
}

impl Fork {
    /// The fork of a call's number: 0 is the data fork, every other number the resource fork.
    pub fn of(number: u8) -> Fork {
        match number {
            0 => Fork::Data,
            _ => Fork::Resource,
        }
    }

    /// Where the fork's fields stand in an entry.
    pub fn at(self) -> usize {
        match self {
            Fork::Data => entry_at::DATA,
            Fork::Resource => entry_at::RESOURCE,
        }
    }
}

/// How an image is given to a call.
#[derive(Clone, Copy, Debug, PartialEq, Eq)]
pub enum Form {
    /// By itself.
    Bare,
    /// In a wrapped file.
    Wrapped,
}

/// The volume information.
#[derive(Clone, Copy, Debug, PartialEq, Eq)]
pub struct Facts {
    pub signature: u16,
    pub created: u32,
    pub backup: u32,
    pub attributes: u16,
    pub files: u16,
    pub directory_start: u16,
    pub directory_length: u16,
    pub allocation_blocks: u16,
    pub block_size: u32,
    pub clump_size: u32,
    pub allocation_start: u16,
    pub next_number: u32,
    pub free_blocks: u16,
    pub name_length: u8,
    /// All bytes behind the length byte, as they are stored.
    pub name: [u8; LONGEST_VOLUME_NAME],
}

/// A fork's fields in an entry.
#[derive(Clone, Copy, Debug, PartialEq, Eq)]
pub struct ForkFacts {
    pub start: u16,
    pub logical: u32,
    pub physical: u32,
}

/// A directory entry; the name is lent from the image, or a copy.
#[derive(Clone, Copy, Debug, PartialEq, Eq)]
pub struct Entry<N> {
    pub flags: u8,
    pub version: u8,
    pub finder: [u8; 16],
    pub number: u32,
    pub data: ForkFacts,
    pub resource: ForkFacts,
    pub created: u32,
    pub changed: u32,
    pub name: N,
}

/// A file's name that stands by itself.
#[derive(Clone, Debug, PartialEq, Eq)]
pub struct Name {
    pub length: u8,
    /// Zero behind the name.
    pub bytes: [u8; LONGEST_NAME],
}

impl From<&[u8]> for Name {
    fn from(name: &[u8]) -> Name {
        let mut bytes = [0; LONGEST_NAME];
        bytes[..name.len()].copy_from_slice(name);
        Name {
            length: name.len() as u8,
            bytes,
        }
    }
}
