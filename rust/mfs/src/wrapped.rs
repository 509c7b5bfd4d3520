//! Wrapped files: Disk Copy 4.2 files of 400K disks. They are told by their header, made and taken apart.

use crate::{ffi, name, Refusal, Volume};

const HEADER: usize = 84;
const DATA: usize = 409_600;
const TAGS: usize = 9_600;

impl Volume {
    /// How the volume stands in a file, by the file's length and by the data size, the encoding and the last two bytes
    /// of its header. No image of a volume has such a length.
    pub fn of(file: &[u8]) -> Volume {
        let long = [HEADER + DATA, HEADER + DATA + TAGS].contains(&file.len());
        let has = |at: usize, bytes: &[u8]| file.get(at..).is_some_and(|rest| rest.starts_with(bytes));
        if long && has(64, &[0x00, 0x06, 0x40, 0x00]) && has(80, &[0x00]) && has(82, &[0x01, 0x00]) {
            Volume::Wrapped
        } else {
            Volume::Bare
        }
    }
}

/// What a wrapped file's header says that the volume inside does not.
#[derive(Clone, Debug, PartialEq, Eq)]
pub struct Header {
    /// The file's name.
    pub name: Vec<u8>,
    /// The format byte.
    pub format: u8,
    /// Whether the disk's tags are in the file.
    pub has_tags: bool,
}

impl Header {
    /// The header of a wrapped file, which is checked whole first.
    pub fn of(file: &[u8]) -> Result<Header, Refusal> {
        Volume::Wrapped.check(file)?;
        let byte = |at: usize| file.get(at).copied().unwrap_or_default();
        Ok(Header {
            name: name(file.get(1..).unwrap_or_default(), byte(0)),
            format: byte(81),
            has_tags: file.len() > HEADER + DATA,
        })
    }
}

/// A wrapped file of an image, with this name, of at most 63 bytes, and this format byte, without tags.
pub fn wrap(image: &[u8], name: &[u8], format: u8) -> Result<Vec<u8>, Refusal> {
    let mut file = vec![0; HEADER + DATA];
    Refusal::of(ffi::wrap(image, name, format, &mut file))?;
    Ok(file)
}

/// The image in a wrapped file, which is checked whole first.
pub fn unwrap(file: &[u8]) -> Result<&[u8], Refusal> {
    Volume::Wrapped.check(file)?;
    Ok(file.get(HEADER..HEADER + DATA).unwrap_or_default())
}
