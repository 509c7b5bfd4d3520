//! MFS volumes, the first Macintosh file system, by the proved calls.
//!
//! A file is a run of bytes: an image, or an image wrapped as a Disk Copy 4.2 file. [`Volume`] says which, and has the
//! calls of document 01 and document 02's rename, each on the file that it is given; [`quick_find`], [`wrap()`] and
//! [`unwrap`] stand beside it. What the calls answer and what they leave in the file is proved, this library over them
//! is tested. Names are bytes in Mac OS Roman, compared without the case of a to z and of à ä ã å ç é ñ ö õ ü æ ø œ;
//! every other byte equals only itself, so that û and Û differ. Dates are seconds since 1 January 1904 by the clock of
//! whoever wrote them.
//!
//! ```
//! use mfs::{Fork, Refusal, Volume};
//!
//! fn first_bytes(file: &[u8], name: &[u8]) -> Result<Vec<u8>, Refusal> {
//!     let mut buffer = [0; 16];
//!     let count = Volume::of(file).read(file, name, Fork::Data, 0, &mut buffer)?;
//!     Ok(buffer.into_iter().take(count).collect())
//! }
//!
//! assert_eq!(first_bytes(&[0; 100], b"WEEK1").map_err(Refusal::number), Err(1));
//! ```

#[allow(unsafe_code)]
mod ffi;
mod quick;
mod refusal;
mod wrapped;

use std::ops::RangeInclusive;

pub use quick::{quick_find, QuickFound, QuickRefusal};
pub use refusal::Refusal;
pub use wrapped::{unwrap, wrap, Header};

/// Which fork of a file.
#[derive(Clone, Copy, Debug, PartialEq, Eq, Hash)]
pub enum Fork {
    /// The data fork.
    Data,
    /// The resource fork.
    Resource,
}

/// The volume information.
#[derive(Clone, Debug, PartialEq, Eq)]
pub struct Facts {
    /// D2D7 hex.
    pub signature: u16,
    /// The date of creation.
    pub created: u32,
    /// The date of the last backup.
    pub backup: u32,
    /// The attributes' bits.
    pub attributes: u16,
    /// The number of files.
    pub files: u16,
    /// The directory's first logical block.
    pub directory_start: u32,
    /// The directory's length in logical blocks.
    pub directory_length: u16,
    /// The number of allocation blocks.
    pub allocation_blocks: u16,
    /// Bytes in an allocation block.
    pub block_size: u32,
    /// Bytes in a clump: see [`Volume::write`].
    pub clump_size: u32,
    /// The logical block where the allocation blocks start.
    pub allocation_start: u32,
    /// The number that the next new file gets.
    pub next_number: u32,
    /// The number of free allocation blocks.
    pub free_blocks: u16,
    /// The volume's name.
    pub name: Vec<u8>,
}

impl Facts {
    /// Whether the volume is locked: bit 7 or bit 15 of the attributes.
    pub fn is_locked(&self) -> bool {
        self.attributes & 0x8080 != 0
    }

    /// The numbers of the allocation blocks.
    pub fn blocks(&self) -> RangeInclusive<u16> {
        2..=self.allocation_blocks.saturating_add(1)
    }
}

/// A fork's facts in its file's entry.
#[derive(Clone, Copy, Debug, PartialEq, Eq)]
pub struct ForkFacts {
    /// The first allocation block; 0 for a fork without blocks.
    pub start: u16,
    /// The length in bytes.
    pub logical: u32,
    /// The length of its blocks in bytes.
    pub physical: u32,
}

/// A file's entry in the directory.
#[derive(Clone, Debug, PartialEq, Eq)]
pub struct Entry {
    /// The flags' bits.
    pub flags: u8,
    /// The version, 0.
    pub version: u8,
    /// The Finder's bytes; the first four are the type, the next four the creator.
    pub finder: [u8; 16],
    /// The file number.
    pub number: u32,
    /// The data fork.
    pub data: ForkFacts,
    /// The resource fork.
    pub resource: ForkFacts,
    /// The date of creation.
    pub created: u32,
    /// The date of the last change.
    pub changed: u32,
    /// The file's name.
    pub name: Vec<u8>,
}

impl Entry {
    /// Whether the file is locked: bit 0 of the flags.
    pub fn is_locked(&self) -> bool {
        self.flags & 1 != 0
    }

    /// The facts of one fork.
    pub fn fork(&self, fork: Fork) -> ForkFacts {
        match fork {
            Fork::Data => self.data,
            Fork::Resource => self.resource,
        }
    }
}

/// How a volume stands in a file. Its methods are the calls, and what is made of them alone. Each call checks the whole
/// file first.
#[derive(Clone, Copy, Debug, PartialEq, Eq, Hash)]
pub enum Volume {
    /// The file is the image.
    Bare,
    /// The file is a Disk Copy 4.2 file, and the image is inside.
    Wrapped,
}

impl Volume {
    /// Checks the volume and gives its facts.
    pub fn check(self, file: &[u8]) -> Result<Facts, Refusal> {
        let answer = ffi::check(self, file);
        Refusal::of(answer.number)?;
        Ok(answer.facts.into())
    }

    /// The entry at a place in directory order.
    pub fn entry(self, file: &[u8], place: u64) -> Result<Entry, Refusal> {
        let answer = ffi::entry(self, file, place);
        Refusal::of(answer.number)?;
        Ok(answer.entry.into())
    }

    /// Every entry in directory order.
    pub fn entries(self, file: &[u8]) -> Result<Vec<Entry>, Refusal> {
        let facts = self.check(file)?;
        (0..u64::from(facts.files))
            .map(|place| self.entry(file, place))
            .collect()
    }

    /// The place and the entry of a name.
    pub fn find(self, file: &[u8], name: &[u8]) -> Result<(u64, Entry), Refusal> {
        let answer = ffi::find(self, file, name);
        Refusal::of(answer.number)?;
        Ok((answer.place, answer.entry.into()))
    }

    /// The allocation block at a place in a fork.
    pub fn block(self, file: &[u8], name: &[u8], fork: Fork, place: u64) -> Result<u16, Refusal> {
        let answer = ffi::block(self, file, name, fork, place);
        Refusal::of(answer.number)?;
        Ok(answer.block)
    }

    /// Copies a fork's bytes from an offset on into the buffer, as many as there are and as it holds, and gives their
    /// count. The buffer's rest stays.
    pub fn read(self, file: &[u8], name: &[u8], fork: Fork, offset: u64, buffer: &mut [u8]) -> Result<usize, Refusal> {
        let answer = ffi::read(self, file, name, fork, offset, buffer);
        Refusal::of(answer.number)?;
        Ok(answer.count)
    }

    /// All bytes of a fork.
    pub fn read_all(self, file: &[u8], name: &[u8], fork: Fork) -> Result<Vec<u8>, Refusal> {
        let (_, entry) = self.find(file, name)?;
        let mut bytes = vec![0; entry.fork(fork).logical as usize];
        let count = self.read(file, name, fork, 0, &mut bytes)?;
        bytes.truncate(count);
        Ok(bytes)
    }

    /// Makes an empty file on the volume. Its name has at most 31 bytes: 21 refuses a longer one.
    pub fn create(
        self,
        file: &mut [u8],
        name: &[u8],
        finder: &[u8; 16],
        created: u32,
        changed: u32,
    ) -> Result<(), Refusal> {
        Refusal::of(ffi::create(self, file, name, finder, created, changed))
    }

    /// Stores bytes in a fork from an offset on; the fork grows where they reach beyond its end. If it needs new blocks,
    /// it takes as many as bring all its blocks to whole clumps; where fewer are free, just those that it needs. A clump
    /// has [`Facts::clump_size`] bytes if that is a multiple of the block size and not below it; else it is one block.
    pub fn write(
        self,
        file: &mut [u8],
        name: &[u8],
        fork: Fork,
        offset: u64,
        bytes: &[u8],
        changed: u32,
    ) -> Result<(), Refusal> {
        Refusal::of(ffi::write(self, file, name, fork, offset, bytes, changed))
    }

    /// Cuts a fork to its first bytes, and frees every block that these do not need, spare ones of a clump too.
    pub fn cut(self, file: &mut [u8], name: &[u8], fork: Fork, size: u64, changed: u32) -> Result<(), Refusal> {
        Refusal::of(ffi::cut(self, file, name, fork, size, changed))
    }

    /// Deletes a file of the volume.
    pub fn delete(self, file: &mut [u8], name: &[u8]) -> Result<(), Refusal> {
        Refusal::of(ffi::delete(self, file, name))
    }

    /// Gives a file of the volume a new name and this change date. The name has at most 31 bytes and is no other file's;
    /// the file's own in another case will do. The file may get another place. The call takes only images, whatever
    /// `self` says: it refuses a wrapped file by 1, for its length; [`unwrap`] it first.
    pub fn rename(self, file: &mut [u8], name: &[u8], new: &[u8], changed: u32) -> Result<(), Refusal> {
        Refusal::of(ffi::rename(file, name, new, changed))
    }
}

/// The first bytes of a name's field.
fn name(field: &[u8], length: u8) -> Vec<u8> {
    field.iter().copied().take(usize::from(length)).collect()
}

impl From<ffi::Facts> for Facts {
    fn from(facts: ffi::Facts) -> Facts {
        Facts {
            signature: facts.signature,
            created: facts.created,
            backup: facts.backup,
            attributes: facts.attributes,
            files: facts.files,
            directory_start: facts.directory_start,
            directory_length: facts.directory_length,
            allocation_blocks: facts.allocation_blocks,
            block_size: facts.block_size,
            clump_size: facts.clump_size,
            allocation_start: facts.allocation_start,
            next_number: facts.next_number,
            free_blocks: facts.free_blocks,
            name: name(&facts.name, facts.name_length),
        }
    }
}

impl From<ffi::ForkFacts> for ForkFacts {
    fn from(fork: ffi::ForkFacts) -> ForkFacts {
        ForkFacts {
            start: fork.start,
            logical: fork.logical,
            physical: fork.physical,
        }
    }
}

impl From<ffi::Entry> for Entry {
    fn from(entry: ffi::Entry) -> Entry {
        Entry {
            flags: entry.flags,
            version: entry.version,
            finder: entry.finder,
            number: entry.number,
            data: entry.data.into(),
            resource: entry.resource.into(),
            created: entry.created,
            changed: entry.changed,
            name: name(&entry.name, entry.name_length),
        }
    }
}
