//! Where the fields of a volume and of an entry stand, and how they are read and stored.

use super::types::{Entry, Facts, ForkFacts, Name};

pub const LOGICAL_BLOCK: usize = 512;
pub const SIGNATURE: u16 = 0xD2D7;
pub const MAP: usize = 1088;
pub const MOST_BLOCKS: usize = 640;
pub const LONGEST_VOLUME_NAME: usize = 27;
pub const LONGEST_NAME: usize = 255;
pub const LONGEST_NEW_NAME: usize = 31;

/// The first allocation block.
pub const FIRST_BLOCK: u16 = 2;

pub const FREE: u16 = 0;
pub const LAST_OF_FORK: u16 = 1;

/// Where the volume information's fields stand in the image.
pub mod volume_at {
    pub const SIGNATURE: usize = 1024;
    pub const CREATED: usize = 1026;
    pub const BACKUP: usize = 1030;
    pub const ATTRIBUTES: usize = 1034;
    pub const FILES: usize = 1036;
    pub const DIRECTORY_START: usize = 1038;
    pub const DIRECTORY_LENGTH: usize = 1040;
    pub const ALLOCATION_BLOCKS: usize = 1042;
    pub const BLOCK_SIZE: usize = 1044;
    pub const CLUMP_SIZE: usize = 1048;
    pub const ALLOCATION_START: usize = 1052;
    pub const NEXT_NUMBER: usize = 1054;
    pub const FREE_BLOCKS: usize = 1058;
    pub const NAME: usize = 1060;
}

/// Where an entry's fields stand, counted from its first byte.
pub mod entry_at {
    pub const FLAGS: usize = 0;
    pub const VERSION: usize = 1;
    pub const FINDER: usize = 2;
    pub const NUMBER: usize = 18;
    pub const DATA: usize = 22;
    pub const RESOURCE: usize = 32;
    pub const CREATED: usize = 42;
    pub const CHANGED: usize = 46;
    pub const NAME_LENGTH: usize = 50;
    pub const NAME: usize = 51;
}

pub const IN_USE: u8 = 0x80;
pub const FILE_LOCKED: u8 = 0x01;
pub const VOLUME_LOCKED: u16 = 0x8080;

impl Facts {
    pub fn read(image: &[u8]) -> Facts {
        let mut name = [0; LONGEST_VOLUME_NAME];
        name.copy_from_slice(&image[volume_at::NAME + 1..][..LONGEST_VOLUME_NAME]);
        Facts {
            signature: get_u16(image, volume_at::SIGNATURE),
            created: get_u32(image, volume_at::CREATED),
            backup: get_u32(image, volume_at::BACKUP),
            attributes: get_u16(image, volume_at::ATTRIBUTES),
            files: get_u16(image, volume_at::FILES),
            directory_start: get_u16(image, volume_at::DIRECTORY_START),
            directory_length: get_u16(image, volume_at::DIRECTORY_LENGTH),
            allocation_blocks: get_u16(image, volume_at::ALLOCATION_BLOCKS),
            block_size: get_u32(image, volume_at::BLOCK_SIZE),
            clump_size: get_u32(image, volume_at::CLUMP_SIZE),
            allocation_start: get_u16(image, volume_at::ALLOCATION_START),
            next_number: get_u32(image, volume_at::NEXT_NUMBER),
            free_blocks: get_u16(image, volume_at::FREE_BLOCKS),
            name_length: image[volume_at::NAME],
            name,
        }
    }

    /// Check 3, for an image of so many logical blocks.
    pub fn within_limits(&self, image_blocks: usize) -> bool {
        let size = self.block_size as usize;
        let count = usize::from(self.allocation_blocks);
        let directory_start = usize::from(self.directory_start);
        let directory_length = usize::from(self.directory_length);
        let allocation_start = usize::from(self.allocation_start);
        size.is_multiple_of(LOGICAL_BLOCK)
            && (512..=32_768).contains(&size)
            && (1..=MOST_BLOCKS).contains(&count)
            && (1..=256).contains(&directory_length)
            && directory_start >= 4
            && directory_start + directory_length <= allocation_start
            && allocation_start + count * (size / LOGICAL_BLOCK) <= image_blocks - 2
            && self.next_number != 0
    }
}

impl ForkFacts {
    pub fn read(image: &[u8], at: usize) -> ForkFacts {
        ForkFacts {
            start: get_u16(image, at),
            logical: get_u32(image, at + 2),
            physical: get_u32(image, at + 6),
        }
    }

    pub fn put(&self, image: &mut [u8], at: usize) {
        put_u16(image, at, self.start);
        put_u32(image, at + 2, self.logical);
        put_u32(image, at + 6, self.physical);
    }
}

/// The bytes that an entry takes: its fields, its name, and a pad byte where that is odd.
pub fn entry_size(name_length: usize) -> usize {
    (entry_at::NAME + name_length).next_multiple_of(2)
}

/// The bytes that the entry at a place takes.
pub fn size_at(image: &[u8], at: usize) -> usize {
    entry_size(usize::from(image[at + entry_at::NAME_LENGTH]))
}

pub fn name_at(image: &[u8], at: usize) -> &[u8] {
    let length = usize::from(image[at + entry_at::NAME_LENGTH]);
    &image[at + entry_at::NAME..at + entry_at::NAME + length]
}

pub fn read_entry(image: &[u8], at: usize) -> Entry<&[u8]> {
    read_fields(image, at, name_at(image, at))
}

/// The entry with a copy of its name. Inlined, it would make quick find's loop dearer.
#[inline(never)]
pub fn copy_entry(image: &[u8], at: usize) -> Entry<Name> {
    read_fields(image, at, name_at(image, at).into())
}

fn read_fields<N>(image: &[u8], at: usize, name: N) -> Entry<N> {
    let mut finder = [0; 16];
    finder.copy_from_slice(&image[at + entry_at::FINDER..at + entry_at::NUMBER]);
    Entry {
        flags: image[at + entry_at::FLAGS],
        version: image[at + entry_at::VERSION],
        finder,
        number: get_u32(image, at + entry_at::NUMBER),
        data: ForkFacts::read(image, at + entry_at::DATA),
        resource: ForkFacts::read(image, at + entry_at::RESOURCE),
        created: get_u32(image, at + entry_at::CREATED),
        changed: get_u32(image, at + entry_at::CHANGED),
        name,
    }
}

pub fn get_u16(bytes: &[u8], at: usize) -> u16 {
    let mut two = [0; 2];
    two.copy_from_slice(&bytes[at..at + 2]);
    u16::from_be_bytes(two)
}

pub fn get_u32(bytes: &[u8], at: usize) -> u32 {
    let mut four = [0; 4];
    four.copy_from_slice(&bytes[at..at + 4]);
    u32::from_be_bytes(four)
}

pub fn put_u16(bytes: &mut [u8], at: usize, value: u16) {
    bytes[at..at + 2].copy_from_slice(&value.to_be_bytes());
}

pub fn put_u32(bytes: &mut [u8], at: usize, value: u32) {
    bytes[at..at + 4].copy_from_slice(&value.to_be_bytes());
}
