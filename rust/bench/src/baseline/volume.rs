//! An accepted volume.

use super::checks::{check_blocks, check_files};
use super::directory::{directory_blocks, end_of_entries, read_directory};
use super::layout::*;
use super::map::{decode_map, BlockMap};
use super::names::equal;
use super::{Facts, ForkFacts, Refusal};

/// An accepted volume: its facts, its map, and where each entry begins, in directory order.
pub struct Volume {
    pub facts: Facts,
    map: BlockMap,
    pub entries: Vec<usize>,
}

impl Volume {
    /// Checks 1 to 10.
    pub fn open(image: &[u8]) -> Result<Volume, Refusal> {
        let blocks = image_blocks(image)?;
        let facts = Facts::read(image);
        check_facts(&facts, blocks)?;
        let map = decode_map(image, usize::from(facts.allocation_blocks))?;
        let entries = read_directory(image, &facts)?;
        check_files(image, &facts, &entries)?;
        check_blocks(image, &facts, &map, &entries)?;
        Ok(Volume { facts, map, entries })
    }

    pub fn block_size(&self) -> usize {
        self.facts.block_size as usize
    }

    pub fn unlocked(&self) -> Result<(), Refusal> {
        if self.facts.attributes & VOLUME_LOCKED != 0 {
            return Err(Refusal::VolumeLocked);
        }
        Ok(())
    }

    /// The place of a name in directory order.
    pub fn place_of(&self, image: &[u8], name: &[u8]) -> Result<usize, Refusal> {
        check_name(name)?;
        self.entries
            .iter()
            .position(|&at| equal(name_at(image, at), name))
            .ok_or(Refusal::NoSuchFile)
    }

    /// Where the entry of a name begins.
    pub fn entry_of(&self, image: &[u8], name: &[u8]) -> Result<usize, Refusal> {
        Ok(self.entries[self.place_of(image, name)?])
    }

    /// Where the entry of a name begins that may be changed: checks 11, 12, 13 and 15.
    pub fn changeable_entry(&self, image: &[u8], name: &[u8]) -> Result<usize, Refusal> {
        self.unlocked()?;
        let at = self.entry_of(image, name)?;
        if image[at + entry_at::FLAGS] & FILE_LOCKED != 0 {
            return Err(Refusal::FileLocked);
        }
        Ok(at)
    }

    pub fn block_count(&self, fork: ForkFacts) -> usize {
        fork.physical as usize / self.block_size()
    }

    pub fn free_count(&self) -> usize {
        usize::from(self.facts.free_blocks)
    }

    /// The new blocks that a fork of `had` blocks needs to hold so many bytes.
    pub fn blocks_needed(&self, had: usize, bytes: usize) -> usize {
        bytes.div_ceil(self.block_size()).saturating_sub(had)
    }

    /// The new blocks that it takes: those needed or, if there are any and so many are free, those that bring all its
    /// blocks to whole clumps.
    pub fn blocks_taken(&self, had: usize, needed: usize) -> usize {
        let rounded = (had + needed).next_multiple_of(self.clump()) - had;
        if needed > 0 && rounded <= self.free_count() {
            rounded
        } else {
            needed
        }
    }

    /// How many blocks a clump has: one where the clump size does not count.
    fn clump(&self) -> usize {
        let (clump_size, block_size) = (self.facts.clump_size as usize, self.block_size());
        if clump_size >= block_size && clump_size.is_multiple_of(block_size) {
            clump_size / block_size
        } else {
            1
        }
    }

    /// The blocks of a fork in their order.
    pub fn chain(&self, fork: ForkFacts) -> impl Iterator<Item = u16> + '_ {
        let mut block = fork.start;
        (0..self.block_count(fork)).map(move |_| {
            let here = block;
            block = self.map[usize::from(here)];
            here
        })
    }

    /// The free blocks, lowest number first.
    pub fn free_blocks(&self) -> impl Iterator<Item = u16> + '_ {
        (FIRST_BLOCK..FIRST_BLOCK + self.facts.allocation_blocks).filter(|&block| self.map[usize::from(block)] == FREE)
    }

    /// Where the bytes of a fork from an offset on stand in the image: place and length of each part, one for a block.
    pub fn parts(
        &self,
        chain: impl Iterator<Item = u16>,
        offset: usize,
        count: usize,
    ) -> impl Iterator<Item = (usize, usize)> {
        let size = self.block_size();
        let area = usize::from(self.facts.allocation_start) * LOGICAL_BLOCK;
        let mut skip = offset % size;
        let mut left = count;
        chain.skip(offset / size).map_while(move |block| {
            if left == 0 {
                return None;
            }
            let length = left.min(size - skip);
            let at = area + usize::from(block - FIRST_BLOCK) * size + skip;
            skip = 0;
            left -= length;
            Some((at, length))
        })
    }

    /// Where the first directory block with room for an entry of this size has it, and where that block ends. The entry
    /// that begins at `out`, if one does, is to be taken out before.
    pub fn room_for(&self, image: &[u8], size: usize, out: Option<usize>) -> Option<(usize, usize)> {
        directory_blocks(&self.facts)
            .map(|start| {
                let block_end = start + LOGICAL_BLOCK;
                let end = end_of_entries(image, start, block_end);
                match out {
                    Some(at) if (start..block_end).contains(&at) => (end - size_at(image, at), block_end),
                    _ => (end, block_end),
                }
            })
            .find(|(at, block_end)| block_end - at >= size)
    }
}

/// Check 1; the image's logical blocks.
pub fn image_blocks(image: &[u8]) -> Result<usize, Refusal> {
    let blocks = image.len() / LOGICAL_BLOCK;
    if !image.len().is_multiple_of(LOGICAL_BLOCK) || !(8..=65_535).contains(&blocks) {
        return Err(Refusal::Length);
    }
    Ok(blocks)
}

/// Checks 2 to 4, for an image of so many logical blocks.
pub fn check_facts(facts: &Facts, image_blocks: usize) -> Result<(), Refusal> {
    if facts.signature != SIGNATURE {
        return Err(Refusal::Signature);
    }
    if !facts.within_limits(image_blocks) {
        return Err(Refusal::Limits);
    }
    if usize::from(facts.name_length) > LONGEST_VOLUME_NAME {
        return Err(Refusal::VolumeName);
    }
    Ok(())
}

/// Check 12.
pub fn check_name(name: &[u8]) -> Result<(), Refusal> {
    if name.is_empty() || name.len() > LONGEST_NAME {
        return Err(Refusal::NameLength);
    }
    Ok(())
}
