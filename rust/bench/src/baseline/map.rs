//! The map of the allocation blocks.

use super::layout::{FIRST_BLOCK, FREE, MAP, MOST_BLOCKS};
use super::Refusal;

/// Block numbers, from 0 to the highest.
pub const BLOCK_NUMBERS: usize = MOST_BLOCKS + FIRST_BLOCK as usize;

/// The map's entries, each at the number of its block.
pub type BlockMap = [u16; BLOCK_NUMBERS];

/// Check 5, and the map.
pub fn decode_map(image: &[u8], count: usize) -> Result<BlockMap, Refusal> {
    let mut map: BlockMap = [FREE; BLOCK_NUMBERS];
    let entries = &mut map[usize::from(FIRST_BLOCK)..][..count];
    let bytes = &image[MAP..MAP + count.div_ceil(2) * 3];
    for (pair, three) in entries.chunks_mut(2).zip(bytes.chunks_exact(3)) {
        let middle = u16::from(three[1]);
        pair[0] = u16::from(three[0]) << 4 | middle >> 4;
        if let Some(second) = pair.get_mut(1) {
            *second = (middle & 0x0F) << 8 | u16::from(three[2]);
        }
    }
    let last_block = count as u16 + 1;
    if entries.iter().any(|&entry| entry > last_block) {
        return Err(Refusal::MapEntry);
    }
    Ok(map)
}

/// Stores a block's map entry; the entry that shares a byte with it stays.
pub fn put_map_entry(image: &mut [u8], block: u16, value: u16) {
    let index = usize::from(block - FIRST_BLOCK);
    let at = MAP + index / 2 * 3;
    if index.is_multiple_of(2) {
        image[at] = (value >> 4) as u8;
        image[at + 1] = image[at + 1] & 0x0F | (value << 4) as u8;
    } else {
        image[at + 1] = image[at + 1] & 0xF0 | (value >> 8) as u8;
        image[at + 2] = value as u8;
    }
}
