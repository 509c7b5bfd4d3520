//! The directory's blocks and their entries.

use super::layout::{entry_at, entry_size, size_at, IN_USE, LOGICAL_BLOCK};
use super::{Facts, Refusal};

/// The first byte of each directory block.
pub fn directory_blocks(facts: &Facts) -> impl Iterator<Item = usize> {
    let start = usize::from(facts.directory_start) * LOGICAL_BLOCK;
    (0..usize::from(facts.directory_length)).map(move |block| start + block * LOGICAL_BLOCK)
}

/// Check 6, and where each entry begins.
pub fn read_directory(image: &[u8], facts: &Facts) -> Result<Vec<usize>, Refusal> {
    let mut entries = Vec::with_capacity(usize::from(facts.files));
    for start in directory_blocks(facts) {
        let mut at = start;
        let mut rest = &image[start..start + LOGICAL_BLOCK];
        while let Some((entry, behind)) = split_entry(rest)? {
            entries.push(at);
            at += entry.len();
            rest = behind;
        }
    }
    Ok(entries)
}

/// An entry, and what is behind it in its block.
type EntryAndRest<'a> = (&'a [u8], &'a [u8]);

/// The entry with which the rest of a directory block begins, after check 6; `None` where the reading ends.
pub fn split_entry(rest: &[u8]) -> Result<Option<EntryAndRest<'_>>, Refusal> {
    if rest.first().is_none_or(|flags| flags & IN_USE == 0) {
        return Ok(None);
    }
    if rest.len() < entry_size(1) || rest[entry_at::VERSION] != 0 {
        return Err(Refusal::DirectoryEntry);
    }
    let name_length = usize::from(rest[entry_at::NAME_LENGTH]);
    match rest.split_at_checked(entry_size(name_length)) {
        Some(parts) if name_length != 0 => Ok(Some(parts)),
        _ => Err(Refusal::DirectoryEntry),
    }
}

/// Where the reading of an accepted directory block ends that has come to this place.
pub fn end_of_entries(image: &[u8], from: usize, block_end: usize) -> usize {
    let mut at = from;
    while at < block_end && image[at] & IN_USE != 0 {
        at += size_at(image, at);
    }
    at
}

/// Takes an entry out: the later ones of its block move up, and zeros follow them.
pub fn take_out(image: &mut [u8], at: usize) {
    let next = at + size_at(image, at);
    let block_end = at - at % LOGICAL_BLOCK + LOGICAL_BLOCK;
    let used_end = end_of_entries(image, next, block_end);
    image.copy_within(next..used_end, at);
    image[at + (used_end - next)..block_end].fill(0);
}
