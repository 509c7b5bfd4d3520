//! The calls of documents 01 and 02 on an MFS volume, in safe Rust.
//!
//! The image is one slice. Every call but `quick_find` checks it whole (checks 1 to 10), then runs the checks of its
//! own in the order of the documents, and only then changes a byte. `Form` leads from a wrapped file to the image
//! inside.

mod checks;
mod directory;
mod layout;
mod map;
mod names;
mod quick;
mod types;
mod volume;
mod wrapped;

#[cfg(test)]
mod tests;

use directory::take_out;
use layout::*;
use map::put_map_entry;
use volume::{check_name, Volume};

pub use quick::{quick_find, Quick};
pub use types::{Entry, Facts, Fork, ForkFacts, Form, Name, Refusal};
pub use wrapped::wrap;

/// Checks 1 to 10, and the volume's facts.
pub fn check(image: &[u8]) -> Result<Facts, Refusal> {
    Ok(Volume::open(image)?.facts)
}

/// The entry at a place in directory order.
pub fn entry(image: &[u8], place: u64) -> Result<Entry<&[u8]>, Refusal> {
    let volume = Volume::open(image)?;
    let place = usize::try_from(place).map_err(|_| Refusal::NoSuchFile)?;
    let at = *volume.entries.get(place).ok_or(Refusal::NoSuchFile)?;
    Ok(read_entry(image, at))
}

/// The place and the entry of a name.
pub fn find<'a>(image: &'a [u8], name: &[u8]) -> Result<(u64, Entry<&'a [u8]>), Refusal> {
    let volume = Volume::open(image)?;
    let place = volume.place_of(image, name)?;
    Ok((place as u64, read_entry(image, volume.entries[place])))
}

/// The number of the allocation block at a place in a fork.
pub fn block(image: &[u8], name: &[u8], fork: Fork, place: u64) -> Result<u16, Refusal> {
    let volume = Volume::open(image)?;
    let at = volume.entry_of(image, name)?;
    let facts = ForkFacts::read(image, at + fork.at());
    let mut chain = volume.chain(facts);
    let place = usize::try_from(place).map_err(|_| Refusal::BeyondFork)?;
    chain.nth(place).ok_or(Refusal::BeyondFork)
}

/// Copies fork bytes from an offset on to the buffer, and gives their count.
pub fn read(image: &[u8], name: &[u8], fork: Fork, offset: u64, buffer: &mut [u8]) -> Result<usize, Refusal> {
    let volume = Volume::open(image)?;
    let at = volume.entry_of(image, name)?;
    let facts = ForkFacts::read(image, at + fork.at());
    if offset > u64::from(facts.logical) {
        return Err(Refusal::BeyondFork);
    }
    let offset = offset as usize;
    let count = buffer.len().min(facts.logical as usize - offset);
    let mut rest = &mut buffer[..count];
    for (from, length) in volume.parts(volume.chain(facts), offset, count) {
        let (part, behind) = rest.split_at_mut(length);
        part.copy_from_slice(&image[from..from + length]);
        rest = behind;
    }
    Ok(count)
}

/// Adds an empty file.
pub fn create(image: &mut [u8], name: &[u8], finder: &[u8; 16], created: u32, changed: u32) -> Result<(), Refusal> {
    let volume = Volume::open(image)?;
    volume.unlocked()?;
    if (LONGEST_NEW_NAME + 1..=LONGEST_NAME).contains(&name.len()) {
        return Err(Refusal::NameTooLong);
    }
    match volume.place_of(image, name) {
        Ok(_) => return Err(Refusal::NameExists),
        Err(Refusal::NoSuchFile) => {}
        Err(refusal) => return Err(refusal),
    }
    let number = volume.facts.next_number;
    if number == u32::MAX {
        return Err(Refusal::NumbersUsedUp);
    }
    let size = entry_size(name.len());
    let (at, block_end) = volume.room_for(image, size, None).ok_or(Refusal::DirectoryFull)?;

    image[at..block_end].fill(0);
    let entry = &mut image[at..at + size];
    entry[entry_at::FLAGS] = IN_USE;
    entry[entry_at::FINDER..entry_at::NUMBER].copy_from_slice(finder);
    put_u32(entry, entry_at::NUMBER, number);
    put_u32(entry, entry_at::CREATED, created);
    put_u32(entry, entry_at::CHANGED, changed);
    put_name(entry, name);
    put_u32(image, volume_at::NEXT_NUMBER, number + 1);
    put_u16(image, volume_at::FILES, volume.facts.files + 1);
    Ok(())
}

/// Stores bytes in a fork from an offset on; the fork grows where they reach behind its end.
pub fn write(
    image: &mut [u8],
    name: &[u8],
    fork: Fork,
    offset: u64,
    bytes: &[u8],
    changed: u32,
) -> Result<(), Refusal> {
    let volume = Volume::open(image)?;
    let at = volume.changeable_entry(image, name)?;
    let facts = ForkFacts::read(image, at + fork.at());
    if offset > u64::from(facts.logical) {
        return Err(Refusal::BeyondFork);
    }
    let (offset, had) = (offset as usize, volume.block_count(facts));
    let logical = (facts.logical as usize).max(offset + bytes.len());
    let needed = volume.blocks_needed(had, logical);
    if needed > volume.free_count() {
        return Err(Refusal::VolumeFull);
    }
    let taken = volume.blocks_taken(had, needed);

    let mut chain = Vec::with_capacity(had + taken);
    chain.extend(volume.chain(facts));
    chain.extend(volume.free_blocks().take(taken));
    store(image, volume.parts(chain.iter().copied(), offset, bytes.len()), bytes);
    if taken > 0 {
        join(image, &chain, had);
        put_u16(image, volume_at::FREE_BLOCKS, (volume.free_count() - taken) as u16);
    }
    let grown = ForkFacts {
        start: chain.first().copied().unwrap_or(0),
        logical: logical as u32,
        physical: (chain.len() * volume.block_size()) as u32,
    };
    grown.put(image, at + fork.at());
    put_u32(image, at + entry_at::CHANGED, changed);
    Ok(())
}

/// Stores bytes in parts: where each goes, and its length.
fn store(image: &mut [u8], parts: impl Iterator<Item = (usize, usize)>, bytes: &[u8]) {
    let mut rest = bytes;
    for (to, length) in parts {
        let (part, behind) = rest.split_at(length);
        image[to..to + length].copy_from_slice(part);
        rest = behind;
    }
}

/// Joins the blocks of a chain that are new, those behind the first `had`, to its end.
fn join(image: &mut [u8], chain: &[u16], had: usize) {
    for pair in chain[had.saturating_sub(1)..].windows(2) {
        put_map_entry(image, pair[0], pair[1]);
    }
    put_map_entry(image, chain[chain.len() - 1], LAST_OF_FORK);
}

/// Makes a fork shorter.
pub fn cut(image: &mut [u8], name: &[u8], fork: Fork, size: u64, changed: u32) -> Result<(), Refusal> {
    let volume = Volume::open(image)?;
    let at = volume.changeable_entry(image, name)?;
    let facts = ForkFacts::read(image, at + fork.at());
    if size > u64::from(facts.logical) {
        return Err(Refusal::BeyondFork);
    }
    let size = size as usize;

    let kept = size.div_ceil(volume.block_size());
    let mut freed = 0;
    for (place, block) in volume.chain(facts).enumerate() {
        if place >= kept {
            put_map_entry(image, block, FREE);
            freed += 1;
        } else if place + 1 == kept {
            put_map_entry(image, block, LAST_OF_FORK);
        }
    }
    put_u16(image, volume_at::FREE_BLOCKS, volume.facts.free_blocks + freed);
    let shorter = ForkFacts {
        start: if kept == 0 { 0 } else { facts.start },
        logical: size as u32,
        physical: (kept * volume.block_size()) as u32,
    };
    shorter.put(image, at + fork.at());
    put_u32(image, at + entry_at::CHANGED, changed);
    Ok(())
}

/// Takes a file out.
pub fn delete(image: &mut [u8], name: &[u8]) -> Result<(), Refusal> {
    let volume = Volume::open(image)?;
    let at = volume.changeable_entry(image, name)?;

    let mut freed = 0;
    for fork in [Fork::Data, Fork::Resource] {
        for block in volume.chain(ForkFacts::read(image, at + fork.at())) {
            put_map_entry(image, block, FREE);
            freed += 1;
        }
    }
    take_out(image, at);
    put_u16(image, volume_at::FILES, volume.facts.files - 1);
    put_u16(image, volume_at::FREE_BLOCKS, volume.facts.free_blocks + freed);
    Ok(())
}

/// Gives a file another name. An entry whose size changes is taken out and put in again.
pub fn rename(image: &mut [u8], name: &[u8], new: &[u8], changed: u32) -> Result<(), Refusal> {
    let volume = Volume::open(image)?;
    volume.unlocked()?;
    check_name(name)?;
    check_name(new)?;
    if new.len() > LONGEST_NEW_NAME {
        return Err(Refusal::NameTooLong);
    }
    let at = volume.changeable_entry(image, name)?;
    if volume.entry_of(image, new).is_ok_and(|other| other != at) {
        return Err(Refusal::NameExists);
    }
    let size = entry_size(new.len());
    let mut to = at;
    if size != size_at(image, at) {
        let (room, block_end) = volume.room_for(image, size, Some(at)).ok_or(Refusal::DirectoryFull)?;

        let mut fields = [0; entry_at::NAME_LENGTH];
        fields.copy_from_slice(&image[at..at + entry_at::NAME_LENGTH]);
        take_out(image, at);
        image[room..block_end].fill(0);
        image[room..room + fields.len()].copy_from_slice(&fields);
        to = room;
    }
    let entry = &mut image[to..to + size];
    put_u32(entry, entry_at::CHANGED, changed);
    put_name(entry, new);
    Ok(())
}

/// Stores the name of an entry, and its pad byte if it has one.
fn put_name(entry: &mut [u8], name: &[u8]) {
    entry[entry_at::NAME_LENGTH] = name.len() as u8;
    let (field, pad) = entry[entry_at::NAME..].split_at_mut(name.len());
    field.copy_from_slice(name);
    pad.fill(0);
}
