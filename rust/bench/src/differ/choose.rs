//! A call of a kind for an image, its arguments about the edges.

use super::parts::Write;
use crate::baseline::{self, Entry, Facts, ForkFacts};
use crate::call::{Bytes, Call, QUICK_FIND, RENAME};
use crate::images::{get2, DATA, HEADER, TAGS};
use crate::random::Random;
use crate::spelling::{near_miss, respell};
use crate::volumes;

/// The most bytes that are read or written.
const MOST: usize = 1 << 22;

/// A name, a fork of it, and what the image tells of both; zero where it is refused or has no such file.
struct Target {
    name: Bytes,
    fork: u8,
    logical: usize,
    physical: usize,
    block_size: usize,
    free_blocks: usize,
}

/// A call of this kind.
pub fn call(random: &mut Random, image: &[u8], kind: usize) -> Call {
    let target = target(random, image);
    let logical = target.logical as u64;
    match kind {
        0 => Call::Check,
        1 => Call::Entry(about(random, files(image))),
        2 => Call::Find(target.name),
        3 => {
            let blocks = target.physical / target.block_size;
            Call::Block(target.name, target.fork, about(random, blocks as u64))
        }
        4 => {
            let length = read_length(random, target.logical);
            Call::Read(target.name, target.fork, about(random, logical), length)
        }
        5 => create(random, target.name),
        6 => write(random, target),
        7 => {
            let size = target.block_size as u64;
            let near = if random.once_in(3) {
                logical / size * size
            } else {
                logical
            };
            Call::Cut(target.name, target.fork, about(random, near), random.next() as u32)
        }
        8 => Call::Delete(target.name),
        RENAME => rename(random, image, target.name),
        QUICK_FIND => Call::QuickFind(target.name),
        _ => wrap(random, image.len() == DATA),
    }
}

fn target(random: &mut Random, image: &[u8]) -> Target {
    // 0 is the data fork, and every number but 0 the resource fork.
    let fork = match random.below(12) {
        0..=7 => 0,
        8..=10 => 1,
        _ => random.between(2, 255) as u8,
    };
    let mut name = name(random, image);
    let mut facts = fork_facts(image, &name, fork);
    if facts.physical == 0 {
        name = self::name(random, image);
        facts = fork_facts(image, &name, fork);
    }
    let (block_size, free_blocks) = match baseline::check(image) {
        Ok(Facts {
            block_size,
            free_blocks,
            ..
        }) => (block_size as usize, usize::from(free_blocks)),
        Err(_) => (512, 1),
    };
    Target {
        name: Bytes(name),
        fork,
        logical: facts.logical as usize,
        physical: facts.physical as usize,
        block_size,
        free_blocks,
    }
}

/// The name of a file, in any spelling; or one like it; or any bytes.
fn name(random: &mut Random, image: &[u8]) -> Vec<u8> {
    let entries = if image.len() < 4096 {
        Vec::new()
    } else {
        volumes::entries(image)
    };
    if entries.is_empty() || random.once_in(8) {
        let length = match random.below(8) {
            0 => 0,
            1 => 255,
            2 => 256,
            3 => 300,
            _ => random.index(20),
        };
        return bytes(random, length);
    }
    let mut name = volumes::name_at(image, entries[random.index(entries.len())]).to_vec();
    respell(random, &mut name);
    match random.below(16) {
        0 => name.push(random.byte()),
        1 => {
            name.pop();
        }
        2 if !name.is_empty() => {
            let at = random.index(name.len());
            name[at] ^= 1 << random.below(8);
        }
        3 if !name.is_empty() => {
            let at = random.index(name.len());
            name[at] = near_miss(random, name[at]);
        }
        _ => {}
    }
    name
}

fn bytes(random: &mut Random, length: usize) -> Vec<u8> {
    let mut bytes = vec![0; length];
    random.fill(&mut bytes);
    bytes
}

/// The fork's fields; zero where the image is refused or has no such file.
pub fn fork_facts(image: &[u8], name: &[u8], fork: u8) -> ForkFacts {
    match baseline::find(image, name) {
        Ok((_, Entry { data, .. })) if fork == 0 => data,
        Ok((_, Entry { resource, .. })) => resource,
        Err(_) => ForkFacts {
            start: 0,
            logical: 0,
            physical: 0,
        },
    }
}

fn files(image: &[u8]) -> u64 {
    if image.len() < 4096 {
        0
    } else {
        u64::from(get2(image, 1036))
    }
}

/// A place or an offset: about `near`, or an edge of the whole range.
fn about(random: &mut Random, near: u64) -> u64 {
    match random.below(12) {
        0 => near.saturating_add(1),
        1 | 2 => near,
        3 => near.saturating_sub(1),
        4 => 0,
        5 => [u64::MAX, 1 << 63, (1 << 32) + near, 1 << 32, (1 << 16) + near][random.index(5)],
        _ => random.below(near + 1),
    }
}

fn read_length(random: &mut Random, logical: usize) -> usize {
    let length = match random.below(6) {
        0 => 0,
        1 => random.index(8),
        2 => logical + random.index(3),
        _ => random.index(logical + 600),
    };
    length.min(MOST)
}

/// A name that may exist, or a new one.
fn create(random: &mut Random, name: Bytes) -> Call {
    let name = if random.once_in(2) {
        name
    } else {
        let length = new_length(random);
        Bytes(bytes(random, length))
    };
    let mut finder = [0; 16];
    random.fill(&mut finder);
    Call::Create(name, finder, random.next() as u32, random.next() as u32)
}

/// The file's own name in any spelling, a name that may be another's, one about as long, or a new one.
fn rename(random: &mut Random, image: &[u8], name: Bytes) -> Call {
    let new = match random.below(8) {
        0 => {
            let mut own = name.to_vec();
            respell(random, &mut own);
            own
        }
        1 => self::name(random, image),
        2..=4 => {
            let length = (name.len() + random.index(5)).saturating_sub(2);
            bytes(random, length)
        }
        _ => {
            let length = new_length(random);
            bytes(random, length)
        }
    };
    Call::Rename(name, Bytes(new), random.next() as u32)
}

/// The length of a new name: mostly short, else about those that 21 and 12 refuse, or any, or near 31.
fn new_length(random: &mut Random) -> usize {
    match random.below(8) {
        0 | 1 => [31, 32, 254, 255, 256][random.index(5)],
        2 => 1 + random.index(255),
        3 => 20 + random.index(12),
        _ => 1 + random.index(12),
    }
}

/// A write at an offset about the fork's end.
fn write(random: &mut Random, target: Target) -> Call {
    let offset = about(random, target.logical as u64);
    let length = written_length(random, &target, offset);
    let written = Bytes(bytes(random, length));
    Call::Write(target.name, target.fork, offset, written, random.next() as u32)
}

/// A write that is to be split: half of the time it just fills the volume, or has a byte or a block too many.
pub fn write_to_split(random: &mut Random, image: &[u8]) -> Write {
    let mut target = target(random, image);
    if target.physical == 0 {
        target = self::target(random, image);
    }
    let offset = about(random, target.logical as u64);
    let length = if random.once_in(2) {
        written_length(random, &target, offset)
    } else {
        let more = [0, 1, target.block_size][random.index(3)];
        (room(&target, offset) + more).min(MOST)
    };
    Write {
        bytes: bytes(random, length),
        name: target.name,
        fork: target.fork,
        offset,
        changed: random.next() as u32,
    }
}

/// How many bytes can be written at an offset.
fn room(target: &Target, offset: u64) -> usize {
    let most = target.physical + target.free_blocks * target.block_size;
    (most as u64).saturating_sub(offset) as usize
}

/// Bytes within the fork, to its end or a block's end, or about what fills the volume.
fn written_length(random: &mut Random, target: &Target, offset: u64) -> usize {
    let (from, size) = (offset.min(1 << 30) as usize, target.block_size);
    let end = target.physical.saturating_sub(from);
    let whole = room(target, offset);
    let length = match random.below(10) {
        0 => 0,
        1 => end,
        2 => end + 1,
        3 => whole,
        4 => whole + 1,
        5 => random.index(whole + 1),
        6 => size - from % size,
        _ => random.index(2 * size),
    };
    length.min(MOST)
}

/// A wrap with a buffer that fits an image of 400K, or about that; another image has mostly a short one.
fn wrap(random: &mut Random, fits: bool) -> Call {
    let length = match random.below(8) {
        0 => [0, 1, 62, 63, 64, 65, 255, 256][random.index(8)],
        _ => random.index(64),
    };
    let name = Bytes(bytes(random, length));
    let buffer = if fits || random.once_in(8) {
        let other = [0, HEADER, HEADER + DATA - 1, HEADER + DATA + 1, HEADER + DATA + TAGS];
        match random.below(8) {
            0 => other[random.index(5)],
            _ => HEADER + DATA,
        }
    } else {
        random.index(100)
    };
    Call::Wrap(name, random.byte(), buffer)
}

#[cfg(test)]
mod tests {
    use super::*;
    use std::cmp::Ordering;

    /// Where the entry of a name begins.
    fn place_of(image: &[u8], name: &[u8]) -> Option<usize> {
        let (place, _) = baseline::find(image, name).ok()?;
        Some(volumes::entries(image)[place as usize])
    }

    #[test]
    fn renames_come_in_every_situation() {
        let mut random = Random::new(1);
        let mut numbers = [0; 25];
        // to its own name; to another of the same size, in its place; to a longer or shorter one, in its block, to a
        // block before it, to one behind it
        let mut done = [0; 5];
        for _ in 0..4_000 {
            let mut image = volumes::full(&mut random);
            let call = call(&mut random, &image, RENAME);
            let Call::Rename(name, new, _) = &call else {
                panic!("{call:?}");
            };
            let (from, own) = (place_of(&image, name), place_of(&image, new));
            let size = |name: &[u8]| (51 + name.len()).div_ceil(2);
            if let Err(refusal) = call.change(&mut image) {
                numbers[usize::from(refusal.number())] += 1;
                continue;
            }
            let (from, to) = (from.unwrap(), place_of(&image, new).unwrap());
            let situation = match (to / 512).cmp(&(from / 512)) {
                _ if own == Some(from) => 0,
                _ if size(name) == size(new) => 1,
                Ordering::Equal => 2,
                Ordering::Less => 3,
                Ordering::Greater => 4,
            };
            done[situation] += 1;
        }
        for number in [11, 12, 13, 14, 15, 18, 21] {
            assert!(numbers[number] > 20, "{number}: {numbers:?}");
        }
        assert!(done.iter().all(|&count| count > 20), "{done:?}");
    }
}
