//! Volumes of many shapes from a seed, and wrapped files.

mod alike;
mod broken;
mod damage;
mod full;
mod wrapped;

use crate::images::{self, build, get2, FileSpec, ForkSpec, Geometry};
use crate::random::Random;
use crate::spelling::{letter, respell, uppers};
use std::collections::HashSet;

pub use alike::alike;
pub use broken::broken;
pub use damage::damage;
pub use full::full;
pub use wrapped::{damage_wrapped, disk_400k, wrap_up};

/// An accepted volume, from tiny to (seldom) the largest.
pub fn volume(random: &mut Random) -> Vec<u8> {
    let geometry = geometry(random);
    let free = match random.below(3) {
        0 => 0,
        1 => random.index(geometry.allocation_blocks + 1),
        _ => random.index(geometry.allocation_blocks / 2 + 1),
    };
    with_free(random, geometry, free)
}

/// An accepted volume that has a file, and at most eight free blocks.
pub fn nearly_full(random: &mut Random) -> Vec<u8> {
    loop {
        let geometry = geometry(random);
        let free = random.index(geometry.allocation_blocks.min(8) + 1);
        let image = with_free(random, geometry, free);
        if !entries(&image).is_empty() {
            return image;
        }
    }
}

/// An accepted volume with so many free blocks, if it has a file.
fn with_free(random: &mut Random, mut geometry: Geometry, free: usize) -> Vec<u8> {
    let mut blocks: Vec<u16> = (2..geometry.allocation_blocks as u16 + 2).collect();
    if !random.once_in(4) {
        random.shuffle(&mut blocks);
    }
    blocks.truncate(blocks.len() - free);
    let files = files(random, &geometry, blocks);
    let largest = files.iter().map(|(_, file)| file.number).max().unwrap_or(0);
    geometry.next_number = match random.below(8) {
        0 => u32::MAX,
        1 => u32::MAX - 1,
        2 => random.between(u64::from(largest) + 1, u64::from(u32::MAX)) as u32,
        _ => largest + 1,
    };
    let mut noise = Random::new(random.next());
    if random.once_in(2) {
        build(&geometry, &files, &mut |_| ())
    } else {
        build(&geometry, &files, &mut |bytes| fill_quickly(&mut noise, bytes))
    }
}

pub fn fill_quickly(random: &mut Random, bytes: &mut [u8]) {
    for eight in bytes.chunks_mut(8) {
        let value = random.next().to_le_bytes();
        eight.copy_from_slice(&value[..eight.len()]);
    }
}

fn geometry(random: &mut Random) -> Geometry {
    let (sectors, allocation_blocks) = allocation(random);
    let directory_start = 4 + random_low(random, 5) as usize;
    let directory_length = match random.below(40) {
        0 => random.between(200, 256),
        1..=5 => random.between(5, 20),
        _ => random.between(1, 4),
    } as usize;
    let allocation_start = directory_start + directory_length + random_low(random, 4) as usize;
    let least = allocation_start + allocation_blocks * sectors + 2;
    let image_blocks = if random.once_in(5000) {
        65_535
    } else {
        least + random_low(random, 6) as usize
    };
    let lock = match random.below(20) {
        0 => 0x0080,
        1 => 0x8000,
        _ => 0,
    };
    let mut name = vec![0; random.index(28)];
    random.fill(&mut name);
    Geometry {
        image_blocks: image_blocks.max(8),
        attributes: random.next() as u16 & 0x7F7F | lock,
        directory_start,
        directory_length,
        allocation_start,
        block_size: sectors * 512,
        allocation_blocks,
        clump_size: clump_size(random, sectors as u64 * 512, allocation_blocks as u64),
        next_number: 1,
        name,
    }
}

/// How many logical blocks an allocation block has, and how many of these there are.
fn allocation(random: &mut Random) -> (usize, usize) {
    let sectors = match random.below(100) {
        0 => 64,
        1..=4 => random.between(1, 64),
        5..=24 => random.between(2, 4),
        _ => 1,
    };
    let blocks = match random.below(40) {
        0 if sectors <= 4 => 640,
        1 if sectors <= 4 => random.between(300, 640),
        2..=7 => random.between(40, 120),
        8..=12 => random.between(1, 3),
        _ => random.between(1, 40),
    };
    (sectors as usize, blocks as usize)
}

/// A clump size: mostly one of a few blocks, else one of about all blocks, of far more, of one, or one that does not
/// count.
fn clump_size(random: &mut Random, block_size: u64, blocks: u64) -> u32 {
    let size = match random.below(16) {
        0 => 0,
        1 => [block_size / 2, block_size - 1, block_size + 1][random.index(3)],
        2 => block_size * random.between(1, 4) + random.between(1, block_size - 1),
        3 => random.below(1 << 32),
        4 => block_size,
        5 => block_size * (blocks + random.below(3)),
        6 => (1 << 32) / block_size * block_size - block_size,
        _ => block_size * random.between(2, 6),
    };
    size as u32
}

/// 0 half of the time, else below `end`.
fn random_low(random: &mut Random, end: u64) -> u64 {
    if random.once_in(2) {
        0
    } else {
        random.below(end)
    }
}

/// How a volume's files are named.
enum Names {
    Few,
    Any,
    Long,
    Short,
    Accents,
    Crowded(Vec<Vec<u8>>),
}

fn files(random: &mut Random, geometry: &Geometry, mut blocks: Vec<u16>) -> Vec<(usize, FileSpec)> {
    let crowded = random.once_in(4).then(|| images::numbers_at(random.below(4096) as u32));
    let most = match random.below(10) {
        0 => 0,
        1..=5 => random.index(6),
        6..=8 => random.index(geometry.directory_length * 9 + 1),
        _ => geometry.directory_length * 9,
    };
    let style = style(random, most);
    let mut room = vec![512; geometry.directory_length];
    let (mut names, mut numbers) = (HashSet::new(), HashSet::new());
    let mut files = Vec::new();
    for i in 0..most {
        let name = name(random, &style, i);
        let number = match &crowded {
            Some(at) => at(i),
            None => random.between(1, 3 * most as u64 + 3) as u32,
        };
        if !names.insert(uppers(&name)) || !numbers.insert(number) {
            continue;
        }
        let file = file(random, number, &name);
        if let Some(block) = take_room(random, &mut room, file.size()) {
            files.push((block, file));
        }
    }
    share_out(random, geometry, &mut files, &mut blocks);
    files
}

/// A way to name so many files.
fn style(random: &mut Random, files: usize) -> Names {
    match random.below(10) {
        0 => Names::Long,
        1 => Names::Crowded(images::names_at(random.below(4096) as u32, 5, files)),
        2 | 3 => Names::Any,
        4 | 5 => Names::Few,
        6 | 7 => Names::Short,
        _ => Names::Accents,
    }
}

fn file(random: &mut Random, number: u32, name: &[u8]) -> FileSpec {
    let mut file = FileSpec::empty(number, name);
    file.flags = 0x80 | random.byte() & if random.once_in(6) { 0x7F } else { 0x7E };
    random.fill(&mut file.finder);
    file.created = random.next() as u32;
    file.changed = random.next() as u32;
    file
}

/// A directory block with room for an entry of this size, which is taken.
fn take_room(random: &mut Random, room: &mut [usize], size: usize) -> Option<usize> {
    let start = random.index(room.len());
    let block = (0..room.len())
        .map(|k| (start + k) % room.len())
        .find(|&block| room[block] >= size)?;
    room[block] -= size;
    Some(block)
}

fn name(random: &mut Random, style: &Names, i: usize) -> Vec<u8> {
    match style {
        Names::Few => (0..random.between(1, 4))
            .map(|_| b"aAbBzZ[`{@"[random.index(10)])
            .collect(),
        Names::Any => (0..random.between(1, 12)).map(|_| random.byte()).collect(),
        Names::Long => {
            let length = match random.below(3) {
                0 => 255,
                1 => random.between(30, 34),
                _ => random.between(100, 255),
            };
            (0..length)
                .map(|k| if k + 3 < length { b'q' } else { random.byte() })
                .collect()
        }
        Names::Short => (0..random.between(1, 2)).map(|_| random.byte()).collect(),
        Names::Accents => (0..random.between(1, 4)).map(|_| letter(random)).collect(),
        Names::Crowded(names) => names[i].clone(),
    }
}

/// Every block goes to some fork, where there is one.
fn share_out(random: &mut Random, geometry: &Geometry, files: &mut [(usize, FileSpec)], blocks: &mut Vec<u16>) {
    let mut forks: Vec<&mut ForkSpec> = files
        .iter_mut()
        .flat_map(|(_, file)| [&mut file.data, &mut file.resource])
        .collect();
    if forks.is_empty() {
        return;
    }
    let some = random.index(forks.len()) + 1;
    while let Some(block) = blocks.pop() {
        let fork = random.index(some);
        forks[fork].blocks.push(block);
    }
    for fork in forks {
        let physical = fork.blocks.len() * geometry.block_size;
        fork.logical = match random.below(6) {
            0 => physical,
            1 => 0,
            2 => random.index(physical + 1),
            _ => physical - random.index(geometry.block_size).min(physical),
        };
    }
}

/// A volume of 6 to some 300 files whose numbers or names crowd the archive's table, with two of them made equal, or
/// nearly, two times of three.
pub fn crowd(random: &mut Random) -> Vec<u8> {
    let count = if random.once_in(10) {
        random.between(255, 310)
    } else {
        random.between(6, 90)
    } as usize;
    let geometry = few_blocks(random, count, 9);
    let mut image = build(&geometry, &crowding_files(random, count), &mut |_| ());
    if !random.once_in(3) {
        let entries = entries(&image);
        damage::repeat(random, &mut image, &entries);
    }
    image
}

/// A volume of four allocation blocks, with a directory for so many files, so many of them in each block.
fn few_blocks(random: &mut Random, files: usize, in_block: usize) -> Geometry {
    let directory_length = files.div_ceil(in_block);
    Geometry {
        directory_start: 4,
        directory_length,
        allocation_start: 4 + directory_length,
        block_size: 512,
        allocation_blocks: 4,
        image_blocks: 4 + directory_length + 6,
        next_number: 311 * 65_536,
        ..geometry(random)
    }
}

/// A home slot of the archive's table, at times one at an edge.
fn slot(random: &mut Random) -> u32 {
    match random.below(3) {
        0 => [0, 1, 4090, 4094, 4095][random.index(5)],
        _ => random.below(4096) as u32,
    }
}

/// So many files in any order, nine to a directory block: their numbers, and their names, have one home slot, or two
/// next to each other, or any.
fn crowding_files(random: &mut Random, count: usize) -> Vec<(usize, FileSpec)> {
    let (by_number, by_name) = (slot(random), slot(random));
    let numbers = [by_number, by_number + 1].map(|slot| images::numbers_at(slot % 4096));
    let names = [by_name, by_name + 1].map(|slot| images::names_at(slot % 4096, 5, count));
    let (number_style, name_style) = (random.below(4), random.below(4));
    let mut order: Vec<usize> = (0..count).collect();
    random.shuffle(&mut order);
    let file = |(at, i): (usize, usize)| {
        let number = match number_style {
            0 => i as u32 + 1,
            1 => numbers[i % 2](i),
            _ => numbers[0](i),
        };
        let mut name = match name_style {
            0 => format!("w{i:04}").into_bytes(),
            1 => names[i % 2][i].clone(),
            _ => names[0][i].clone(),
        };
        respell(random, &mut name);
        (at / 9, FileSpec::empty(number, &name))
    };
    order.into_iter().enumerate().map(file).collect()
}

/// Where the entries of a volume begin, as far as they can be read.
pub fn entries(image: &[u8]) -> Vec<usize> {
    let start = usize::from(get2(image, 1038)) * 512;
    let length = usize::from(get2(image, 1040));
    let mut found = Vec::new();
    for block in 0..length {
        let mut at = 0;
        while at + 51 < 512 && start + block * 512 + 512 <= image.len() {
            let here = start + block * 512 + at;
            let name = usize::from(image[here + 50]);
            if image[here] < 0x80 || at + 51 + name > 512 {
                break;
            }
            found.push(here);
            at += (51 + name).div_ceil(2) * 2;
        }
    }
    found
}

pub fn name_at(image: &[u8], at: usize) -> &[u8] {
    &image[at + 51..at + 51 + usize::from(image[at + 50])]
}
