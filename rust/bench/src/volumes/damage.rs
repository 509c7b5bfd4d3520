//! Damage to volumes.

use super::{entries, name_at};
use crate::images::{get2, get4, put2, put4, put_map};
use crate::random::Random;
use crate::spelling::{near_miss, respell};

/// One fault: aimed at one of the checks, or anywhere.
pub fn damage(random: &mut Random, image: &mut Vec<u8>) {
    if image.len() < 4096 {
        return;
    }
    let entries = entries(image);
    match random.below(16) {
        0 => damage_length(random, image),
        1 => damage_limits(random, image),
        2..=6 | 10 | 11 => damage_information(random, image),
        7..=9 => damage_byte(random, image),
        _ if entries.is_empty() => {}
        12 => damage_entry(random, image, &entries),
        13 => repeat(random, image, &entries),
        _ => damage_fork(random, image, &entries),
    }
}

/// A fault in the name, the map, the counts, the next number or the lock of the volume, or anywhere in its information.
fn damage_information(random: &mut Random, image: &mut [u8]) {
    match random.below(7) {
        0 => image[1060] = random.between(26, 255) as u8,
        1 | 2 => {
            let blocks = get2(image, 1042);
            let block = 2 + random.below(u64::from(blocks.clamp(1, 640))) as u16;
            let value = map_value(random, blocks);
            put_map(image, block, value);
        }
        3 => {
            let change = [1, 0xFFFF, 2][random.index(3)];
            let at = [1036, 1058][random.index(2)];
            let value = get2(image, at).wrapping_add(change);
            put2(image, at, value);
        }
        4 => {
            let values = [0, 1, 0xFFFF_FFFF, random.next() as u32 % 100];
            put4(image, 1054, values[random.index(4)]);
        }
        5 => {
            let bit = if random.once_in(2) { 0x80 } else { 0x8000 };
            let attributes = get2(image, 1034);
            put2(image, 1034, attributes ^ bit);
        }
        _ => image[1024 + random.index(64)] = random.byte(),
    }
}

/// A byte near the beginning, a bit anywhere, or a byte of the directory.
fn damage_byte(random: &mut Random, image: &mut [u8]) {
    match random.below(3) {
        0 => {
            let at = random.index(image.len().min(8192));
            image[at] = random.byte();
        }
        1 => {
            let at = random.index(image.len());
            image[at] ^= 1 << random.below(8);
        }
        _ => {
            let start = usize::from(get2(image, 1038)) * 512;
            let at = start + random.index(512 * usize::from(get2(image, 1040)).max(1));
            if at < image.len() {
                image[at] = random.byte();
            }
        }
    }
}

fn map_value(random: &mut Random, blocks: u16) -> u16 {
    match random.below(6) {
        0 => 0,
        1 => 1,
        2 => blocks.wrapping_add(2) % 4096,
        3 => 4095,
        4 => random.next() as u16 % 4096,
        _ => (2 + random.below(u64::from(blocks.max(1)))) as u16 % 4096,
    }
}

fn damage_length(random: &mut Random, image: &mut Vec<u8>) {
    let length = image.len();
    match random.below(5) {
        0 => image.truncate(length - random.index(512)),
        1 => image.truncate(length - 512 * random.index(length / 512)),
        2 => image.resize(length + random.index(600), 0),
        3 => image.truncate([0, 1, 511, 512, 1024, 3584, 4095][random.index(7)]),
        _ if random.once_in(50) => image.resize([65_535 * 512, 65_536 * 512][random.index(2)], 0),
        _ => image.truncate(length - 512),
    }
}

fn damage_limits(random: &mut Random, image: &mut [u8]) {
    match random.below(6) {
        0 => {
            let values = [0, 256, 511, 513, 1024, 32_768, 33_280, 65_536, 0x8000_0200];
            put4(image, 1044, values[random.index(9)]);
        }
        1 => {
            let now = get2(image, 1042);
            let values = [0, 641, 640, 0xFFFF, now.wrapping_add(1), now.wrapping_sub(1)];
            put2(image, 1042, values[random.index(6)]);
        }
        2 => {
            let now = get2(image, 1040);
            let values = [0, 256, 257, now.wrapping_add(1), now.wrapping_sub(1), 0xFFFF];
            put2(image, 1040, values[random.index(6)]);
        }
        3 => {
            let now = get2(image, 1038);
            let values = [0, 3, 4, now.wrapping_add(1), 0xFFFF];
            put2(image, 1038, values[random.index(5)]);
        }
        4 => {
            let now = get2(image, 1052);
            let values = [0, now.wrapping_add(1), now.wrapping_sub(1), 0xFFFF];
            put2(image, 1052, values[random.index(4)]);
        }
        _ => put2(image, 1024, [0xD2D6, 0xD7D2, 0x4244, 0][random.index(4)]),
    }
}

fn damage_entry(random: &mut Random, image: &mut [u8], entries: &[usize]) {
    let at = entries[random.index(entries.len())];
    match random.below(6) {
        0 => image[at] ^= 0x80,
        1 => image[at] ^= 1,
        2 => image[at + 1] = random.byte(),
        3 => image[at + 50] = [0, 255, random.byte()][random.index(3)],
        4 => {
            let next = get4(image, 1054);
            let values = [0, next, next.wrapping_add(1), 0xFFFF_FFFF, next.wrapping_sub(1)];
            put4(image, at + 18, values[random.index(5)]);
        }
        _ => {
            let name = usize::from(image[at + 50]);
            let next = at + (51 + name).div_ceil(2) * 2;
            if next < image.len() {
                image[next] ^= 0x80;
            }
        }
    }
}

/// Two files get one number, or one name.
pub fn repeat(random: &mut Random, image: &mut [u8], entries: &[usize]) {
    if random.once_in(2) {
        repeat_name(random, image, entries);
        return;
    }
    let one = entries[random.index(entries.len())];
    let two = entries[random.index(entries.len())];
    let number = get4(image, one + 18);
    put4(image, two + 18, number);
}

/// Two files whose names have one length get one name in any spelling, or nearly.
pub fn repeat_name(random: &mut Random, image: &mut [u8], entries: &[usize]) {
    let one = entries[random.index(entries.len())];
    let mut name = name_at(image, one).to_vec();
    let fits = |at: &usize| *at != one && name_at(image, *at).len() == name.len();
    let others: Vec<usize> = entries.iter().copied().filter(fits).collect();
    if name.is_empty() || others.is_empty() {
        return;
    }
    let two = others[random.index(others.len())];
    respell(random, &mut name);
    let at = random.index(name.len());
    match random.below(6) {
        0 => name[at] ^= 1 << random.below(8),
        1 => name[at] = near_miss(random, name[at]),
        _ => {}
    }
    image[two + 51..two + 51 + name.len()].copy_from_slice(&name);
}

fn damage_fork(random: &mut Random, image: &mut [u8], entries: &[usize]) {
    let fork = |random: &mut Random| entries[random.index(entries.len())] + [22, 32][random.index(2)];
    let (at, other) = (fork(random), fork(random));
    match random.below(8) {
        0 => {
            let blocks = get2(image, 1042);
            let values = [0, 1, 2, blocks.wrapping_add(1), blocks.wrapping_add(2), 0xFFFF];
            put2(image, at, values[random.index(6)]);
        }
        1 => {
            let start = get2(image, other);
            put2(image, at, start);
        }
        2..=5 => damage_lengths(random, image, at),
        6 => {
            // Each fork gets the other's fields.
            let mut fields = [0; 10];
            fields.copy_from_slice(&image[at..at + 10]);
            image.copy_within(other..other + 10, at);
            image[other..other + 10].copy_from_slice(&fields);
        }
        _ => {
            // A ring, or a chain that runs into another.
            let blocks = get2(image, 1042);
            let start = get2(image, at);
            if (2..blocks.saturating_add(2).min(642)).contains(&start) {
                let to = [start, get2(image, other)][random.index(2)];
                put_map(image, start, to % 4096);
            }
        }
    }
}

/// A fork's logical or physical length.
fn damage_lengths(random: &mut Random, image: &mut [u8], at: usize) {
    let size = get4(image, 1044);
    let (logical, physical) = (get4(image, at + 2), get4(image, at + 6));
    match random.below(4) {
        0 => put4(image, at + 2, physical.wrapping_add(random.below(2) as u32)),
        1 => put4(image, at + 2, logical.wrapping_add(1)),
        2 => {
            let values = [size, size.wrapping_neg(), 1, 0xFFFF_FFFF, size.wrapping_mul(2)];
            put4(image, at + 6, physical.wrapping_add(values[random.index(5)]));
        }
        _ => {
            let many = size.wrapping_mul(641);
            let values = [0, size, 0xFFFF_FE00, 0x8000_0000, many, random.next() as u32];
            put4(image, at + 6, values[random.index(6)]);
        }
    }
}
