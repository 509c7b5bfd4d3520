//! Wrapped files from a seed, and damage to them.

use super::damage::{damage, repeat_name};
use super::{entries, volume};
use crate::images::{get4, put2, put4, put_checksums, wrapped, DATA, HEADER, TAGS};
use crate::random::Random;

/// An accepted volume on a 400K disk.
pub fn disk_400k(random: &mut Random) -> Vec<u8> {
    loop {
        let mut image = volume(random);
        if image.len() <= DATA {
            image.resize(DATA, random.byte());
            return image;
        }
    }
}

/// A wrapped file of an image, with tags or without, whatever may be carried by chance.
pub fn wrap_up(random: &mut Random, image: &[u8]) -> Vec<u8> {
    let mut name = [0; 64];
    random.fill(&mut name);
    name[0] = [0, 1, 62, 63, random.below(64) as u8][random.index(5)];
    let mut tags = vec![0; if random.once_in(2) { TAGS } else { 0 }];
    if random.once_in(2) {
        random.fill(&mut tags);
    }
    wrapped(image, &name, random.byte(), &tags)
}

/// One fault of a wrapped file, or a change of what is carried: of its length, header, checksums or tags, or of the
/// volume inside.
pub fn damage_wrapped(random: &mut Random, file: &mut Vec<u8>) {
    if ![HEADER + DATA, HEADER + DATA + TAGS].contains(&file.len()) {
        return;
    }
    match random.below(14) {
        0 | 1 => damage_length(random, file),
        2 | 3 => damage_header(random, file),
        4 => file[random.index(HEADER)] = random.byte(),
        5 => damage_sum(random, file, 72),
        6 | 7 => damage_sum(random, file, 76),
        8 => {
            let at = random.between(HEADER as u64, file.len() as u64 - 1) as usize;
            file[at] ^= 1 << random.below(8);
        }
        9 if file.len() > HEADER + DATA => {
            let at = HEADER + DATA + [0, 11, 12, TAGS - 1, random.index(TAGS)][random.index(5)];
            file[at] ^= 1 << random.below(8);
        }
        _ => damage_inside(random, file),
    }
}

fn damage_length(random: &mut Random, file: &mut Vec<u8>) {
    let length = match random.below(4) {
        0 => [0, 1, 64, 83, 84, 85, 4096][random.index(7)],
        1 => [HEADER + DATA, HEADER + DATA + TAGS / 2, HEADER + DATA + TAGS, DATA][random.index(4)],
        2 => file.len() + 1,
        _ => file.len() - 1 - random.index(2),
    };
    file.resize(length, 0);
}

/// A fault about the edges of a field.
fn damage_header(random: &mut Random, file: &mut [u8]) {
    match random.below(5) {
        0 => file[0] = [63, 64, 65, 255][random.index(4)],
        1 => put4(file, 64, [409_599, 409_601, 0, 819_200, 409_600][random.index(5)]),
        2 => put4(file, 68, [0, 9_600, 4_800, 9_599, 0xFFFF_FFFF][random.index(5)]),
        3 => file[80] = [0, 1, 2, 255][random.index(4)],
        _ => put2(file, 82, [0x0100, 0x0001, 0x0000, 0x0101][random.index(4)]),
    }
}

/// A checksum that is one off, or has another bit, or is 0.
fn damage_sum(random: &mut Random, file: &mut [u8], at: usize) {
    let sum = get4(file, at);
    let values = [sum.wrapping_add(1), sum ^ 1 << random.below(32), sum.rotate_left(1), 0];
    put4(file, at, values[random.index(4)]);
}

/// A fault of the volume, under checksums that are right.
fn damage_inside(random: &mut Random, file: &mut [u8]) {
    let mut image = file[HEADER..HEADER + DATA].to_vec();
    let entries = entries(&image);
    if entries.is_empty() || !random.once_in(4) {
        damage(random, &mut image);
    } else {
        repeat_name(random, &mut image, &entries);
    }
    image.resize(DATA, 0);
    file[HEADER..HEADER + DATA].copy_from_slice(&image);
    put_checksums(file);
}
