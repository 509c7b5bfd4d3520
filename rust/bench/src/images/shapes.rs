//! The volumes that are measured.

use super::{build, in_order, next_number, put4, FileSpec, ForkSpec, Geometry};
use crate::random::Random;

/// The disk of document 01.
pub fn hall() -> Vec<u8> {
    let geometry = Geometry {
        image_blocks: 12,
        attributes: 0,
        directory_start: 4,
        directory_length: 1,
        allocation_start: 5,
        block_size: 512,
        allocation_blocks: 5,
        clump_size: 0,
        next_number: 3,
        name: b"HALL".to_vec(),
    };
    let mut week = FileSpec::empty(1, b"WEEK1");
    week.data = ForkSpec {
        logical: 700,
        blocks: vec![2, 4],
    };
    let mut rates = FileSpec::empty(2, b"RATES");
    rates.changed = 2_500_000_000;
    rates.data = ForkSpec {
        logical: 512,
        blocks: vec![3],
    };
    let mut image = build(&geometry, &in_order(&geometry, vec![week, rates]), &mut |_| ());
    put4(&mut image, 1026, 0);
    put4(&mut image, 1030, 0);
    image
}

fn disk_400k() -> Geometry {
    Geometry {
        image_blocks: 800,
        attributes: 0,
        directory_start: 4,
        directory_length: 12,
        allocation_start: 16,
        block_size: 1024,
        allocation_blocks: 391,
        clump_size: 0,
        next_number: 1000,
        name: b"WATER".to_vec(),
    }
}

pub fn large_directory() -> Geometry {
    Geometry {
        image_blocks: 260 + 640 + 2,
        attributes: 0,
        directory_start: 4,
        directory_length: 256,
        allocation_start: 260,
        block_size: 512,
        allocation_blocks: 640,
        clump_size: 0,
        next_number: 3000,
        name: b"ARCHIVE".to_vec(),
    }
}

fn shuffled_blocks(geometry: &Geometry, random: &mut Random) -> std::vec::IntoIter<u16> {
    let mut blocks: Vec<u16> = (2..geometry.allocation_blocks as u16 + 2).collect();
    random.shuffle(&mut blocks);
    blocks.into_iter()
}

/// A file number from 1 on.
pub fn number_of(i: usize) -> u32 {
    i as u32 + 1
}

/// A name of five letters and digits, another one for each number.
pub fn name_of(i: usize) -> Vec<u8> {
    format!("W{i:04}").into_bytes()
}

/// A 400K disk, its directory full: 108 files of three data blocks, every fourth with a block of resource fork.
pub fn files_108(numbers: &dyn Fn(usize) -> u32, names: &dyn Fn(usize) -> Vec<u8>) -> Vec<u8> {
    let mut geometry = disk_400k();
    let mut random = Random::new(108);
    let mut blocks = shuffled_blocks(&geometry, &mut random);
    let files: Vec<FileSpec> = (0..108)
        .map(|i| {
            let mut file = FileSpec::empty(numbers(i), &names(i));
            file.data = ForkSpec {
                logical: 2_500 + i,
                blocks: blocks.by_ref().take(3).collect(),
            };
            if i % 4 == 0 {
                file.resource = ForkSpec {
                    logical: 286,
                    blocks: blocks.by_ref().take(1).collect(),
                };
            }
            file
        })
        .collect();
    geometry.next_number = next_number(&files);
    build(&geometry, &in_order(&geometry, files), &mut |b| random.fill(b))
}

/// A 400K disk with 20 files of 19 scattered blocks each.
fn scattered_20() -> Vec<u8> {
    let geometry = disk_400k();
    let mut random = Random::new(20);
    let mut blocks = shuffled_blocks(&geometry, &mut random);
    let files = (0..20)
        .map(|i| {
            let mut file = FileSpec::empty(number_of(i), &name_of(i));
            file.data = ForkSpec {
                logical: 18 * 1024 + 500,
                blocks: blocks.by_ref().take(19).collect(),
            };
            file
        })
        .collect();
    build(&geometry, &in_order(&geometry, files), &mut |b| random.fill(b))
}

/// 2,304 files, nine in each of 256 directory blocks; the last 600 have a block.
pub fn files_2304(numbers: &dyn Fn(usize) -> u32, names: &dyn Fn(usize) -> Vec<u8>) -> Vec<u8> {
    let mut geometry = large_directory();
    let mut random = Random::new(2304);
    let mut blocks = shuffled_blocks(&geometry, &mut random);
    let files: Vec<FileSpec> = (0..2304)
        .map(|i| {
            let mut file = FileSpec::empty(numbers(i), &names(i));
            if i >= 2304 - 600 {
                file.data = ForkSpec {
                    logical: 400,
                    blocks: blocks.by_ref().take(1).collect(),
                };
            }
            file
        })
        .collect();
    geometry.next_number = next_number(&files);
    build(&geometry, &in_order(&geometry, files), &mut |b| random.fill(b))
}

/// One file whose data fork has all 391 blocks of a 400K disk, in scattered order.
pub fn one_fork() -> Vec<u8> {
    let geometry = disk_400k();
    let mut random = Random::new(391);
    let mut file = FileSpec::empty(1, b"WHOLE");
    file.data = ForkSpec {
        logical: 391 * 1024,
        blocks: shuffled_blocks(&geometry, &mut random).collect(),
    };
    build(&geometry, &in_order(&geometry, vec![file]), &mut |b| random.fill(b))
}

/// The plain volumes, each with its name.
pub fn shapes() -> Vec<(&'static str, Vec<u8>)> {
    vec![
        ("HALL", hall()),
        ("108 files", files_108(&number_of, &name_of)),
        ("20 files of 19 blocks", scattered_20()),
        ("2,304 files", files_2304(&number_of, &name_of)),
        ("1 file of 391 blocks", one_fork()),
    ]
}
