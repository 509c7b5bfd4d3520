//! Volumes that are bad for the archive's search for equal numbers and names, which is a hash table with 4,096 home
//! slots: all files have one home slot.

use super::shapes::{files_108, files_2304, large_directory, name_of, number_of};
use super::{build, in_order, next_number, FileSpec};
use crate::spelling::upper;

/// The home slot of a hash.
fn spread(hash: u32) -> u32 {
    hash % 65_536 * 40_503 % 65_536 / 16
}

/// A hash with one byte more.
fn with_byte(hash: u32, byte: u8) -> u32 {
    (hash * 293 + u32::from(byte)) % 65_536
}

/// The hash of a name: of its bytes in their upper spelling.
fn hashed(name: &[u8]) -> u32 {
    name.iter().fold(0, |hash, &byte| with_byte(hash, upper(byte)))
}

/// File numbers of one home slot.
pub fn numbers_at(slot: u32) -> impl Fn(usize) -> u32 {
    let first = (1..65_536)
        .find(|&n| spread(n) == slot)
        .expect("each slot has 16 numbers");
    move |i| first + i as u32 * 65_536
}

/// Each two bytes, in their upper spelling, that bring a name from one hash to another when put behind it.
fn endings(from: u32, to: u32) -> impl Iterator<Item = [u8; 2]> {
    (0..=255)
        .filter_map(move |first| {
            let before = with_byte(with_byte(from, first), 0);
            let last = u8::try_from((to + 65_536 - before) % 65_536).ok()?;
            Some([first, last])
        })
        .filter(|ending| ending.iter().all(|&byte| upper(byte) == byte))
}

/// So many different names of one length, 4 or above, and one home slot, in their upper spelling. They are alike but
/// for the last four bytes, most of those next to each other but for the last three.
pub fn names_at(slot: u32, length: usize, count: usize) -> Vec<Vec<u8>> {
    let hash = (0..65_536)
        .find(|&hash| spread(hash) == slot)
        .expect("each slot has 16 hashes");
    let uppers = || (0..=255).filter(|&byte| upper(byte) == byte);
    uppers()
        .flat_map(|one| uppers().map(move |two| [one, two]))
        .flat_map(|middle| {
            let front = [vec![b'@'; length - 4], middle.to_vec()].concat();
            endings(hashed(&front), hash).map(move |ending| [&front[..], &ending].concat())
        })
        .take(count)
        .collect()
}

/// So many different names of one length and one home slot that are alike but for the first four bytes: these have one
/// hash, and the same end leads them to one hash again.
fn names_ending_alike(length: usize, count: usize) -> Vec<Vec<u8>> {
    let end = vec![b'@'; length - 4];
    let fronts = names_at(5, 4, count).into_iter();
    fronts.map(|front| [&front[..], &end].concat()).collect()
}

/// So many files without forks.
fn empty_files(count: usize, numbers: &dyn Fn(usize) -> u32, names: &dyn Fn(usize) -> Vec<u8>) -> Vec<u8> {
    let mut geometry = large_directory();
    let files: Vec<FileSpec> = (0..count).map(|i| FileSpec::empty(numbers(i), &names(i))).collect();
    geometry.next_number = next_number(&files);
    build(&geometry, &in_order(&geometry, files), &mut |_| ())
}

/// The crowded volumes, each with its name: one home slot by number, by name, by both. Slot 4,095 is the last one. The
/// archive compares names from their last byte, the worse for it where they end alike.
pub fn crowded() -> Vec<(&'static str, Vec<u8>)> {
    let names = |slot, length, count| {
        let names = names_at(slot, length, count);
        move |i: usize| names[i].clone()
    };
    let long = |count, length| empty_files(count, &numbers_at(5), &names(5, length, count));
    let ending_alike = |count, length| {
        let names = names_ending_alike(length, count);
        empty_files(count, &numbers_at(5), &|i| names[i].clone())
    };
    vec![
        ("108, numbers of one slot", files_108(&numbers_at(5), &name_of)),
        ("108, names of one slot", files_108(&number_of, &names(5, 5, 108))),
        ("108, both", files_108(&numbers_at(5), &names(5, 5, 108))),
        ("2,304, numbers of one slot", files_2304(&numbers_at(5), &name_of)),
        ("2,304, names of one slot", files_2304(&number_of, &names(5, 5, 2304))),
        ("2,304, both", files_2304(&numbers_at(5), &names(5, 5, 2304))),
        (
            "2,304, both, last slot",
            files_2304(&numbers_at(4095), &names(4095, 5, 2304)),
        ),
        ("2,048, both, names of 13 bytes", long(2048, 13)),
        ("1,024, both, names of 77 bytes", long(1024, 77)),
        ("256, both, names of 255 bytes", long(256, 255)),
        ("2,048, both, names of 13 bytes that end alike", ending_alike(2048, 13)),
        ("1,024, both, names of 77 bytes that end alike", ending_alike(1024, 77)),
        ("256, both, names of 255 bytes that end alike", ending_alike(256, 255)),
    ]
}

#[cfg(test)]
mod tests {
    use super::*;
    use crate::random::Random;
    use crate::spelling::{respell, uppers};
    use std::collections::HashSet;

    #[test]
    fn names_differ_and_have_one_home_slot_in_every_spelling() {
        let mut random = Random::new(1);
        for slot in (0..4096).step_by(315) {
            for (length, count) in [(4, 2304), (5, 2304), (13, 2304), (255, 256)] {
                let names = names_at(slot, length, count);
                assert_eq!(names.len(), count);
                assert!(names.iter().all(|name| name.len() == length));
                let different: HashSet<_> = names.iter().map(|name| uppers(name)).collect();
                assert_eq!(different.len(), count);
                for mut name in names {
                    respell(&mut random, &mut name);
                    assert_eq!(spread(hashed(&name)), slot);
                }
            }
        }
    }

    #[test]
    fn names_that_end_alike_differ_and_have_one_home_slot() {
        for (length, count) in [(13, 2048), (77, 1024), (255, 256)] {
            let names = names_ending_alike(length, count);
            let different: HashSet<_> = names.iter().map(|name| uppers(name)).collect();
            assert_eq!((names.len(), different.len()), (count, count));
            let (hash, end) = (hashed(&names[0]), &names[0][4..]);
            assert!(names.iter().all(|name| hashed(name) == hash && &name[4..] == end));
        }
    }
}
