//! Volumes whose directory has little room, or none.

use super::{few_blocks, file, fill_quickly};
use crate::images::build;
use crate::random::Random;
use crate::spelling::uppers;
use std::collections::HashSet;

/// A volume of 1 to 6 directory blocks, most of them filled until less is left than an entry takes. Half of the time
/// the bytes behind the entries, and the pad bytes, are not zero.
pub fn full(random: &mut Random) -> Vec<u8> {
    let blocks = random.between(1, 6) as usize;
    let geometry = few_blocks(random, blocks, 1);
    let mut names = HashSet::new();
    let mut files = Vec::new();
    for block in 0..blocks {
        let mut room = 512;
        while room >= 52 && !random.once_in(40) {
            let name = name(random, room - 51);
            if names.insert(uppers(&name)) {
                let file = file(random, files.len() as u32 + 1, &name);
                room -= file.size();
                files.push((block, file));
            }
        }
    }
    let mut noise = Random::new(random.next());
    if random.once_in(2) {
        build(&geometry, &files, &mut |_| ())
    } else {
        build(&geometry, &files, &mut |bytes| fill_quickly(&mut noise, bytes))
    }
}

/// A name of at most so many bytes: mostly one that a new file may have, seldom an old one above 31.
fn name(random: &mut Random, most: usize) -> Vec<u8> {
    let length = match random.below(8) {
        0 => random.between(28, 255),
        1..=3 => random.between(1, 31),
        _ => random.between(1, 12),
    } as usize;
    (0..length.min(most)).map(|_| random.byte()).collect()
}
