//! Volumes whose directory has entries that check 6 refuses, and names that come again.

use super::{few_blocks, file, fill_quickly};
use crate::images::{build, get2, FileSpec};
use crate::random::Random;
use crate::spelling::respell;

/// A volume of a few directory blocks, seldom of up to 256, with at most eight different names, in any spelling. The
/// reading of most blocks ends early: at an entry that check 6 refuses, or at one whose bit 7 is clear.
pub fn broken(random: &mut Random) -> Vec<u8> {
    let blocks = match random.below(32) {
        0 => random.between(200, 256),
        1..=8 => random.between(4, 20),
        _ => random.between(1, 4),
    } as usize;
    let geometry = few_blocks(random, blocks, 1);
    let names = names(random);
    let mut files = Vec::new();
    for block in 0..blocks {
        fill_block(random, &names, block, &mut files);
    }
    let mut noise = Random::new(random.next());
    let mut image = if random.once_in(2) {
        build(&geometry, &files, &mut |_| ())
    } else {
        build(&geometry, &files, &mut |bytes| fill_quickly(&mut noise, bytes))
    };
    for block in 0..blocks {
        if !random.once_in(3) {
            end_early(random, &mut image, block);
        }
    }
    image
}

fn names(random: &mut Random) -> Vec<Vec<u8>> {
    let name = |random: &mut Random| {
        let length = match random.below(12) {
            0 => random.between(32, 255),
            1 => random.between(13, 31),
            _ => random.between(1, 12),
        };
        (0..length).map(|_| random.byte()).collect()
    };
    (0..random.between(1, 8)).map(|_| name(random)).collect()
}

/// Puts files into a block until it is full, or for a while; at times the last one just fills it.
fn fill_block(random: &mut Random, names: &[Vec<u8>], block: usize, files: &mut Vec<(usize, FileSpec)>) {
    let mut room = 512;
    while room >= 52 && !random.once_in(12) {
        let mut name = names[random.index(names.len())].clone();
        respell(random, &mut name);
        if room <= 306 && random.once_in(4) {
            name.resize(room - 51 - random.index(2).min(room - 52), b'n');
        }
        let file = file(random, files.len() as u32 + 1, &name);
        if file.size() > room {
            break;
        }
        room -= file.size();
        files.push((block, file));
    }
}

/// Makes an entry of a block a bad one or one whose bit 7 is clear, or begins one behind the last.
fn end_early(random: &mut Random, image: &mut [u8], block: usize) {
    let start = (usize::from(get2(image, 1038)) + block) * 512;
    let (mut entries, mut at) = (Vec::new(), start);
    while at < start + 512 && image[at] & 0x80 != 0 {
        entries.push(at);
        at += (51 + usize::from(image[at + 50])).div_ceil(2) * 2;
    }
    let left = start + 512 - at;
    if left > 0 && (entries.is_empty() || random.once_in(if left < 52 { 2 } else { 6 })) {
        image[at] = 0x80 | random.byte();
        if left >= 52 {
            image[at + 1] = 0;
            image[at + 50] = [0, 1, left - 51, left - 50, 255][random.index(5)].min(255) as u8;
        }
        return;
    }
    let at = entries[random.index(entries.len())];
    let left = start + 512 - at;
    match random.below(5) {
        0 => image[at + 1] = [1, 0x80, 0xFF, random.byte()][random.index(4)],
        1 => image[at + 50] = 0,
        2 => image[at + 50] = [left - 51, left - 50][random.index(2)].min(255) as u8,
        3 => image[at + 50] = 255,
        _ => image[at] &= 0x7F,
    }
}

#[cfg(test)]
mod tests {
    use super::*;

    /// How the reading of a block ends.
    const ENDS: [&str; 6] = [
        "at the block's end",
        "at a clear bit 7",
        "too few bytes left for a name",
        "another version",
        "no name",
        "a name that crosses the block",
    ];

    fn end(block: &[u8]) -> usize {
        let mut at = 0;
        while at < 512 {
            if block[at] < 0x80 {
                return 1;
            }
            if at + 52 > 512 {
                return 2;
            }
            let name = usize::from(block[at + 50]);
            match (block[at + 1], name) {
                (1.., _) => return 3,
                (_, 0) => return 4,
                _ if at + 51 + name > 512 => return 5,
                _ => at += (51 + name).div_ceil(2) * 2,
            }
        }
        0
    }

    #[test]
    fn blocks_end_in_every_way() {
        let mut random = Random::new(1);
        let mut ends = [0; ENDS.len()];
        let mut long = 0;
        for _ in 0..1_000 {
            let image = broken(&mut random);
            let (start, length) = (usize::from(get2(&image, 1038)), usize::from(get2(&image, 1040)));
            long += u32::from(length > 200);
            // of the longest directories the first blocks will do
            for block in image[start * 512..].chunks(512).take(length.min(20)) {
                ends[end(block)] += 1;
            }
        }
        for (way, count) in ENDS.iter().zip(ends) {
            assert!(count > 200, "{way}: {ends:?}");
        }
        assert!(long > 15, "{long}");
    }
}
