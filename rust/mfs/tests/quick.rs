//! Quick find on the disk WATER: the same as find on the disk as it is; on damaged copies what is read of the
//! directory, that nothing else is read, and refusals.

#![allow(clippy::unwrap_used, clippy::expect_used, clippy::indexing_slicing)]

use mfs::{quick_find, unwrap, wrap, Refusal, Volume};

/// The directory has blocks 4 to 15.
const DIRECTORY: usize = 4 * 512;
const LENGTH: usize = 12;

fn water() -> Vec<u8> {
    let path = concat!(env!("CARGO_MANIFEST_DIR"), "/../../samples/water.img");
    std::fs::read(path).expect("the disk WATER")
}

/// Where the entries of each directory block of a sound disk begin.
fn blocks(image: &[u8]) -> Vec<Vec<usize>> {
    (0..LENGTH)
        .map(|block| {
            let start = DIRECTORY + block * 512;
            let (mut at, mut entries) = (start, Vec::new());
            while at < start + 512 && image[at] & 0x80 != 0 {
                entries.push(at);
                at += (51 + usize::from(image[at + 50])).next_multiple_of(2);
            }
            entries
        })
        .collect()
}

fn name_at(image: &[u8], at: usize) -> Vec<u8> {
    image[at + 51..][..usize::from(image[at + 50])].to_vec()
}

/// The place of a name, and how many blocks were looked at.
fn found(image: &[u8], name: &[u8]) -> (u64, u16) {
    let found = quick_find(image, name).expect("the name is found");
    assert!(found.entry.name.eq_ignore_ascii_case(name));
    (found.place, found.looked)
}

/// The number of a refusal, and how many blocks were looked at.
fn refused(image: &[u8], name: &[u8]) -> (u8, u16) {
    let refused = quick_find(image, name).expect_err("a refusal");
    (refused.refusal.number(), refused.looked)
}

#[test]
fn as_find_on_a_sound_disk() {
    let image = water();
    let blocks = blocks(&image);
    assert_eq!(blocks.iter().flatten().count(), 35);
    assert!(blocks[0].len() > 1 && blocks[1].len() > 1);
    for (entries, looked) in blocks.iter().zip(1..) {
        for &at in entries {
            for name in [
                name_at(&image, at).to_ascii_uppercase(),
                name_at(&image, at).to_ascii_lowercase(),
            ] {
                let (place, entry) = Volume::Bare.find(&image, &name).unwrap();
                let quick = quick_find(&image, &name).unwrap();
                assert_eq!((quick.place, &quick.entry, quick.looked), (place, &entry, looked));
            }
        }
    }
    assert_eq!(quick_find(&image, b"RELEV\x83S 1984").unwrap().entry.number, 2);
    for absent in [&b"Week 33"[..], b"Week 3", b"Relev\x8Fs 1984", &[b'n'; 255]] {
        assert_eq!(refused(&image, absent), (13, 12));
    }
}

#[test]
fn refusals_in_order() {
    let good = water();
    for length in [0, 256] {
        assert_eq!(refused(&good, &vec![b'n'; length]), (12, 0));
    }
    // the volume's name, the directory's length, the signature: each comes before those before it, and all before 12
    let mut image = good.clone();
    for (at, byte, number) in [(1060, 28, 4), (1041, 0, 3), (1024, 0xD1, 2)] {
        image[at] = byte;
        for name in [&b"Log"[..], b"none", b""] {
            assert_eq!(refused(&image, name), (number, 0));
        }
    }
    for length in [0, 1, 3584, 4095, image.len() - 1] {
        assert_eq!(refused(&good[..length], b""), (1, 0));
    }
    let refused = quick_find(&good, b"none").expect_err("a refusal");
    assert_eq!(refused.to_string(), "refused 13: no such file or place");
    assert_eq!(Refusal::from(refused).number(), 13);
}

#[test]
fn disks_that_check_refuses() {
    let good = water();
    let at = blocks(&good)[0][0];
    // the map, the number of files, a file number, a fork's start, the free count
    for (byte, number) in [(1088, 5), (1037, 7), (at + 21, 7), (at + 23, 8), (1059, 10)] {
        let mut image = good.clone();
        image[byte] ^= 0xFF;
        assert_eq!(Volume::Bare.check(&image).map_err(Refusal::number), Err(number));
        assert_eq!(found(&image, b"Log"), found(&good, b"Log"));
        assert_eq!(refused(&image, b"none"), (13, 12));
    }
}

/// Changes of an entry that check 6 refuses: its version, no name, a name beyond the block.
const BAD: [(usize, u8); 3] = [(1, 1), (50, 0), (50, 255)];

#[test]
fn a_block_is_read_up_to_a_bad_entry() {
    let good = water();
    let blocks = blocks(&good);
    for (field, byte) in BAD {
        for read in 0..blocks[0].len() {
            if byte == 255 && blocks[0][read] + 51 + 255 <= DIRECTORY + 512 {
                // a name so long does not cross the block
                continue;
            }
            let mut image = good.clone();
            image[blocks[0][read] + field] = byte;
            assert_eq!(Volume::Bare.check(&image).map_err(Refusal::number), Err(6));
            for (place, &at) in blocks[0].iter().enumerate() {
                let name = name_at(&good, at);
                if place < read {
                    assert_eq!(found(&image, &name), (place as u64, 1));
                } else {
                    assert_eq!(refused(&image, &name), (13, 12));
                }
            }
            // places are counted over the entries read
            for (i, &at) in blocks[1].iter().enumerate() {
                assert_eq!(found(&image, &name_at(&good, at)), ((read + i) as u64, 2));
            }
        }
    }
}

#[test]
fn the_first_of_two_equal_names() {
    let good = water();
    let blocks = blocks(&good);
    let name = name_at(&good, blocks[1][0]);
    let behind = blocks.iter().flatten().copied().filter(|&at| at > blocks[1][0]);
    let twin = behind
        .max_by_key(|&at| (name_at(&good, at).len() == name.len(), at))
        .unwrap();
    let mut image = good.clone();
    image[twin + 51..][..name.len()].copy_from_slice(&name.to_ascii_lowercase());
    assert_eq!(Volume::Bare.check(&image).map_err(Refusal::number), Err(7));
    assert_eq!(found(&image, &name), (blocks[0].len() as u64, 2));
    // the second, where the first is not read
    image[blocks[1][0] + 1] = 7;
    let looked = (twin - DIRECTORY) / 512 + 1;
    assert_eq!(usize::from(found(&image, &name).1), looked);
}

#[test]
fn nothing_else_is_read() {
    let good = water();
    let kept = |looked: u16| {
        let directory = DIRECTORY..DIRECTORY + 512 * usize::from(looked);
        let other = |(at, &byte): (usize, &u8)| {
            let kept = (1024..1088).contains(&at) || directory.contains(&at);
            if kept {
                byte
            } else {
                !byte
            }
        };
        good.iter().enumerate().map(other).collect::<Vec<u8>>()
    };
    for at in blocks(&good).into_iter().flatten() {
        let name = name_at(&good, at);
        let answer = quick_find(&good, &name).unwrap();
        assert_eq!(quick_find(&kept(answer.looked), &name), Ok(answer));
    }
    assert_eq!(refused(&kept(12), b"none"), (13, 12));
    assert_eq!(refused(&kept(0), b""), (12, 0));
}

#[test]
fn a_wrapped_file_is_no_image() {
    let file = wrap(&water(), b"", 2).unwrap();
    for name in [&b"Log"[..], b"none", b""] {
        assert_eq!(refused(&file, name), (1, 0));
    }
    assert_eq!(found(unwrap(&file).unwrap(), b"Log"), found(&water(), b"log"));
}
