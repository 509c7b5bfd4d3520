//! Quick find, request T-08: a name looked up by checks 1 to 4 and the directory blocks up to the one that has it.

use super::directory::split_entry;
use super::layout::{copy_entry, name_at, LOGICAL_BLOCK};
use super::names::equal;
use super::volume::{check_facts, check_name, image_blocks};
use super::{Entry, Facts, Name, Refusal};

/// What quick find gives back.
#[derive(Clone, Debug, PartialEq, Eq)]
pub struct Quick {
    /// The place of the name over the entries read, and its entry.
    pub found: Result<(u64, Entry<Name>), Refusal>,
    /// How many directory blocks were looked at: 0 beside every refusal but `NoSuchFile`.
    pub looked: u16,
}

/// The place and the entry of a name, on a volume that is not checked beyond 1 to 4.
pub fn quick_find(image: &[u8], name: &[u8]) -> Quick {
    match checked_facts(image, name) {
        Ok(facts) => search(image, &facts, name),
        Err(refusal) => Quick {
            found: Err(refusal),
            looked: 0,
        },
    }
}

/// Checks 1 to 4 and 12, and the volume information.
fn checked_facts(image: &[u8], name: &[u8]) -> Result<Facts, Refusal> {
    let blocks = image_blocks(image)?;
    let facts = Facts::read(image);
    check_facts(&facts, blocks)?;
    check_name(name)?;
    Ok(facts)
}

/// Reads the directory blocks one after another. The reading of a block stops at an entry that check 6 would refuse.
fn search(image: &[u8], facts: &Facts, name: &[u8]) -> Quick {
    let start = usize::from(facts.directory_start) * LOGICAL_BLOCK;
    let blocks = &image[start..start + usize::from(facts.directory_length) * LOGICAL_BLOCK];
    let mut place = 0;
    for (block, looked) in blocks.chunks_exact(LOGICAL_BLOCK).zip(1..) {
        let mut rest = block;
        while let Ok(Some((entry, behind))) = split_entry(rest) {
            if equal(name_at(entry, 0), name) {
                let found = Ok((place, copy_entry(entry, 0)));
                return Quick { found, looked };
            }
            place += 1;
            rest = behind;
        }
    }
    Quick {
        found: Err(Refusal::NoSuchFile),
        looked: facts.directory_length,
    }
}

#[cfg(test)]
mod tests {
    use super::super::layout::read_entry;
    use super::super::{check, find};
    use super::*;
    use crate::images;

    const DIRECTORY: usize = 4 * 512;

    /// Twelve directory blocks of nine files, W0000 to W0107, each entry of 56 bytes.
    fn files_108() -> Vec<u8> {
        images::shapes().swap_remove(1).1
    }

    fn entry_of(file: usize) -> usize {
        DIRECTORY + file / 9 * 512 + file % 9 * 56
    }

    fn name_of(file: usize) -> Vec<u8> {
        format!("w{file:04}").into_bytes()
    }

    /// The place, the file number and the count; or the number of the refusal and the count.
    fn quick(image: &[u8], name: &[u8]) -> Result<(u64, u32, u16), (u8, u16)> {
        let Quick { found, looked } = quick_find(image, name);
        match found {
            Ok((place, entry)) => Ok((place, entry.number, looked)),
            Err(refusal) => Err((refusal.number(), looked)),
        }
    }

    /// The answer for a file of the 108.
    fn at(place: usize, file: usize) -> Result<(u64, u32, u16), (u8, u16)> {
        Ok((place as u64, file as u32 + 1, file as u16 / 9 + 1))
    }

    #[test]
    fn every_file_is_found_as_find_does() {
        let image = files_108();
        for file in 0..108 {
            assert_eq!(quick(&image, &name_of(file)), at(file, file));
            let (place, at) = (file as u64, entry_of(file));
            assert_eq!(find(&image, &name_of(file)), Ok((place, read_entry(&image, at))));
            assert_eq!(
                quick_find(&image, &name_of(file)).found,
                Ok((place, copy_entry(&image, at)))
            );
        }
        for absent in [&b"W0108"[..], b"W000", b"W00000", &[b'n'; 255]] {
            assert_eq!(quick(&image, absent), Err((13, 12)));
        }
        let hall = images::hall();
        assert_eq!(quick(&hall, b"rates"), Ok((1, 2, 1)));
        assert_eq!(quick(&hall, b"tariff"), Err((13, 1)));
    }

    #[test]
    fn a_name_stands_by_itself() {
        let mut image = images::hall();
        let (_, rates) = quick_find(&image, b"rates").found.unwrap();
        image[DIRECTORY + 56 + 50] = 255;
        image[DIRECTORY + 56 + 51..][..255].fill(b'Z');
        let (_, longest) = quick_find(&image, &[b'z'; 255]).found.unwrap();
        assert_eq!((rates.name.length, longest.name.length), (5, 255));
        assert_eq!(rates.name.bytes, *[&b"RATES"[..], &[0; 250]].concat());
        assert_eq!(longest.name.bytes, [b'Z'; 255]);
    }

    #[test]
    fn a_block_is_read_up_to_an_entry_that_6_refuses() {
        for (field, byte) in [(1, 1), (1, 0x80), (50, 0), (50, 255)] {
            let mut image = files_108();
            image[entry_of(9 + 5) + field] = byte;
            assert_eq!(check(&image), Err(Refusal::DirectoryEntry));
            for file in 0..108 {
                let wanted = match file {
                    0..14 => at(file, file),
                    14..18 => Err((13, 12)),
                    _ => at(file - 4, file),
                };
                assert_eq!(quick(&image, &name_of(file)), wanted, "{field} {byte} {file}");
            }
        }
    }

    #[test]
    fn a_block_is_read_to_its_end() {
        let mut image = files_108();
        // eight bytes are left behind the nine entries of a block
        for byte in [0x80, 0xFF, 0x7F, 0] {
            image[entry_of(8) + 56] = byte;
            assert_eq!(quick(&image, b"w0008"), at(8, 8));
            assert_eq!(quick(&image, b"w0009"), at(9, 9));
        }
        // bit 7 is clear, and what is behind is no entry
        image[entry_of(3)] = 0x7F;
        assert_eq!(quick(&image, b"w0002"), at(2, 2));
        assert_eq!(quick(&image, b"w0004"), Err((13, 12)));
        assert_eq!(quick(&image, b"w0009"), at(3, 9));
        // an entry that fills its block, and one that has two bytes too many
        let mut image = images::hall();
        image[DIRECTORY + 56 + 50] = 255;
        image[DIRECTORY + 56 + 306] = 0x80;
        image[DIRECTORY + 56 + 306 + 50] = 99;
        image[DIRECTORY + 56 + 306 + 51..DIRECTORY + 512].fill(b'Z');
        assert_eq!(quick(&image, &[b'z'; 99]), Ok((2, 0, 1)));
        image[DIRECTORY + 56 + 306 + 50] = 100;
        assert_eq!(quick(&image, &[b'z'; 100]), Err((13, 1)));
    }

    #[test]
    fn the_first_of_equal_names_counts() {
        let mut image = files_108();
        for twin in [7, 30, 107] {
            image[entry_of(twin) + 51..][..5].copy_from_slice(b"W0004");
        }
        assert_eq!(check(&image), Err(Refusal::Files));
        assert_eq!(quick(&image, b"w0004"), at(4, 4));
        image[entry_of(4) + 1] = 1;
        assert_eq!(quick(&image, b"w0004"), at(25, 30));
        image[entry_of(28) + 50] = 0;
        assert_eq!(quick(&image, b"w0004"), at(94, 107));
        image[entry_of(99) + 1] = 1;
        assert_eq!(quick(&image, b"w0004"), Err((13, 12)));
    }

    #[test]
    fn the_volume_is_checked_by_1_to_4_before_12() {
        let mut image = files_108();
        for length in [0, 256] {
            assert_eq!(quick(&image, &vec![b'n'; length]), Err((12, 0)));
        }
        for (at, byte, number) in [(1060, 28, 4), (1041, 0, 3), (1024, 0, 2)] {
            image[at] = byte;
            for name in [&b"w0004"[..], b"none", b""] {
                assert_eq!(quick(&image, name), Err((number, 0)));
            }
        }
        for length in [0, 7 * 512, 8 * 512 + 1] {
            assert_eq!(quick(&image[..length], b""), Err((1, 0)));
        }
    }

    #[test]
    fn nothing_else_counts() {
        let good = files_108();
        for (name, blocks) in [
            (&b"w0008"[..], 1),
            (b"w0049", 6),
            (b"w0107", 12),
            (b"none", 12),
            (b"", 0),
        ] {
            let mut image: Vec<u8> = good.iter().map(|byte| !byte).collect();
            for kept in [1024..1088, DIRECTORY..DIRECTORY + blocks * 512] {
                image[kept.clone()].copy_from_slice(&good[kept]);
            }
            assert_eq!(quick(&image, name), quick(&good, name));
        }
    }
}
