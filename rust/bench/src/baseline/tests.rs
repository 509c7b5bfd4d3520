//! Document 01's worked disk and its cases P1 to P12, what the cases leave out, and document 02's names, renames and
//! clumps.

use super::map::decode_map;
use super::*;
use crate::images;

const DIRECTORY: usize = 4 * 512;
const DATE: u32 = 2_600_000_000;

fn map_bytes(image: &[u8]) -> &[u8] {
    &image[MAP..MAP + 8]
}

fn free(image: &[u8]) -> u16 {
    check(image).expect("an accepted volume").free_blocks
}

fn chain_of(image: &[u8], name: &[u8]) -> Vec<u16> {
    (0..)
        .map_while(|place| block(image, name, Fork::Data, place).ok())
        .collect()
}

/// HALL with a third file, which has no forks. Its name may be longer than a new one.
fn hall_with(name: &[u8]) -> Vec<u8> {
    let mut image = images::hall();
    let entry = &mut image[DIRECTORY + 112..DIRECTORY + 512];
    entry[entry_at::FLAGS] = IN_USE;
    put_u32(entry, entry_at::NUMBER, 3);
    entry[entry_at::NAME_LENGTH] = name.len() as u8;
    entry[entry_at::NAME..][..name.len()].copy_from_slice(name);
    put_u16(&mut image, volume_at::FILES, 3);
    put_u32(&mut image, volume_at::NEXT_NUMBER, 4);
    image
}

/// The change refused, with nothing changed.
fn refused(change: impl Fn(&mut [u8]) -> Result<(), Refusal>) -> u8 {
    let before = images::hall();
    let mut image = before.clone();
    let refusal = change(&mut image).expect_err("a refusal");
    assert_eq!(image, before);
    refusal.number()
}

#[test]
fn hall_is_listed() {
    let image = images::hall();
    let facts = check(&image).unwrap();
    assert_eq!(&facts.name[..4], b"HALL");
    assert_eq!((facts.files, facts.free_blocks, facts.allocation_blocks), (2, 2, 5));
    let week = entry(&image, 0).unwrap();
    assert_eq!((week.number, week.name), (1, &b"WEEK1"[..]));
    assert_eq!((week.data.logical, week.resource.logical), (700, 0));
    assert_eq!((week.created, week.changed), (2_500_000_000, 2_500_600_000));
    let rates = entry(&image, 1).unwrap();
    assert_eq!((rates.number, rates.name), (2, &b"RATES"[..]));
    assert_eq!((rates.data.logical, rates.resource.logical), (512, 0));
    assert_eq!((rates.created, rates.changed), (2_500_000_000, 2_500_000_000));
    assert_eq!(entry(&image, 2), Err(Refusal::NoSuchFile));
    assert_eq!(entry(&image, u64::MAX), Err(Refusal::NoSuchFile));
}

#[test]
fn p1_pairs_of_map_entries() {
    let mut image = vec![0; 2048];
    image[MAP..MAP + 3].copy_from_slice(&[0xAB, 0xCD, 0xEF]);
    assert_eq!(decode_map(&image, 2), Err(Refusal::MapEntry));
    image[MAP..MAP + 3].copy_from_slice(&[0x00, 0x30, 0x02]);
    assert_eq!(&decode_map(&image, 2).unwrap()[2..4], &[3, 2]);
    put_map_entry(&mut image, 2, 0xABC);
    assert_eq!(&image[MAP..MAP + 3], &[0xAB, 0xC0, 0x02]);
    put_map_entry(&mut image, 3, 0xDEF);
    assert_eq!(&image[MAP..MAP + 3], &[0xAB, 0xCD, 0xEF]);
}

#[test]
fn p2_map_of_hall() {
    assert_eq!(
        map_bytes(&images::hall()),
        [0x00, 0x40, 0x01, 0x00, 0x10, 0x00, 0x00, 0x00]
    );
}

#[test]
fn p3_write_takes_the_lowest_free_block() {
    let mut image = images::hall();
    let bytes: Vec<u8> = (0..400).map(|i| i as u8).collect();
    write(&mut image, b"WEEK1", Fork::Data, 700, &bytes, DATE).unwrap();
    assert_eq!(&map_bytes(&image)[..6], [0x00, 0x40, 0x01, 0x00, 0x50, 0x01]);
    assert_eq!(free(&image), 1);
    assert_eq!(chain_of(&image, b"WEEK1"), [2, 4, 5]);
    let (_, week) = find(&image, b"WEEK1").unwrap();
    assert_eq!((week.data.logical, week.data.physical), (1100, 1536));
    assert_eq!(week.changed, DATE);
    let mut buffer = [9; 500];
    assert_eq!(read(&image, b"week1", Fork::Data, 700, &mut buffer), Ok(400));
    assert_eq!(&buffer[..400], &bytes[..]);
    assert_eq!(&buffer[400..], &[9; 100]);
}

#[test]
fn p4_write_takes_all() {
    let mut image = images::hall();
    write(&mut image, b"WEEK1", Fork::Data, 700, &[1; 1348], DATE).unwrap();
    assert_eq!(chain_of(&image, b"WEEK1"), [2, 4, 5, 6]);
    assert_eq!(free(&image), 0);
}

#[test]
fn p5_write_beyond_the_free_blocks() {
    assert_eq!(
        refused(|image| write(image, b"WEEK1", Fork::Data, 700, &[1; 1349], DATE)),
        17
    );
}

#[test]
fn p6_write_of_nothing() {
    let mut image = images::hall();
    write(&mut image, b"WEEK1", Fork::Data, 700, &[], DATE).unwrap();
    let mut dated = images::hall();
    put_u32(&mut dated, DIRECTORY + entry_at::CHANGED, DATE);
    assert_eq!(image, dated);
    assert_eq!(refused(|image| write(image, b"WEEK1", Fork::Data, 701, &[], DATE)), 16);
}

#[test]
fn p7_and_p8_cuts() {
    let mut image = images::hall();
    cut(&mut image, b"WEEK1", Fork::Data, 513, DATE).unwrap();
    assert_eq!(chain_of(&image, b"WEEK1"), [2, 4]);
    assert_eq!(free(&image), 2);
    let mut image = images::hall();
    cut(&mut image, b"WEEK1", Fork::Data, 512, DATE).unwrap();
    assert_eq!(&map_bytes(&image)[..6], [0x00, 0x10, 0x01, 0x00, 0x00, 0x00]);
    assert_eq!(free(&image), 3);
    cut(&mut image, b"WEEK1", Fork::Data, 0, DATE).unwrap();
    let (_, week) = find(&image, b"WEEK1").unwrap();
    assert_eq!(
        week.data,
        ForkFacts {
            start: 0,
            logical: 0,
            physical: 0
        }
    );
    assert_eq!(refused(|image| cut(image, b"WEEK1", Fork::Data, 701, DATE)), 16);
}

#[test]
fn p9_delete() {
    let mut image = images::hall();
    delete(&mut image, b"RATES").unwrap();
    assert_eq!(&map_bytes(&image)[..6], [0x00, 0x40, 0x00, 0x00, 0x10, 0x00]);
    assert!(image[DIRECTORY + 56..DIRECTORY + 512].iter().all(|&b| b == 0));
    assert_eq!(check(&image).unwrap().files, 1);
    assert_eq!(free(&image), 3);
    let mut image = images::hall();
    let rates = image[DIRECTORY + 56..DIRECTORY + 112].to_vec();
    delete(&mut image, b"WEEK1").unwrap();
    assert_eq!(&image[DIRECTORY..DIRECTORY + 56], &rates[..]);
    assert!(image[DIRECTORY + 56..DIRECTORY + 512].iter().all(|&b| b == 0));
}

#[test]
fn p10_names_without_case() {
    let image = images::hall();
    assert_eq!(find(&image, b"week1").unwrap().0, 0);
    assert_eq!(refused(|image| create(image, b"week1", &[0; 16], 1, 2)), 14);
    assert_eq!(find(&image, b""), Err(Refusal::NameLength));
    assert_eq!(find(&image, &[b'x'; 256]), Err(Refusal::NameLength));
    assert_eq!(find(&image, &[b'x'; 255]), Err(Refusal::NoSuchFile));
}

#[test]
fn p11_and_p12_refused_volumes() {
    let mut image = images::hall();
    put_u16(&mut image, volume_at::FREE_BLOCKS, 3);
    assert_eq!(check(&image), Err(Refusal::FreeCount));
    let mut image = images::hall();
    put_map_entry(&mut image, 4, 2);
    assert_eq!(check(&image), Err(Refusal::Fork));
}

#[test]
fn create_stores_an_entry() {
    let mut image = images::hall();
    image[DIRECTORY + 112..DIRECTORY + 512].fill(0x7F);
    create(&mut image, b"Tariff", &[5; 16], 8, 9).unwrap();
    let (place, entry) = find(&image, b"TARIFF").unwrap();
    assert_eq!(place, 2);
    assert_eq!((entry.flags, entry.version, entry.number), (0x80, 0, 3));
    assert_eq!((entry.finder, entry.created, entry.changed), ([5; 16], 8, 9));
    assert!(image[DIRECTORY + 112 + 57..DIRECTORY + 512].iter().all(|&b| b == 0));
    let facts = check(&image).unwrap();
    assert_eq!((facts.files, facts.next_number), (3, 4));
    for letter in b'1'..=b'4' {
        assert_eq!(
            create(&mut image, &[letter; 31], &[0; 16], 1, 1),
            Ok(()),
            "342 bytes were left, and each takes 82"
        );
    }
    assert_eq!(create(&mut image, b"NO", &[0; 16], 1, 1), Err(Refusal::DirectoryFull));
}

#[test]
fn locks_and_used_up_numbers() {
    for attributes in [0x0080, 0x8000] {
        let mut image = images::hall();
        put_u16(&mut image, volume_at::ATTRIBUTES, attributes);
        assert_eq!(delete(&mut image, b""), Err(Refusal::VolumeLocked));
    }
    let mut image = images::hall();
    image[DIRECTORY] |= 1;
    assert_eq!(delete(&mut image, b"WEEK1"), Err(Refusal::FileLocked));
    let mut image = images::hall();
    put_u32(&mut image, volume_at::NEXT_NUMBER, u32::MAX);
    assert_eq!(
        create(&mut image, &[b'n'; 31], &[0; 16], 1, 1),
        Err(Refusal::NumbersUsedUp)
    );
}

#[test]
fn a_new_name_has_at_most_31_bytes() {
    for (length, number) in [(0, 12), (32, 21), (254, 21), (255, 21), (256, 12)] {
        let name = vec![b'n'; length];
        assert_eq!(refused(|image| create(image, &name, &[0; 16], 1, 2)), number);
    }
    let mut image = images::hall();
    assert_eq!(create(&mut image, &[b'n'; 31], &[0; 16], 1, 1), Ok(()));
}

#[test]
fn long_new_names_are_refused_behind_11_and_before_14_19_and_18() {
    let long = [b'n'; 32];
    let mut locked = images::hall();
    put_u16(&mut locked, volume_at::ATTRIBUTES, 0x8000);
    let mut used_up = images::hall();
    put_u32(&mut used_up, volume_at::NEXT_NUMBER, u32::MAX);
    let mut full = hall_with(&[b'f'; 255]);
    create(&mut full, &[b'g'; 31], &[0; 16], 1, 1).unwrap();
    let rows = [
        (locked, Refusal::VolumeLocked),
        (hall_with(&long), Refusal::NameTooLong),
        (used_up, Refusal::NameTooLong),
        (full, Refusal::NameTooLong),
    ];
    for (mut image, refusal) in rows {
        let before = image.clone();
        assert_eq!(create(&mut image, &long, &[0; 16], 1, 1), Err(refusal));
        assert_eq!(image, before);
    }
}

#[test]
fn an_old_name_may_be_longer() {
    for length in [32, 254, 255] {
        let name = vec![b'n'; length];
        let mut image = hall_with(&name);
        assert_eq!(entry(&image, 2).unwrap().name, name);
        assert_eq!(find(&image, &name.to_ascii_uppercase()).unwrap().0, 2);
        write(&mut image, &name, Fork::Data, 0, &[7; 600], DATE).unwrap();
        assert_eq!(chain_of(&image, &name), [5, 6]);
        let mut buffer = [0; 700];
        assert_eq!(read(&image, &name, Fork::Data, 0, &mut buffer), Ok(600));
        assert_eq!(buffer[..600], [7; 600]);
        cut(&mut image, &name, Fork::Data, 512, DATE).unwrap();
        assert_eq!(chain_of(&image, &name), [5]);
        delete(&mut image, &name).unwrap();
        assert_eq!(find(&image, &name), Err(Refusal::NoSuchFile));
        assert_eq!(free(&image), 2);
    }
}

#[test]
fn accents_in_both_spellings() {
    // "Été" and "été"
    for (name, other) in [(b"\x83t\x8E", b"\x8Et\x8E"), (b"\x8Et\x8E", b"\x83t\x8E")] {
        let mut image = hall_with(name);
        assert_eq!(find(&image, other).unwrap().0, 2);
        assert_eq!(create(&mut image, other, &[0; 16], 1, 2), Err(Refusal::NameExists));
        assert_eq!(image, hall_with(name));
        write(&mut image, other, Fork::Data, 0, &[7; 600], DATE).unwrap();
        let mut buffer = [0; 700];
        assert_eq!(read(&image, other, Fork::Data, 0, &mut buffer), Ok(600));
        cut(&mut image, other, Fork::Data, 512, DATE).unwrap();
        assert_eq!(chain_of(&image, other), [5]);
        delete(&mut image, other).unwrap();
        assert_eq!(check(&image).map(|facts| facts.files), Ok(2));
    }
}

#[test]
fn two_spellings_are_refused_by_7_and_near_misses_are_not() {
    // è and È, Æ, Ñ
    for miss in [0x8F, 0xE9, 0xAE, 0x84] {
        let mut image = hall_with(b"\x8E");
        create(&mut image, &[miss], &[0; 16], 1, 2).unwrap();
        assert_eq!(check(&image).map(|facts| facts.files), Ok(4));
        let name = DIRECTORY + 112 + entry_size(1) + entry_at::NAME;
        assert_eq!(image[name], miss);
        image[name] = 0x83;
        assert_eq!(check(&image), Err(Refusal::Files));
    }
}

#[test]
fn a_renamed_entry_of_the_same_size_stays() {
    for name in [&b"WEEK1"[..], b"week1", b"WEEK9", b"four", b"\0\xFF\x8E "] {
        let mut image = images::hall();
        image[DIRECTORY + 112..DIRECTORY + 512].fill(0x7F);
        let mut wanted = image.clone();
        let entry = &mut wanted[DIRECTORY..DIRECTORY + 56];
        put_u32(entry, entry_at::CHANGED, DATE);
        entry[entry_at::NAME_LENGTH] = name.len() as u8;
        entry[entry_at::NAME..].fill(0);
        entry[entry_at::NAME..][..name.len()].copy_from_slice(name);
        rename(&mut image, b"Week1", name, DATE).unwrap();
        assert_eq!(image, wanted);
    }
    let mut image = hall_with(b"four");
    image[DIRECTORY + 112 + 55] = 0xEE;
    rename(&mut image, b"four", b"FOUR", 0).unwrap();
    assert_eq!(image[DIRECTORY + 112 + 50..][..6], *b"\x04FOUR\0");
}

#[test]
fn a_renamed_entry_of_another_size_goes_behind_the_last() {
    let mut image = images::hall();
    image[DIRECTORY + 112..DIRECTORY + 512].fill(0x7F);
    image[DIRECTORY] = 0xFE;
    let mut wanted = image.clone();
    wanted[DIRECTORY..DIRECTORY + 512].fill(0);
    wanted[DIRECTORY..][..56].copy_from_slice(&image[DIRECTORY + 56..][..56]);
    wanted[DIRECTORY + 56..][..46].copy_from_slice(&image[DIRECTORY..][..46]);
    put_u32(&mut wanted, DIRECTORY + 56 + entry_at::CHANGED, DATE);
    wanted[DIRECTORY + 56 + 50..][..11].copy_from_slice(b"\x0AWEEK30 BAD");
    rename(&mut image, b"WEEK1", b"WEEK30 BAD", DATE).unwrap();
    assert_eq!(image, wanted);
    assert_eq!(chain_of(&image, b"week30 bad"), [2, 4]);
}

#[test]
fn a_renamed_entry_goes_to_the_first_block_with_room_once_it_is_out() {
    // nine entries of 56 bytes in each of twelve blocks: 8 bytes are left there, and 64 once the file is out
    let mut image = images::shapes().swap_remove(1).1;
    let place = |image: &[u8], name: &[u8]| find(image, name).unwrap().0;
    let zero = |image: &[u8], block: usize, from: usize| {
        let block = &image[DIRECTORY + 512 * block..][..512];
        block[from..].iter().all(|&byte| byte == 0)
    };
    let before = image.clone();
    assert_eq!(
        rename(&mut image, b"W0020", &[b'a'; 14], DATE),
        Err(Refusal::DirectoryFull)
    );
    assert_eq!(image, before);
    // in its own block
    rename(&mut image, b"W0020", &[b'a'; 13], DATE).unwrap();
    assert_eq!((place(&image, &[b'a'; 13]), place(&image, b"W0021")), (26, 20));
    // in an earlier one
    delete(&mut image, b"W0003").unwrap();
    rename(&mut image, b"W0107", &[b'b'; 13], DATE).unwrap();
    assert_eq!(place(&image, &[b'b'; 13]), 8);
    assert!(zero(&image, 11, 448));
    // in a later one
    delete(&mut image, b"W0106").unwrap();
    rename(&mut image, b"W0010", &[b'c'; 14], DATE).unwrap();
    assert_eq!(place(&image, &[b'c'; 14]), 105);
    assert!(zero(&image, 1, 448) && zero(&image, 11, 7 * 56 + 65));
    let facts = check(&image).unwrap();
    assert_eq!((facts.files, facts.next_number), (106, 109));
}

#[test]
fn renames_are_refused_in_order() {
    let long = [b'n'; 256];
    for (name, new, number) in [
        (&long[..0], &long[..0], 12),
        (&long, &long[..32], 12),
        (b"none", &long[..0], 12),
        (b"none", &long, 12),
        (b"none", &long[..32], 21),
        (b"WEEK1", &long[..255], 21),
        (b"none", b"RATES", 13),
        (b"WEEK1", b"rates", 14),
    ] {
        assert_eq!(refused(|image| rename(image, name, new, DATE)), number);
    }
    let mut locked = images::hall();
    locked[DIRECTORY] |= 1;
    for new in [&b"RATES"[..], b"week1", b"WEEK2"] {
        assert_eq!(rename(&mut locked, b"WEEK1", new, DATE), Err(Refusal::FileLocked));
    }
    put_u16(&mut locked, volume_at::ATTRIBUTES, 0x0080);
    assert_eq!(rename(&mut locked, b"", b"", DATE), Err(Refusal::VolumeLocked));
    // 12 bytes are left behind the fourth entry
    let mut full = hall_with(&[b'n'; 255]);
    create(&mut full, &[b'f'; 31], &[0; 16], 1, 1).unwrap();
    let before = full.clone();
    for (name, new, refusal) in [
        (&long[..255], &long[..255], Refusal::NameTooLong),
        (b"WEEK1", &[b'F'; 31], Refusal::NameExists),
        (b"WEEK1", &[b'w'; 18], Refusal::DirectoryFull),
    ] {
        assert_eq!(rename(&mut full, name, new, DATE), Err(refusal));
        assert_eq!(full, before);
    }
    rename(&mut full, b"WEEK1", &[b'w'; 17], DATE).unwrap();
    assert_eq!(full[DIRECTORY + 511], b'w');
}

#[test]
fn a_file_is_renamed_to_its_other_spelling() {
    let mut image = hall_with(b"\x83t\x8E");
    for name in [b"\x8Et\x8E", b"\x83T\x83"] {
        rename(&mut image, b"\x83t\x8E", name, DATE).unwrap();
        assert_eq!(entry(&image, 2).unwrap().name, name);
    }
    assert_eq!(
        rename(&mut image, b"WEEK1", b"\x8Et\x8E", DATE),
        Err(Refusal::NameExists)
    );
}

/// HALL with a clump size.
fn hall_in_clumps(size: u32) -> Vec<u8> {
    let mut image = images::hall();
    put_u32(&mut image, volume_at::CLUMP_SIZE, size);
    image
}

#[test]
fn writes_take_whole_clumps_if_so_many_are_free() {
    for (clump_size, bytes, chain) in [
        // two are free and 3 blocks are needed: rounded up to 4; a whole clump; 5 and more are too many
        (1024, 400, &[2, 4, 5, 6][..]),
        (2048, 400, &[2, 4, 5, 6]),
        (1536, 400, &[2, 4, 5]),
        (2560, 400, &[2, 4, 5]),
        (3072, 400, &[2, 4, 5]),
        (4_294_966_784, 400, &[2, 4, 5]),
        // 4 are needed, and 6 are too many
        (1536, 1348, &[2, 4, 5, 6]),
        // none is needed
        (1536, 324, &[2, 4]),
        (2048, 0, &[2, 4]),
        // a clump of one block
        (512, 400, &[2, 4, 5]),
        (0, 400, &[2, 4, 5]),
        (256, 400, &[2, 4, 5]),
        (1023, 400, &[2, 4, 5]),
        (1025, 400, &[2, 4, 5]),
        (u32::MAX, 400, &[2, 4, 5]),
    ] {
        let mut image = hall_in_clumps(clump_size);
        write(&mut image, b"WEEK1", Fork::Data, 700, &vec![1; bytes], DATE).unwrap();
        assert_eq!(chain_of(&image, b"WEEK1"), chain, "{clump_size} {bytes}");
        assert_eq!(usize::from(free(&image)), 4 - chain.len());
        let mut image = hall_in_clumps(clump_size);
        let refused = write(&mut image, b"WEEK1", Fork::Data, 700, &[1; 1349], DATE);
        assert_eq!((refused, image), (Err(Refusal::VolumeFull), hall_in_clumps(clump_size)));
    }
}

#[test]
fn a_cut_keeps_the_fewest_blocks() {
    for (size, chain) in [(1100, &[2, 4, 5][..]), (1024, &[2, 4]), (1, &[2]), (0, &[])] {
        let mut image = hall_in_clumps(1024);
        write(&mut image, b"WEEK1", Fork::Data, 700, &[1; 400], DATE).unwrap();
        cut(&mut image, b"WEEK1", Fork::Data, size, DATE).unwrap();
        assert_eq!(chain_of(&image, b"WEEK1"), chain);
        assert_eq!(usize::from(free(&image)), 4 - chain.len());
    }
}

#[test]
fn blocks_that_reach_the_backup() {
    let mut image = images::one_fork();
    assert_eq!(check(&image).map(|facts| facts.allocation_blocks), Ok(391));
    put_u16(&mut image, volume_at::ALLOCATION_BLOCKS, 392);
    assert_eq!(check(&image), Err(Refusal::Limits));
}

#[test]
fn each_shape_is_accepted() {
    for (name, image) in images::shapes().into_iter().chain(images::crowded()) {
        assert!(check(&image).is_ok(), "{name}");
    }
}
