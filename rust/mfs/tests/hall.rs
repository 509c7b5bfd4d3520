//! The library on the disk HALL: the worked cases of document 01, writes in parts and in clumps, renames, refusals, and
//! lengths of names and of the image.

#![allow(clippy::unwrap_used, clippy::expect_used, clippy::indexing_slicing)]

use mfs::{Entry, Fork, ForkFacts, Refusal, Volume};

const DATE: u32 = 2_600_000_000;

fn hall() -> Vec<u8> {
    let path = concat!(env!("CARGO_MANIFEST_DIR"), "/../../samples/hall.img");
    std::fs::read(path).expect("the disk HALL")
}

/// HALL with a third file, empty and of this name, which may be longer than a new one.
fn hall_with(name: &[u8]) -> Vec<u8> {
    let mut image = hall();
    let entry = &mut image[2048 + 112..2560];
    entry[0] = 0x80;
    entry[21] = 3;
    entry[50] = name.len() as u8;
    entry[51..51 + name.len()].copy_from_slice(name);
    image[1037] = 3;
    image[1057] = 4;
    image
}

fn blocks(image: &[u8], name: &[u8]) -> Vec<u16> {
    (0..)
        .map_while(|place| Volume::Bare.block(image, name, Fork::Data, place).ok())
        .collect()
}

/// The number of a change that must be refused and leave every byte.
fn refused(change: impl FnOnce(&mut [u8]) -> Result<(), Refusal>) -> u8 {
    let mut image = hall();
    let refusal = change(&mut image).expect_err("a refusal");
    assert_eq!(image, hall());
    refusal.number()
}

#[test]
fn facts_and_entries() {
    let image = hall();
    let facts = Volume::Bare.check(&image).unwrap();
    assert_eq!((facts.signature, facts.name.as_slice()), (0xD2D7, &b"HALL"[..]));
    assert_eq!((facts.files, facts.free_blocks, facts.allocation_blocks), (2, 2, 5));
    assert_eq!(
        (facts.directory_start, facts.directory_length, facts.allocation_start),
        (4, 1, 5)
    );
    assert_eq!((facts.block_size, facts.next_number, facts.blocks()), (512, 3, 2..=6));
    assert!(!facts.is_locked());
    let entries = Volume::Bare.entries(&image).unwrap();
    let seen: Vec<_> = entries
        .iter()
        .map(|e| (e.number, e.data.logical, e.resource.logical, &e.name[..]))
        .collect();
    assert_eq!(seen, [(1, 700, 0, &b"WEEK1"[..]), (2, 512, 0, &b"RATES"[..])]);
    assert_eq!((entries[0].created, entries[0].changed), (2_500_000_000, 2_500_600_000));
    assert_eq!(
        (entries[1].flags, entries[1].is_locked(), entries[1].finder),
        (0x80, false, [0; 16])
    );
    assert_eq!(Volume::Bare.entry(&image, 2).map_err(Refusal::number), Err(13));
    assert_eq!(Volume::Bare.entry(&image, u64::MAX).map_err(Refusal::number), Err(13));
}

#[test]
fn find_block_and_read() {
    let image = hall();
    let (place, entry) = Volume::Bare.find(&image, b"rates").unwrap();
    assert_eq!((place, entry.name.as_slice()), (1, &b"RATES"[..]));
    assert_eq!(
        (blocks(&image, b"week1"), blocks(&image, b"RATES")),
        (vec![2, 4], vec![3])
    );
    let mut buffer = [9; 800];
    assert_eq!(Volume::Bare.read(&image, b"WEEK1", Fork::Data, 1, &mut buffer), Ok(699));
    assert_eq!(buffer[699..], [9; 101]);
    assert_eq!(Volume::Bare.read(&image, b"WEEK1", Fork::Data, 700, &mut []), Ok(0));
    assert_eq!(
        Volume::Bare
            .read(&image, b"WEEK1", Fork::Resource, 1, &mut buffer)
            .map_err(Refusal::number),
        Err(16)
    );
    assert_eq!(
        Volume::Bare
            .read_all(&image, b"WEEK1", Fork::Data)
            .map(|bytes| bytes.len()),
        Ok(700)
    );
    for (name, number) in [(&b""[..], 12), (&[b'x'; 256], 12), (&[b'x'; 255], 13), (b"WEEK", 13)] {
        assert_eq!(
            Volume::Bare.find(&image, name).map_err(Refusal::number).err(),
            Some(number)
        );
    }
}

#[test]
fn writes() {
    let mut image = hall();
    let bytes: Vec<u8> = (0..400).map(|i| i as u8).collect();
    Volume::Bare
        .write(&mut image, b"WEEK1", Fork::Data, 700, &bytes, DATE)
        .unwrap();
    assert_eq!(blocks(&image, b"WEEK1"), [2, 4, 5]);
    let (_, week) = Volume::Bare.find(&image, b"WEEK1").unwrap();
    let wanted = ForkFacts {
        start: 2,
        logical: 1100,
        physical: 1536,
    };
    assert_eq!((week.fork(Fork::Data), week.changed), (wanted, DATE));
    assert_eq!(
        Volume::Bare.read_all(&image, b"WEEK1", Fork::Data).unwrap()[700..],
        bytes
    );
    Volume::Bare
        .write(&mut image, b"RATES", Fork::Resource, 0, &[7; 512], DATE)
        .unwrap();
    assert_eq!(
        Volume::Bare.read_all(&image, b"RATES", Fork::Resource).unwrap(),
        [7; 512]
    );
    assert_eq!(Volume::Bare.check(&image).unwrap().free_blocks, 0);
    assert_eq!(
        refused(|image| Volume::Bare.write(image, b"WEEK1", Fork::Data, 700, &[1; 1349], DATE)),
        17
    );
    assert_eq!(
        refused(|image| Volume::Bare.write(image, b"WEEK1", Fork::Data, 701, &[], DATE)),
        16
    );
}

/// Each part of the bytes behind an empty one, written to WEEK1 until one is refused; what they gave and left.
fn in_parts(offset: u64, bytes: &[u8], length: usize) -> (Result<(), Refusal>, Vec<u8>) {
    let (mut image, mut from) = (hall(), offset);
    for part in bytes.chunks(length).flat_map(|part| [&[], part]) {
        if let Err(refusal) = Volume::Bare.write(&mut image, b"WEEK1", Fork::Data, from, part, DATE) {
            return (Err(refusal), image);
        }
        from += part.len() as u64;
    }
    (Ok(()), image)
}

#[test]
fn writes_in_parts() {
    let bytes: Vec<u8> = (0..1349).map(|i| (i % 251) as u8).collect();
    let written = |offset, length| {
        let mut image = hall();
        Volume::Bare
            .write(&mut image, b"WEEK1", Fork::Data, offset, &bytes[..length], DATE)
            .unwrap();
        image
    };
    for (offset, length) in [(0, 1348), (511, 514), (700, 1), (700, 400), (700, 1348)] {
        for part in [1, 2, 34, 324, 512, 1347, 1348] {
            let parts = in_parts(offset, &bytes[..length], part);
            assert_eq!(parts, (Ok(()), written(offset, length)), "{offset} {length} {part}");
        }
    }
    for part in [1, 400, 949, 1348] {
        let (given, left) = in_parts(700, &bytes, part);
        assert_eq!(given.map_err(Refusal::number), Err(17));
        assert_eq!(left, written(700, 1348 / part * part), "{part}");
    }
    let (given, left) = in_parts(701, &bytes, 400);
    assert_eq!((given.map_err(Refusal::number), left), (Err(16), hall()));
}

/// HALL with a clump size, in bytes.
fn hall_in_clumps(size: u32) -> Vec<u8> {
    let mut image = hall();
    image[1048..1052].copy_from_slice(&size.to_be_bytes());
    image
}

#[test]
fn writes_in_clumps() {
    let blocks_and_free = |image: &[u8]| {
        let facts = Volume::Bare.check(image).unwrap();
        (blocks(image, b"WEEK1"), facts.free_blocks)
    };
    let write = |image: &mut [u8], length| Volume::Bare.write(image, b"WEEK1", Fork::Data, 700, &vec![1; length], DATE);
    // three blocks are needed: rounded up to four; a whole clump; five are too many; a clump of one block
    for (size, wanted) in [
        (1024, (vec![2, 4, 5, 6], 0)),
        (1536, (vec![2, 4, 5], 1)),
        (2560, (vec![2, 4, 5], 1)),
        (1025, (vec![2, 4, 5], 1)),
    ] {
        let mut image = hall_in_clumps(size);
        assert_eq!(Volume::Bare.check(&image).unwrap().clump_size, size);
        write(&mut image, 400).unwrap();
        assert_eq!(blocks_and_free(&image), wanted, "{size}");
        // the blocks that the bytes do not need are cut off
        Volume::Bare.cut(&mut image, b"WEEK1", Fork::Data, 1100, DATE).unwrap();
        assert_eq!(blocks_and_free(&image), (vec![2, 4, 5], 1));
        let mut image = hall_in_clumps(size);
        let given = write(&mut image, 1349).map_err(Refusal::number);
        assert_eq!((given, image), (Err(17), hall_in_clumps(size)));
    }
}

#[test]
fn cuts_and_deletes() {
    let mut image = hall();
    Volume::Bare.cut(&mut image, b"WEEK1", Fork::Data, 512, DATE).unwrap();
    assert_eq!(
        (
            blocks(&image, b"WEEK1"),
            Volume::Bare.check(&image).unwrap().free_blocks
        ),
        (vec![2], 3)
    );
    assert_eq!(
        refused(|image| Volume::Bare.cut(image, b"WEEK1", Fork::Data, 701, DATE)),
        16
    );
    Volume::Bare.delete(&mut image, b"rates").unwrap();
    assert_eq!(Volume::Bare.entries(&image).unwrap().len(), 1);
    assert_eq!(refused(|image| Volume::Bare.delete(image, b"none")), 13);
}

#[test]
fn creates() {
    let mut image = hall();
    Volume::Bare.create(&mut image, b"Tarif \x8E", &[5; 16], 8, 9).unwrap();
    let entry = Volume::Bare.entry(&image, 2).unwrap();
    assert_eq!(
        (entry.number, entry.name.as_slice(), entry.finder),
        (3, &b"Tarif \x8E"[..], [5; 16])
    );
    assert_eq!((entry.created, entry.changed, entry.flags), (8, 9, 0x80));
    assert_eq!(
        refused(|image| Volume::Bare.create(image, b"week1", &[0; 16], 1, 2)),
        14
    );
    let mut locked = hall();
    locked[1034] = 0x80;
    assert!(Volume::Bare.check(&locked).unwrap().is_locked());
    for length in [0, 32, 256] {
        assert_eq!(
            Volume::Bare
                .create(&mut locked, &vec![b'n'; length], &[0; 16], 1, 2)
                .map_err(Refusal::number),
            Err(11)
        );
    }
}

#[test]
fn new_names() {
    let mut image = hall();
    Volume::Bare.create(&mut image, &[b'n'; 31], &[0; 16], 0, 0).unwrap();
    assert_eq!(image, hall_with(&[b'n'; 31]));
    for (length, number) in [(0, 12), (32, 21), (33, 21), (254, 21), (255, 21), (256, 12)] {
        let name = vec![b'n'; length];
        assert_eq!(
            refused(|image| Volume::Bare.create(image, &name, &[0; 16], 1, 2)),
            number
        );
    }
}

#[test]
fn old_names() {
    for length in [32, 254, 255] {
        let name = vec![b'n'; length];
        let mut image = hall_with(&name);
        assert_eq!(
            Volume::Bare
                .create(&mut image, &name, &[0; 16], 1, 2)
                .map_err(Refusal::number),
            Err(21)
        );
        assert_eq!(image, hall_with(&name));
        assert_eq!(Volume::Bare.entry(&image, 2).unwrap().name, name);
        assert_eq!(Volume::Bare.find(&image, &name.to_ascii_uppercase()).unwrap().0, 2);
        Volume::Bare
            .write(&mut image, &name, Fork::Data, 0, &[7; 600], DATE)
            .unwrap();
        assert_eq!(Volume::Bare.read_all(&image, &name, Fork::Data).unwrap(), [7; 600]);
        assert_eq!(blocks(&image, &name), [5, 6]);
        Volume::Bare.cut(&mut image, &name, Fork::Data, 512, DATE).unwrap();
        assert_eq!(blocks(&image, &name), [5]);
        Volume::Bare.delete(&mut image, &name).unwrap();
        assert_eq!(
            Volume::Bare.find(&image, &name).map_err(Refusal::number).err(),
            Some(13)
        );
        assert_eq!(Volume::Bare.entries(&image).unwrap().len(), 2);
    }
}

/// HALL with WEEK1's entry as it is after a rename to this name, of 4 or 5 bytes.
fn hall_renamed(name: &[u8]) -> Vec<u8> {
    let mut image = hall();
    let entry = &mut image[2048..2048 + 56];
    entry[46..50].copy_from_slice(&DATE.to_be_bytes());
    entry[50] = name.len() as u8;
    entry[51..].fill(0);
    entry[51..51 + name.len()].copy_from_slice(name);
    image
}

#[test]
fn renames_in_place() {
    for name in [&b"WEEK1"[..], b"wEEk1", b"WEEK2", b"Week", b"\x8E\0 \xFF"] {
        let mut image = hall();
        Volume::Bare.rename(&mut image, b"week1", name, DATE).unwrap();
        assert_eq!(image, hall_renamed(name));
    }
}

#[test]
fn renames_that_move() {
    let mut image = hall();
    let rates = image[2048 + 56..2048 + 112].to_vec();
    let before = Volume::Bare.find(&image, b"WEEK1").unwrap().1;
    Volume::Bare.rename(&mut image, b"WEEK1", b"WEEK30 BAD", DATE).unwrap();
    assert_eq!(image[2048..2048 + 56], rates);
    assert!(image[2048 + 56 + 61..2560].iter().all(|&byte| byte == 0));
    let (place, after) = Volume::Bare.find(&image, b"week30 bad").unwrap();
    let wanted = Entry {
        changed: DATE,
        name: b"WEEK30 BAD".to_vec(),
        ..before
    };
    assert_eq!((place, after), (1, wanted));
    assert_eq!(blocks(&image, b"WEEK30 BAD"), [2, 4]);
    assert_eq!(
        Volume::Bare.find(&image, b"WEEK1").map_err(Refusal::number).err(),
        Some(13)
    );
    Volume::Bare.rename(&mut image, b"WEEK30 BAD", b"W", DATE).unwrap();
    Volume::Bare.rename(&mut image, b"RATES", b"R", DATE).unwrap();
    let names: Vec<_> = Volume::Bare
        .entries(&image)
        .unwrap()
        .into_iter()
        .map(|entry| entry.name)
        .collect();
    assert_eq!(names, [b"W", b"R"]);
}

#[test]
fn renames_refused() {
    let long = [b'n'; 256];
    for (name, new, number) in [
        (&long[..0], &long[..0], 12),
        (&long, &long[..32], 12),
        (b"WEEK1", &long[..0], 12),
        (b"none", &long, 12),
        (b"none", &long[..32], 21),
        (b"WEEK1", &long[..255], 21),
        (b"none", b"RATES", 13),
        (b"WEEK1", b"rates", 14),
    ] {
        assert_eq!(refused(|image| Volume::Bare.rename(image, name, new, DATE)), number);
    }
    let number = |mut image: Vec<u8>, name: &[u8], new: &[u8]| {
        let before = image.clone();
        let refusal = Volume::Bare.rename(&mut image, name, new, DATE).expect_err("a refusal");
        assert_eq!(image, before);
        refusal.number()
    };
    let mut locked = hall();
    locked[2048] = 0x81;
    assert_eq!(number(locked.clone(), b"WEEK1", b"RATES"), 15);
    assert_eq!(number(locked.clone(), b"WEEK1", b"week1"), 15);
    locked[1034] = 0x80;
    assert_eq!(number(locked, b"", b""), 11);
    // 12 bytes are left behind the fourth entry, and 68 without WEEK1
    let mut full = hall_with(&[b'n'; 255]);
    Volume::Bare.create(&mut full, &[b'f'; 31], &[0; 16], 1, 2).unwrap();
    assert_eq!(number(full.clone(), &[b'n'; 255], &[b'N'; 255]), 21);
    assert_eq!(number(full.clone(), b"WEEK1", &[b'F'; 31]), 14);
    assert_eq!(number(full.clone(), b"WEEK1", &[b'w'; 18]), 18);
    Volume::Bare.rename(&mut full, b"WEEK1", &[b'w'; 17], DATE).unwrap();
    assert_eq!(Volume::Bare.find(&full, &[b'w'; 17]).unwrap().0, 3);
}

#[test]
fn lengths_of_the_image() {
    for length in [0, 1, 511, 512, 3584, 4095, 6143, 65_536 * 512] {
        let mut image = vec![0; length];
        assert_eq!(Volume::Bare.check(&image).map_err(Refusal::number), Err(1));
        assert_eq!(
            Volume::Bare.delete(&mut image, b"WEEK1").map_err(Refusal::number),
            Err(1)
        );
        assert_eq!(
            Volume::Bare
                .rename(&mut image, b"WEEK1", b"WEEK2", DATE)
                .map_err(Refusal::number),
            Err(1)
        );
    }
    assert_eq!(Volume::Bare.check(&[0; 4096]).map_err(Refusal::number), Err(2));
}

#[test]
fn words() {
    let refusal = Volume::Bare.check(&[]).expect_err("a refusal");
    let text = refusal.to_string();
    assert!(text.starts_with("refused 1: the length"), "{text}");
    let mut image = hall();
    image[1059] = 3;
    assert_eq!(Volume::Bare.check(&image).map_err(Refusal::number), Err(10));
}
