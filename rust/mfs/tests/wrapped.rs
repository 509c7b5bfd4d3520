//! The library on wrapped files of the disk WATER: the calls, wrap and unwrap, how files are told, refusals.

#![allow(clippy::unwrap_used, clippy::expect_used, clippy::indexing_slicing)]

use mfs::{unwrap, wrap, Fork, Header, Refusal, Volume};

const DATE: u32 = 2_600_000_000;
const HEADER: usize = 84;
const DATA: usize = 409_600;

fn water() -> Vec<u8> {
    let path = concat!(env!("CARGO_MANIFEST_DIR"), "/../../samples/water.img");
    std::fs::read(path).expect("the disk WATER")
}

fn wrapped() -> Vec<u8> {
    wrap(&water(), b"Relev\x8E", 0x02).expect("a wrapped file")
}

/// With tags: their first word is not in their checksum, and the last one is 2, which gives 1.
fn tagged() -> Vec<u8> {
    let mut file = wrapped();
    file[70..72].copy_from_slice(&9_600_u16.to_be_bytes());
    file[79] = 1;
    file.resize(HEADER + DATA + 9_600, 0);
    file[HEADER + DATA] = 0xAB;
    *file.last_mut().unwrap() = 2;
    file
}

/// The number of every call on a file that must be refused and left as it is.
fn refused(file: &[u8]) -> u8 {
    let on = Volume::Wrapped;
    let mut left = file.to_vec();
    let number = on.check(file).expect_err("a refusal").number();
    let numbers = [
        on.entry(file, 0).map(|_| ()),
        on.entries(file).map(|_| ()),
        on.find(file, b"Log").map(|_| ()),
        on.block(file, b"Log", Fork::Data, 0).map(|_| ()),
        on.read(file, b"Log", Fork::Data, 0, &mut [0; 9]).map(|_| ()),
        on.read_all(file, b"Log", Fork::Data).map(|_| ()),
        on.create(&mut left, b"New", &[0; 16], 1, 2),
        on.write(&mut left, b"Log", Fork::Data, 0, &[1; 9], DATE),
        on.cut(&mut left, b"Log", Fork::Data, 0, DATE),
        on.delete(&mut left, b"Log"),
        unwrap(file).map(|_| ()),
        Header::of(file).map(|_| ()),
    ];
    assert_eq!(numbers.map(|result| result.map_err(Refusal::number)), [Err(number); 12]);
    assert_eq!(left, file);
    number
}

#[test]
fn wrapped_and_unwrapped() {
    let file = wrapped();
    assert_eq!(file.len(), HEADER + DATA);
    assert_eq!(file[..8], *b"\x06Relev\x8E\0");
    assert!(file[8..64].iter().all(|&byte| byte == 0));
    assert_eq!(file[64..72], [0, 6, 64, 0, 0, 0, 0, 0]);
    assert_eq!(file[76..HEADER], [0, 0, 0, 0, 0, 2, 1, 0]);
    assert_eq!(unwrap(&file), Ok(&water()[..]));
    assert_eq!(unwrap(&tagged()), Ok(&water()[..]));
    for name in [&b""[..], &[b'n'; 63]] {
        let header = Header::of(&wrap(&water(), name, 0xFF).unwrap()).unwrap();
        assert_eq!(
            (header.name.as_slice(), header.format, header.has_tags),
            (name, 0xFF, false)
        );
    }
    let header = Header::of(&tagged()).unwrap();
    assert_eq!(
        (header.name.as_slice(), header.format, header.has_tags),
        (&b"Relev\x8E"[..], 0x02, true)
    );
}

#[test]
fn not_wrapped() {
    let number = |image: &[u8], name: &[u8]| wrap(image, name, 0).expect_err("a refusal").number();
    assert_eq!(number(&water(), &[b'n'; 64]), 22);
    assert_eq!(number(&water()[..DATA - 512], b""), 22);
    assert_eq!(number(&wrapped(), b""), 22);
    assert_eq!(number(&[], b""), 22);
    let mut image = water();
    image[1024] = 0;
    assert_eq!(number(&image, b""), 2);
    assert_eq!(number(&image, &[b'n'; 64]), 22);
}

#[test]
fn read_as_the_image_inside() {
    let image = water();
    for file in [wrapped(), tagged()] {
        let (on, bare) = (Volume::Wrapped, Volume::Bare);
        assert_eq!(on.check(&file), bare.check(&image));
        assert_eq!(on.entries(&file), bare.entries(&image));
        assert_eq!(on.find(&file, b"tariff"), bare.find(&image, b"tariff"));
        assert_eq!(
            on.block(&file, b"Log", Fork::Data, 3),
            bare.block(&image, b"Log", Fork::Data, 3)
        );
        for (name, fork) in [(&b"Log"[..], Fork::Data), (b"Hall display", Fork::Resource)] {
            assert_eq!(on.read_all(&file, name, fork), bare.read_all(&image, name, fork));
        }
        assert_eq!(on.find(&file, b"none").map_err(Refusal::number).err(), Some(13));
    }
}

type Change = fn(Volume, &mut [u8]) -> Result<(), Refusal>;

/// Each change leaves the image that it leaves by itself, its checksum, and all else as it was.
#[test]
fn changed_as_the_image_inside() {
    let changes: [Change; 5] = [
        |on, file| on.create(file, b"New", &[7; 16], 1, 2),
        |on, file| on.write(file, b"new", Fork::Resource, 0, &[9; 3000], DATE),
        |on, file| on.cut(file, b"Log", Fork::Data, 5, DATE),
        |on, file| on.delete(file, b"Week 01"),
        |on, file| on.write(file, b"Tariff", Fork::Data, 0, &[], DATE),
    ];
    for before in [wrapped(), tagged()] {
        let (mut file, mut image) = (before.clone(), water());
        for change in changes {
            change(Volume::Wrapped, &mut file).unwrap();
            change(Volume::Bare, &mut image).unwrap();
            assert_eq!(unwrap(&file), Ok(&image[..]));
            assert_eq!(file[72..76], wrap(&image, b"", 0).unwrap()[72..76]);
            let outside = |file: &[u8]| [&file[..72], &file[76..HEADER], &file[HEADER + DATA..]].concat();
            assert_eq!(outside(&file), outside(&before));
        }
        let left = file.clone();
        let refusal = Volume::Wrapped.delete(&mut file, b"Week 01").expect_err("a refusal");
        assert_eq!((refusal.number(), &file), (13, &left));
    }
}

/// A write in parts leaves the very file that the single write leaves.
#[test]
fn written_in_parts() {
    let bytes: Vec<u8> = (0..5000).map(|i| (i % 251) as u8).collect();
    let write = |file: &mut [u8], fork, offset, bytes: &[u8]| {
        Volume::Wrapped.write(file, b"Log", fork, offset, bytes, DATE).unwrap();
    };
    for before in [wrapped(), tagged()] {
        for fork in [Fork::Data, Fork::Resource] {
            let mut whole = before.clone();
            write(&mut whole, fork, 0, &bytes);
            for length in [125, 1024, 4999] {
                let (mut file, mut from) = (before.clone(), 0);
                for part in bytes.chunks(length).flat_map(|part| [&[], part]) {
                    write(&mut file, fork, from, part);
                    from += part.len() as u64;
                }
                assert!(file == whole, "{length}");
            }
        }
    }
}

/// Rename takes only images: a wrapped file is one of a wrong length.
#[test]
fn not_renamed() {
    for before in [wrapped(), tagged()] {
        for on in [Volume::Bare, Volume::Wrapped] {
            let mut file = before.clone();
            let refusal = on.rename(&mut file, b"Log", b"Log 1", DATE).expect_err("a refusal");
            assert_eq!((refusal.number(), &file), (1, &before));
        }
        let mut image = unwrap(&before).unwrap().to_vec();
        let mut other = image.clone();
        Volume::Bare.rename(&mut image, b"log", b"Log 1", DATE).unwrap();
        Volume::Wrapped.rename(&mut other, b"log", b"Log 1", DATE).unwrap();
        assert_eq!(other, image);
        let file = wrap(&image, b"", 0).unwrap();
        assert!(Volume::Wrapped.find(&file, b"Log 1").is_ok());
    }
}

#[test]
fn refusals() {
    for (file, at, number) in [
        (wrapped(), 0, 22),
        (wrapped(), 64, 22),
        (wrapped(), 68, 22),
        (wrapped(), 72, 23),
        (wrapped(), 76, 24),
        (wrapped(), 80, 22),
        (wrapped(), 82, 22),
        (wrapped(), HEADER + 5000, 23),
        (tagged(), HEADER + DATA + 12, 24),
    ] {
        let mut damaged = file;
        damaged[at] ^= 0x40;
        assert_eq!(refused(&damaged), number, "{at}");
    }
    for length in [0, 83, 84, DATA, HEADER + DATA - 1] {
        assert_eq!(refused(&wrapped()[..length]), 22);
    }
    assert_eq!(refused(&tagged()[..HEADER + DATA]), 22);
    assert_eq!(refused(&water()), 22);
    assert_eq!(Volume::Bare.check(&wrapped()).map_err(Refusal::number), Err(1));
}

#[test]
fn told_by_the_header() {
    let told = |file: &[u8]| Volume::of(file);
    assert_eq!(told(&wrapped()), Volume::Wrapped);
    assert_eq!(told(&tagged()), Volume::Wrapped);
    for (at, file) in [
        (64, Volume::Bare),
        (67, Volume::Bare),
        (80, Volume::Bare),
        (82, Volume::Bare),
        (83, Volume::Bare),
        (0, Volume::Wrapped),
        (70, Volume::Wrapped),
        (75, Volume::Wrapped),
        (79, Volume::Wrapped),
        (81, Volume::Wrapped),
        (HEADER, Volume::Wrapped),
    ] {
        let mut other = wrapped();
        other[at] ^= 0x80;
        assert_eq!(told(&other), file, "{at}");
    }
    for file in [&wrapped()[1..], &tagged()[..HEADER + DATA + 9_599], &water(), &[]] {
        assert_eq!(told(file), Volume::Bare);
    }
}
