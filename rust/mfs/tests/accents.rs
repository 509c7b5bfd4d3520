//! The library on names with accents, in both spellings, on the disk WATER, bare and wrapped.

#![allow(clippy::unwrap_used, clippy::expect_used, clippy::indexing_slicing)]

use mfs::{wrap, Fork, Refusal, Volume};

const DATE: u32 = 2_600_000_000;

/// "Été" and "été" in Mac OS Roman.
const UPPER: &[u8] = b"\x83t\x8E";
const LOWER: &[u8] = b"\x8Et\x8E";

fn water() -> Vec<u8> {
    let path = concat!(env!("CARGO_MANIFEST_DIR"), "/../../samples/water.img");
    std::fs::read(path).expect("the disk WATER")
}

fn forms() -> [(Volume, Vec<u8>); 2] {
    let wrapped = wrap(&water(), b"", 2).expect("a wrapped file");
    [(Volume::Bare, water()), (Volume::Wrapped, wrapped)]
}

/// The number of a create, which changes nothing where it refuses.
fn created(on: Volume, file: &mut [u8], name: &[u8]) -> u8 {
    let before = file.to_vec();
    match on.create(file, name, &[0; 16], 1, 2) {
        Ok(()) => 0,
        Err(refusal) => {
            assert_eq!(file, before);
            refusal.number()
        }
    }
}

#[test]
fn one_file_has_both_spellings() {
    for (on, mut file) in forms() {
        for (name, other) in [(UPPER, LOWER), (LOWER, UPPER)] {
            assert_eq!(created(on, &mut file, name), 0);
            assert_eq!(created(on, &mut file, other), 14);
            let (place, entry) = on.find(&file, other).unwrap();
            assert_eq!(entry.name, name);
            assert_eq!(on.entries(&file).unwrap()[place as usize], entry);
            on.write(&mut file, other, Fork::Data, 0, b"litres", DATE).unwrap();
            assert_eq!(on.read_all(&file, other, Fork::Data).unwrap(), b"litres");
            assert_eq!(
                on.block(&file, name, Fork::Data, 0),
                on.block(&file, other, Fork::Data, 0)
            );
            on.cut(&mut file, other, Fork::Data, 3, DATE).unwrap();
            assert_eq!(on.read_all(&file, name, Fork::Data).unwrap(), b"lit");
            on.delete(&mut file, other).unwrap();
            for gone in [name, other] {
                assert_eq!(on.find(&file, gone).map_err(Refusal::number), Err(13));
            }
        }
    }
}

#[test]
fn listed_pairs_are_one_name_and_near_misses_two() {
    let rows = [
        // ç Ç, œ Œ, ü Ü
        (0x8D, 0x82, 14),
        (0xCF, 0xCE, 14),
        (0x86, 0x9F, 14),
        // û Û, ï Ï, á Á, ÿ Ÿ
        (0x9E, 0xF3, 0),
        (0x95, 0xEC, 0),
        (0x87, 0xE7, 0),
        (0xD8, 0xD9, 0),
        // é Æ, é Ñ, [ {
        (0x8E, 0xAE, 0),
        (0x8E, 0x84, 0),
        (b'[', b'{', 0),
    ];
    for (on, file) in forms() {
        for (one, other, number) in rows {
            let mut file = file.clone();
            assert_eq!(created(on, &mut file, &[b'n', one]), 0);
            assert_eq!(created(on, &mut file, &[b'N', other]), number, "{one:02X} {other:02X}");
        }
    }
}

#[test]
fn a_file_is_renamed_to_its_other_spelling() {
    let mut image = water();
    assert_eq!(created(Volume::Bare, &mut image, UPPER), 0);
    for name in [LOWER, UPPER, UPPER] {
        Volume::Bare.rename(&mut image, LOWER, name, DATE).unwrap();
        assert_eq!(Volume::Bare.find(&image, UPPER).unwrap().1.name, name);
    }
    assert_eq!(
        Volume::Bare
            .rename(&mut image, b"Log", LOWER, DATE)
            .map_err(Refusal::number),
        Err(14)
    );
}

#[test]
fn both_spellings_on_one_disk_are_refused_by_7() {
    let mut image = water();
    let near = b"\x8Et\x8F";
    for name in [UPPER, near] {
        assert_eq!(created(Volume::Bare, &mut image, name), 0);
    }
    assert!(Volume::Bare.check(&image).is_ok());
    let at = image.windows(3).position(|three| three == near).unwrap();
    image[at..at + 3].copy_from_slice(LOWER);
    let refusals = [
        Volume::Bare.check(&image).map(|_| ()),
        Volume::Bare.find(&image, LOWER).map(|_| ()),
        Volume::Bare.delete(&mut image, LOWER),
        wrap(&image, b"", 2).map(|_| ()),
    ];
    assert_eq!(refusals.map(|result| result.map_err(Refusal::number)), [Err(7); 4]);
}
