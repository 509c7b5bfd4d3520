//! The spellings of names, without the baseline's code: bytes that are equal in names, and bytes that only look so.

use crate::random::Random;

/// The accented letters that document 02 lists, lower then upper: à ä ã å ç é ñ ö õ ü æ ø œ.
const LISTED: [[u8; 2]; 13] = [
    [0x88, 0xCB],
    [0x8A, 0x80],
    [0x8B, 0xCC],
    [0x8C, 0x81],
    [0x8D, 0x82],
    [0x8E, 0x83],
    [0x96, 0x84],
    [0x9A, 0x85],
    [0x9B, 0xCD],
    [0x9F, 0x86],
    [0xBE, 0xAE],
    [0xBF, 0xAF],
    [0xCF, 0xCE],
];

/// Those of Mac OS Roman that it does not list, and that stay different: á â è ê ë í ì î ï ó ò ô ú ù û ÿ.
const UNLISTED: [[u8; 2]; 16] = [
    [0x87, 0xE7],
    [0x89, 0xE5],
    [0x8F, 0xE9],
    [0x90, 0xE6],
    [0x91, 0xE8],
    [0x92, 0xEA],
    [0x93, 0xED],
    [0x94, 0xEB],
    [0x95, 0xEC],
    [0x97, 0xEE],
    [0x98, 0xF1],
    [0x99, 0xEF],
    [0x9C, 0xF2],
    [0x9D, 0xF4],
    [0x9E, 0xF3],
    [0xD8, 0xD9],
];

/// The other byte of a pair; the byte itself where it is in none.
fn partner(pairs: &[[u8; 2]], byte: u8) -> u8 {
    let pair = pairs.iter().find(|pair| pair.contains(&byte));
    pair.map_or(byte, |&[lower, upper]| if byte == lower { upper } else { lower })
}

/// The other spelling of a byte; the byte itself where it has none.
fn other(byte: u8) -> u8 {
    if byte.is_ascii_alphabetic() {
        byte ^ 0x20
    } else {
        partner(&LISTED, byte)
    }
}

/// The upper spelling of a byte; the byte itself where it has none.
pub fn upper(byte: u8) -> u8 {
    let lower = byte.is_ascii_lowercase() || LISTED.iter().any(|pair| pair[0] == byte);
    if lower {
        other(byte)
    } else {
        byte
    }
}

/// A name in its upper spelling, which equal names share.
pub fn uppers(name: &[u8]) -> Vec<u8> {
    name.iter().map(|&byte| upper(byte)).collect()
}

/// Puts half of the bytes in their other spelling.
pub fn respell(random: &mut Random, name: &mut [u8]) {
    for byte in name {
        if random.once_in(2) {
            *byte = other(*byte);
        }
    }
}

/// A byte that is not equal, though a wider table, another bit or a slip in the list would make it so.
pub fn near_miss(random: &mut Random, byte: u8) -> u8 {
    let other = other(byte);
    let near = [
        partner(&UNLISTED, byte),
        byte ^ 0x20,
        other.wrapping_add(1),
        other.wrapping_sub(1),
    ];
    loop {
        let miss = near[random.index(near.len())];
        if upper(miss) != upper(byte) {
            return miss;
        }
    }
}

/// A letter with an accent or without, or a near miss of one.
pub fn letter(random: &mut Random) -> u8 {
    let listed = LISTED[random.index(LISTED.len())][random.index(2)];
    match random.below(8) {
        0..=3 => listed,
        4 | 5 => UNLISTED[random.index(UNLISTED.len())][random.index(2)],
        6 => near_miss(random, listed),
        _ => b"aAeEzZ"[random.index(6)],
    }
}

#[cfg(test)]
mod tests {
    use super::*;

    #[test]
    fn each_byte_has_its_spellings_and_near_misses() {
        let mut random = Random::new(1);
        for byte in 0..=255 {
            assert_eq!(other(other(byte)), byte);
            assert_eq!(upper(other(byte)), upper(byte));
            assert!((0..20).all(|_| upper(near_miss(&mut random, byte)) != upper(byte)));
        }
        assert_eq!((0..=255).filter(|&byte| other(byte) != byte).count(), 2 * (26 + 13));
        assert_eq!(uppers(b"\x8Et\x8E, \x9E"), b"\x83T\x83, \x9E");
    }
}
