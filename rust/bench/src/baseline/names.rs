//! Names compared: by letters without case, and by document 02's pairs of accented letters.

/// Document 02's pairs in Mac OS Roman, lower then upper.
const PAIRS: [(u8, u8); 13] = [
    (0x88, 0xCB),
    (0x8A, 0x80),
    (0x8B, 0xCC),
    (0x8C, 0x81),
    (0x8D, 0x82),
    (0x8E, 0x83),
    (0x96, 0x84),
    (0x9A, 0x85),
    (0x9B, 0xCD),
    (0x9F, 0x86),
    (0xBE, 0xAE),
    (0xBF, 0xAF),
    (0xCF, 0xCE),
];

/// The upper one for a lower byte, every other byte for itself.
static FOLD: [u8; 256] = {
    let mut fold = [0; 256];
    let mut byte = 0;
    while byte < fold.len() {
        fold[byte] = (byte as u8).to_ascii_uppercase();
        byte += 1;
    }
    let mut pair = 0;
    while pair < PAIRS.len() {
        let (lower, upper) = PAIRS[pair];
        fold[lower as usize] = upper;
        pair += 1;
    }
    fold
};

/// Folds the bytes of names: equal ones become the same.
pub fn fold(bytes: &mut [u8]) {
    for byte in bytes {
        *byte = FOLD[usize::from(*byte)];
    }
}

/// Whether two names are equal.
pub fn equal(one: &[u8], other: &[u8]) -> bool {
    let alike = |(&one, &other): (&u8, &u8)| one == other || FOLD[usize::from(one)] == FOLD[usize::from(other)];
    one.len() == other.len() && one.iter().zip(other).all(alike)
}

#[cfg(test)]
mod tests {
    use super::*;
    use crate::spelling;

    /// Document 02's words.
    const LIST: &str = "88 CB, 8A 80, 8B CC, 8C 81, 8D 82, 8E 83, 96 84, 9A 85, 9B CD, 9F 86, BE AE, BF AF, CF CE";

    /// Whether two bytes are equal in names.
    fn alike(one: u8, other: u8) -> bool {
        equal(&[one], &[other])
    }

    fn alike_bytes() -> impl Iterator<Item = (u8, u8)> {
        let all = (0..=255).flat_map(|one| (0..=255).map(move |other| (one, other)));
        all.filter(|&(one, other)| alike(one, other))
    }

    #[test]
    fn it_is_an_equivalence() {
        for (one, other) in alike_bytes() {
            assert!(alike(other, one), "{one:02X} {other:02X}");
            for third in (0..=255).filter(|&third| alike(other, third)) {
                assert!(alike(one, third), "{one:02X} {other:02X} {third:02X}");
            }
        }
        assert!((0..=255).all(|byte| alike(byte, byte)));
        assert!(FOLD.iter().all(|&byte| FOLD[usize::from(byte)] == byte));
    }

    #[test]
    fn it_has_the_letters_and_the_listed_pairs_and_no_more() {
        let byte = |hex: &str| u8::from_str_radix(hex, 16).unwrap();
        let accents = LIST.split(", ").map(|pair| pair.split_once(' ').unwrap());
        let mut wanted: Vec<(u8, u8)> = accents.map(|(lower, upper)| (byte(lower), byte(upper))).collect();
        wanted.extend((b'a'..=b'z').zip(b'A'..=b'Z'));
        assert_eq!(wanted.len(), 13 + 26);
        wanted.extend(wanted.clone().into_iter().map(|(lower, upper)| (upper, lower)));
        wanted.sort_unstable();
        let found: Vec<(u8, u8)> = alike_bytes().filter(|(one, other)| one != other).collect();
        assert_eq!(found, wanted);
    }

    #[test]
    fn names_are_equal_byte_by_byte() {
        assert!(equal(b"\x83t\x8E", b"\x8ET\x83"));
        assert!(!equal(b"\x83t\x8E", b"\x83t\x8Es"));
        assert!(!equal(b"\x83t\x8E", b"\x83t\x8F"));
        assert!(equal(b"", b""));
    }

    #[test]
    fn the_makers_of_volumes_have_the_same_spellings() {
        for (one, other) in (0..=255).flat_map(|one| (0..=255).map(move |other| (one, other))) {
            assert_eq!(
                alike(one, other),
                spelling::upper(one) == spelling::upper(other),
                "{one:02X} {other:02X}"
            );
        }
    }
}
