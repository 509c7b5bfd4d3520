//! Refusals: their numbers, and the words for each.

use std::error::Error;
use std::fmt;

/// Why a call was refused. The call has then changed no byte.
#[derive(Clone, Copy, Debug, PartialEq, Eq, PartialOrd, Ord, Hash)]
pub struct Refusal {
    number: u8,
}

impl Refusal {
    /// The refusal that a call's number stands for; none for 0, success.
    pub(crate) fn of(number: u8) -> Result<(), Refusal> {
        match number {
            0 => Ok(()),
            number => Err(Refusal { number }),
        }
    }

    /// The number in document 01's table, or in document 02.
    pub fn number(self) -> u8 {
        self.number
    }

    /// One sentence that says why, near the documents' own.
    pub fn words(self) -> &'static str {
        match self.number {
            1 => "the length is not a multiple of 512, or it is fewer than 8 or more than 65,535 blocks",
            2 => "the signature differs",
            3 => "a size, a place or the next file number in the volume information is out of its bounds",
            4 => "the volume name is longer than 27",
            5 => "the map has a bad entry",
            6 => "a directory entry crosses its block, has name length 0 or a version other than 0",
            7 => {
                "the entry count differs from the number of files, a file number is 0, repeated or not below the next \
                 one, or two names are equal"
            }
            8 => "a fork's start, lengths and chain of blocks do not agree, or two forks share a block",
            9 => "a map entry above 0 belongs to no fork",
            10 => "the free count differs from the number of zero entries in the map",
            11 => "the volume is locked",
            12 => "the given name's length is 0 or above 255",
            13 => "no such file or place",
            14 => "the name exists",
            15 => "the file is locked",
            16 => "the offset or cut length is above the logical length, or the fork has no block at that place",
            17 => "the new blocks needed exceed those free",
            18 => "no directory block has room for the entry",
            19 => "the next file number is 4,294,967,295",
            21 => "the new name is longer than 31",
            22 => {
                "the file's length or header is unlike that of a wrapped 400K disk; in wrapping, the image is not 409,600 \
                 bytes long or the name is longer than 63"
            }
            23 => "the data checksum in the file's header is not that of the data",
            24 => "the tag checksum in the file's header is not that of the tags, or not 0 without tags",
            _ => "a number that has no words here",
        }
    }
}

impl fmt::Display for Refusal {
    fn fmt(&self, f: &mut fmt::Formatter<'_>) -> fmt::Result {
        write!(f, "refused {}: {}", self.number, self.words())
    }
}

impl Error for Refusal {}

#[cfg(test)]
mod tests {
    use super::*;
    use std::collections::HashSet;

    #[test]
    fn each_number_has_words_of_its_own() {
        let words = |number| Refusal { number }.words();
        let known: HashSet<_> = (1..=19).chain(21..=24).map(words).collect();
        assert_eq!(known.len(), 23);
        for number in [0, 20, 25, 255] {
            assert!(!known.contains(words(number)), "{number}");
        }
    }
}
