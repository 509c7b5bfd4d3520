//! Writes split into parts, as in request T-06: one call with all the bytes, and on a copy the parts one behind the
//! other.

use super::answer::Answer;
use super::{bytes_that_differ, choose, image_in, Compared, Differ, Difference, FULL, LARGE, TURNS};
use crate::baseline::Form;
use crate::call::{Bytes, Call};
use crate::random::Random;
use crate::volumes;
use std::fmt;
use std::ops::Range;

/// The most parts of a write, and of one on a large image.
const MOST: u64 = 40;
const MOST_ON_LARGE: u64 = 4;

/// How the writes ended that were split.
#[derive(Default)]
pub struct Splits {
    writes: u64,
    /// All of them, also those behind one that was refused, which are not written.
    parts: u64,
    succeeded: u64,
    full_at_first: u64,
    full_later: u64,
    refused: u64,
}

/// What a write is given.
pub struct Write {
    pub name: Bytes,
    pub fork: u8,
    pub offset: u64,
    pub bytes: Vec<u8>,
    pub changed: u32,
}

impl Write {
    /// The write of some of its bytes, in their place.
    fn part(&self, bytes: Range<usize>) -> Call {
        let offset = self.offset + bytes.start as u64;
        let part = Bytes(self.bytes[bytes].to_vec());
        Call::Write(self.name.clone(), self.fork, offset, part, self.changed)
    }

    fn whole(&self) -> Call {
        self.part(0..self.bytes.len())
    }
}

/// A write that was split, and what came of it.
struct Split<'a> {
    /// What call of the run the single write was.
    at: u64,
    form: Form,
    write: &'a Write,
    /// The image or file before it, after it, and after the parts.
    before: &'a [u8],
    whole: &'a [u8],
    parted: &'a [u8],
    /// The number that it gave, and those of the parts up to the first that was refused.
    number: u8,
    numbers: Vec<u8>,
    parts: Vec<Range<usize>>,
}

impl Differ {
    /// A write in parts on a volume with little room, at times damaged; seldom on a wrapped file.
    pub fn split_some(&mut self) -> Compared {
        let random = &mut self.random;
        if random.once_in(TURNS) {
            let image = volumes::disk_400k(random);
            let mut file = volumes::wrap_up(random, &image);
            if random.once_in(8) {
                volumes::damage_wrapped(random, &mut file);
            }
            return self.split(Form::Wrapped, &file);
        }
        let mut image = volumes::nearly_full(random);
        if random.once_in(8) {
            volumes::damage(random, &mut image);
        }
        self.split(Form::Bare, &image)
    }

    /// A write on a copy of the image or file, and its parts on another.
    pub fn split(&mut self, form: Form, before: &[u8]) -> Compared {
        let write = choose::write_to_split(&mut self.random, image_in(form, before));
        let most = if before.len() > LARGE { MOST_ON_LARGE } else { MOST };
        let parts = parts(&mut self.random, &write, most);
        let at = self.report.calls + 1;
        let (mut whole, mut parted) = (before.to_vec(), before.to_vec());
        let number = self.compare(form, &mut whole, write.whole())?;
        let mut numbers = Vec::new();
        for part in &parts {
            numbers.push(self.compare(form, &mut parted, write.part(part.clone()))?);
            if numbers.last() != Some(&0) {
                break;
            }
        }
        self.judge(&Split {
            at,
            form,
            write: &write,
            before,
            whole: &whole,
            parted: &parted,
            number,
            numbers,
            parts,
        })
    }

    /// Counts the write, and tells what is against T-06.
    fn judge(&mut self, split: &Split) -> Compared {
        let splits = match split.form {
            Form::Bare => &mut self.report.bare_splits,
            Form::Wrapped => &mut self.report.wrapped_splits,
        };
        splits.count(split);
        let (whole, before) = (split.write.whole(), image_in(split.form, split.before));
        let after = image_in(split.form, split.whole);
        self.report.split_clumps.count(&whole, before, after, split.number);
        let found = split.against();
        if found.is_empty() {
            return Ok(());
        }
        Err(Box::new(Difference {
            seed: self.report.seed,
            at: split.at,
            call: whole,
            form: split.form,
            answers: ["archive", "baseline"].map(|side| (side, Answer::Change(split.number))),
            found,
            file: split.before.to_vec(),
        }))
    }
}

/// At most so many parts of a write. It is cut at its beginning or its end, where it is cut already, about the end of
/// a logical block, or anywhere.
fn parts(random: &mut Random, write: &Write, most: u64) -> Vec<Range<usize>> {
    let count = match random.below(4) {
        0 => random.between(1, 2),
        1 | 2 => random.between(2, most.min(8)),
        _ => random.between(2, most),
    };
    let length = write.bytes.len();
    let mut cuts = vec![0, length];
    for _ in 1..count {
        let anywhere = random.index(length + 1);
        let behind_block = (anywhere / 512 + 1) * 512 - (write.offset % 512) as usize;
        cuts.push(match random.below(8) {
            0 => 0,
            1 => length,
            2 => cuts[random.index(cuts.len())],
            3 => behind_block.min(length),
            4 => (behind_block + random.index(3) - 1).min(length),
            _ => anywhere,
        });
    }
    cuts.sort_unstable();
    cuts.windows(2).map(|pair| pair[0]..pair[1]).collect()
}

impl Split<'_> {
    /// A line for each thing that is against T-06.
    fn against(&self) -> Vec<String> {
        let succeed = |numbers: &[u8]| numbers.iter().all(|&number| number == 0);
        let mut found = match (self.number, &self.numbers[..]) {
            (0, numbers) if numbers.len() == self.parts.len() && succeed(numbers) => {
                bytes_that_differ("file", ["single write", "parts"], self.whole, self.parted)
            }
            (0, _) => vec!["the single write succeeds, and the parts do not".to_string()],
            (FULL, [before @ .., FULL]) if succeed(before) => Vec::new(),
            (FULL, _) => vec!["the single write is refused by 17, and the parts are not".to_string()],
            (number, [first, ..]) if number == *first => Vec::new(),
            _ => vec!["the first part does not give the number of the single write".to_string()],
        };
        if !found.is_empty() {
            let lengths: Vec<_> = self.parts.iter().map(Range::len).collect();
            found.push(format!("lengths of the parts: {lengths:?}"));
            found.push(format!("what they gave: {:?}", self.numbers));
        }
        found
    }
}

impl Splits {
    fn count(&mut self, split: &Split) {
        self.writes += 1;
        self.parts += split.parts.len() as u64;
        let ended = match (split.number, split.numbers.len()) {
            (0, _) => &mut self.succeeded,
            (FULL, 1) => &mut self.full_at_first,
            (FULL, _) => &mut self.full_later,
            _ => &mut self.refused,
        };
        *ended += 1;
    }
}

impl fmt::Display for Splits {
    fn fmt(&self, f: &mut fmt::Formatter) -> fmt::Result {
        writeln!(
            f,
            "writes split: {}, into {} parts; succeeded {}, 17 at the first part {}, 17 later {}, otherwise refused {}",
            self.writes, self.parts, self.succeeded, self.full_at_first, self.full_later, self.refused
        )
    }
}

#[cfg(test)]
mod tests {
    use super::*;
    use crate::images::{get4, hall};

    #[test]
    fn writes_end_in_every_way() {
        let mut differ = Differ::new(1);
        for _ in 0..3_000 {
            let split = differ.split_some();
            split.unwrap_or_else(|difference| panic!("{difference}"));
        }
        let report = differ.report;
        for splits in [&report.bare_splits, &report.wrapped_splits] {
            let ends = [
                splits.succeeded,
                splits.full_at_first,
                splits.full_later,
                splits.refused,
            ];
            assert!(ends.iter().all(|&count| count > 0), "{splits}");
        }
        assert!(report.bare_splits.full_later > 300, "{}", report.bare_splits);
        for number in [3, 4, 5, 7, 8, 10, 11, 12, 13, 15, 16] {
            assert!(report.bare[6][number] > 0, "a write that is split gives {number}");
        }
    }

    #[test]
    fn writes_come_about_the_room() {
        let mut random = Random::new(1);
        // those that just fit, that have a byte too many, that have a block too many
        let mut found = [0; 3];
        for _ in 0..2_000 {
            let image = volumes::nearly_full(&mut random);
            let mut write = choose::write_to_split(&mut random, &image);
            let length = write.bytes.len();
            write.bytes.push(0);
            let fits = |end| write.part(0..end).change(&mut image.clone()).is_ok();
            for (count, more) in found.iter_mut().zip([0, 1, get4(&image, 1044) as usize]) {
                let just = length >= more && fits(length - more) && !fits(length - more + 1);
                *count += u32::from(just);
            }
        }
        assert!(found.iter().all(|&count| count > 100), "{found:?}");
    }

    #[test]
    fn parts_are_of_every_kind() {
        let mut random = Random::new(1);
        // one part, 40 parts; an empty one first, in the middle, last; only empty ones
        let mut found = [0; 6];
        for _ in 0..2_000 {
            let write = Write {
                name: Bytes(Vec::new()),
                fork: 0,
                offset: random.below(1_000),
                bytes: vec![0; random.index(4) * random.index(700)],
                changed: 0,
            };
            let parts = parts(&mut random, &write, MOST);
            assert!(parts.len() <= 40);
            assert_eq!(
                parts.iter().cloned().flatten().collect::<Vec<_>>(),
                (0..write.bytes.len()).collect::<Vec<_>>()
            );
            let empty: Vec<bool> = parts.iter().map(Range::is_empty).collect();
            let all = empty.iter().all(|&empty| empty);
            let kinds = [
                parts.len() == 1,
                parts.len() == 40,
                !all && empty[0],
                !all && empty.windows(3).any(|three| three == [false, true, false]),
                !all && empty[empty.len() - 1],
                all && empty.len() > 1,
            ];
            for (count, kind) in found.iter_mut().zip(kinds) {
                *count += u32::from(kind);
            }
        }
        assert!(found.iter().all(|&count| count > 0), "{found:?}");
    }

    /// What is told of a write to HALL in two parts that gave these numbers and left the image, or another one.
    fn told(number: u8, numbers: &[u8], other: bool) -> Option<String> {
        let before = hall();
        let mut parted = before.clone();
        parted[5000] ^= u8::from(other);
        let write = Write {
            name: Bytes(b"WEEK1".to_vec()),
            fork: 0,
            offset: 700,
            bytes: vec![1, 2, 3],
            changed: 0,
        };
        let split = Split {
            at: 77,
            form: Form::Bare,
            write: &write,
            before: &before,
            whole: &before,
            parted: &parted,
            number,
            numbers: numbers.to_vec(),
            parts: vec![0..1, 1..3],
        };
        let difference = Differ::new(5).judge(&split).err()?;
        assert_eq!(difference.file, before);
        Some(difference.to_string())
    }

    #[test]
    fn what_is_against_t_06_is_told() {
        for (number, numbers) in [(0, &[0, 0][..]), (17, &[17]), (17, &[0, 17]), (16, &[16]), (11, &[11])] {
            assert_eq!(told(number, numbers, false), None);
        }
        for (number, numbers) in [
            (0, &[0, 17][..]),
            (0, &[16]),
            (0, &[0]),
            (17, &[0, 0]),
            (17, &[0, 16]),
            (17, &[16]),
            (16, &[17]),
            (16, &[0, 16]),
            (13, &[0, 0]),
        ] {
            assert!(told(number, numbers, false).is_some(), "{number} {numbers:?}");
        }
        let lines = [
            "difference at call 77 of seed 5",
            "call, Bare: Write(b\"WEEK1\", 0, 700, b\"\\x01\\x02\\x03\", 0)",
            "both gave 0",
            "file at byte 5000: single write 00, parts 01",
            "lengths of the parts: [1, 2]",
            "what they gave: [0, 0]",
            "",
        ];
        assert_eq!(told(0, &[0, 0], true), Some(lines.join("\n")));
    }
}
