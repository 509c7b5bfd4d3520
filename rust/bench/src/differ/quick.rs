//! Quick find, request T-08: how its calls ended, and that it reads no more than it says.

use super::answer::Answer;
use super::{each_with_its_count, Compared, Differ, Difference, LARGE};
use crate::baseline::{self, Form};
use crate::call::{Bytes, Call};
use crate::foreign::{self, QuickFindAnswer};
use crate::images::get2;
use crate::random::Random;
use crate::spelling::uppers;
use crate::volumes;
use std::fmt;
use std::ops::Range;

/// The ways that are counted. A call may go more than one of them. Of equal names that are not read, only those are
/// counted that an entry of another version or without a name hides: from one that crosses its block on, the block is
/// not looked at here.
const WAYS: [&str; 8] = [
    "found in the first block",
    "found in a later block",
    "found on a volume that check refuses",
    "found, and equal names are behind it",
    "found, and equal names before it are not read",
    "absent, and equal names are not read",
    "absent otherwise",
    "made again with other bytes beside",
];

/// How many calls went each way.
#[derive(Default)]
pub struct Quicks([u64; WAYS.len()]);

impl Quicks {
    /// Counts the ways of an answer.
    fn count(&mut self, image: &[u8], name: &[u8], given: &QuickFindAnswer) {
        let mut add = |way: usize, holds: bool| self.0[way] += u64::from(holds);
        match given.number {
            0 => {
                let (read, unread): (Vec<_>, Vec<_>) = equal_names(image, name).into_iter().partition(|twin| twin.read);
                add(usize::from(given.looked > 1), true);
                add(2, baseline::check(image).is_err());
                add(3, read.len() > 1);
                add(4, unread.iter().any(|twin| twin.at < read[0].at));
            }
            13 => {
                let hidden = !equal_names(image, name).is_empty();
                add(5, hidden);
                add(6, !hidden);
            }
            _ => {}
        }
    }
}

/// An entry of a wanted name, and whether it is read: neither it nor one before it in its block is bad.
struct Twin {
    at: usize,
    read: bool,
}

/// The entries of a name in an image with a directory.
fn equal_names(image: &[u8], name: &[u8]) -> Vec<Twin> {
    let wanted = uppers(name);
    // the block whose reading has ended at a bad entry
    let mut ended = None;
    let mut twins = Vec::new();
    for at in volumes::entries(image) {
        if image[at + 1] != 0 || image[at + 50] == 0 {
            ended = Some(at / 512);
        }
        if uppers(volumes::name_at(image, at)) == wanted {
            let read = ended != Some(at / 512);
            twins.push(Twin { at, read });
        }
    }
    twins
}

/// What quick find may read beside the length: the volume information, and the directory blocks looked at.
fn kept(image: &[u8], given: &QuickFindAnswer) -> [Range<usize>; 2] {
    match given {
        QuickFindAnswer { number: 1, .. } => [0..0, 0..0],
        QuickFindAnswer { looked: 0, .. } => [1024..1088, 0..0],
        QuickFindAnswer { looked, .. } => {
            let start = usize::from(get2(image, 1038)) * 512;
            [1024..1088, start..start + usize::from(*looked) * 512]
        }
    }
}

/// The image with every bit turned, or with any bytes, but where it may be read.
fn with_others(random: &mut Random, image: &[u8], kept: &[Range<usize>]) -> Vec<u8> {
    let mut other: Vec<u8> = image.iter().map(|byte| !byte).collect();
    if random.once_in(2) {
        volumes::fill_quickly(random, &mut other);
    }
    for part in kept {
        other[part.clone()].copy_from_slice(&image[part.clone()]);
    }
    other
}

impl Differ {
    /// Counts a quick find that was compared, and makes it again with other bytes beside what it may read: the answer
    /// is to be the same.
    pub fn quick(&mut self, image: &[u8], name: Bytes) -> Compared {
        if image.len() > LARGE {
            return Ok(());
        }
        let given = foreign::quick_find(image, &name);
        self.report.quicks.count(image, &name, &given);
        self.report.quicks.0[7] += 1;
        let other = with_others(&mut self.random, image, &kept(image, &given));
        let again = foreign::quick_find(&other, &name);
        if again == given {
            return Ok(());
        }
        Err(Box::new(Difference {
            seed: self.report.seed,
            at: self.report.calls,
            call: Call::QuickFind(name),
            form: Form::Bare,
            answers: [
                ("archive", Answer::QuickFind(given)),
                ("archive with other bytes beside", Answer::QuickFind(again)),
            ],
            found: Vec::new(),
            file: image.to_vec(),
        }))
    }
}

impl fmt::Display for Quicks {
    fn fmt(&self, f: &mut fmt::Formatter) -> fmt::Result {
        writeln!(f, "quick finds: {}", each_with_its_count(&WAYS, &self.0))
    }
}

#[cfg(test)]
mod tests {
    use super::super::run;
    use super::*;
    use crate::images::shapes;

    #[test]
    fn calls_go_every_way() {
        let report = run(1, 20_000).unwrap_or_else(|difference| panic!("{difference}"));
        assert!(report.quicks.0.iter().all(|&count| count > 10), "{}", report.quicks);
    }

    /// The ways of a quick find of W0004, each where it is counted.
    fn ways(image: &[u8]) -> Vec<usize> {
        let mut quicks = Quicks::default();
        quicks.count(image, b"w0004", &foreign::quick_find(image, b"w0004"));
        (0..WAYS.len()).filter(|&way| quicks.0[way] > 0).collect()
    }

    #[test]
    fn an_answer_is_counted_by_what_was_read() {
        // nine files of 56 bytes to a directory block
        let entry = |file: usize| 2048 + file / 9 * 512 + file % 9 * 56;
        let mut image = shapes().swap_remove(1).1;
        assert_eq!(ways(&image), [0]);
        image[entry(20) + 51..][..5].copy_from_slice(b"W0004");
        assert_eq!(ways(&image), [0, 2, 3]);
        image[entry(3) + 1] = 1;
        assert_eq!(ways(&image), [1, 2, 4]);
        image[entry(19) + 50] = 0;
        assert_eq!(ways(&image), [5]);
        image[1036] ^= 1;
        for file in [4, 20] {
            image[entry(file) + 51] = b'X';
        }
        assert_eq!(ways(&image), [6]);
        image[1024] = 0;
        assert_eq!(ways(&image), []);
    }

    #[test]
    fn other_bytes_stand_beside_what_may_be_read() {
        let mut random = Random::new(1);
        let image = shapes().swap_remove(1).1;
        for (name, blocks) in [(&b"W0000"[..], 1), (b"w0017", 2), (b"none", 12), (b"", 0)] {
            let kept = kept(&image, &foreign::quick_find(&image, name));
            let all: usize = kept.iter().map(Range::len).sum();
            assert_eq!((kept[0].clone(), all), (1024..1088, 64 + 512 * blocks));
            for _ in 0..4 {
                let other = with_others(&mut random, &image, &kept);
                let same = |part: &Range<usize>| other[part.clone()] == image[part.clone()];
                assert!(kept.iter().all(same));
                let others = image.iter().zip(&other).filter(|(one, two)| one != two).count();
                assert!(others > (image.len() - all) / 100 * 99);
            }
        }
        let short = [0; 100];
        assert_eq!(kept(&short, &foreign::quick_find(&short, b"W0000")), [0..0, 0..0]);
    }
}
