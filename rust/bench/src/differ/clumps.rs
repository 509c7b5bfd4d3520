//! What writes take on volumes with a clump size, as in request T-07: told from the images before and after a write.

use super::choose::fork_facts;
use super::{each_with_its_count, FULL};
use crate::call::Call;
use crate::images::{get2, get4};
use std::fmt;

/// The ways that are counted. All but the last are those of clumps of two or more blocks.
const WAYS: [&str; 7] = [
    "rounded up, blocks left free",
    "rounded up to the last free block",
    "whole clumps needed",
    "too few free to round up",
    "none needed and no whole clumps",
    "refused by 17",
    "blocks taken where the clump size does not count",
];

/// How many writes went each way.
#[derive(Default)]
pub struct Clumps([u64; WAYS.len()]);

impl Clumps {
    /// Counts a call that gave this number, if it is a write that went one of the ways.
    pub fn count(&mut self, call: &Call, before: &[u8], after: &[u8], number: u8) {
        if let (Call::Write(name, fork, ..), 0 | FULL) = (call, number) {
            let blocks = |image| Blocks::of(image, name, *fork);
            if let Some(way) = way(&blocks(before), &blocks(after), number) {
                self.0[way] += 1;
            }
        }
    }
}

/// What an accepted image tells of a fork's blocks.
struct Blocks {
    /// How many it has, and how many its bytes fill.
    all: u32,
    filled: u32,
    free: u16,
    /// How many blocks a clump has; `None` where the clump size does not count.
    clump: Option<u32>,
}

impl Blocks {
    fn of(image: &[u8], name: &[u8], fork: u8) -> Blocks {
        let facts = fork_facts(image, name, fork);
        let (size, clump) = (get4(image, 1044), get4(image, 1048));
        Blocks {
            all: facts.physical / size,
            filled: facts.logical.div_ceil(size),
            free: get2(image, 1058),
            clump: (clump >= size && clump % size == 0).then_some(clump / size),
        }
    }
}

/// The way of a write that found and left these blocks.
fn way(before: &Blocks, after: &Blocks, number: u8) -> Option<usize> {
    let Some(clump) = before.clump else {
        return (after.all > before.all).then_some(6);
    };
    let whole = after.all.is_multiple_of(clump);
    match number {
        _ if clump == 1 => None,
        FULL => Some(5),
        _ if after.filled <= before.all => (!whole).then_some(4),
        _ if after.all > after.filled => Some(usize::from(after.free == 0)),
        _ => Some(if whole { 2 } else { 3 }),
    }
}

impl fmt::Display for Clumps {
    fn fmt(&self, f: &mut fmt::Formatter) -> fmt::Result {
        writeln!(f, "{}", each_with_its_count(&WAYS, &self.0))
    }
}

#[cfg(test)]
mod tests {
    use super::super::run;
    use super::*;
    use crate::call::Bytes;
    use crate::images::{hall, put4};

    #[test]
    fn a_write_is_counted_by_what_it_took() {
        // three blocks are free, and WEEK1 has two with 700 bytes
        let mut before = hall();
        let cut = Call::Cut(Bytes(b"RATES".to_vec()), 0, 0, 0);
        cut.change(&mut before).unwrap();
        for (clump_size, length, way) in [
            (1024, 400, Some(0)),
            (2560, 400, Some(1)),
            (1536, 400, Some(2)),
            (3072, 400, Some(3)),
            (1536, 324, Some(4)),
            (1024, 324, None),
            (1024, 1861, Some(5)),
            (1025, 400, Some(6)),
            (1025, 324, None),
            (512, 400, None),
            (512, 1861, None),
        ] {
            put4(&mut before, 1048, clump_size);
            let write = Call::Write(Bytes(b"WEEK1".to_vec()), 0, 700, Bytes(vec![1; length]), 0);
            let mut after = before.clone();
            let number = write.change(&mut after).map_or_else(|refusal| refusal.number(), |()| 0);
            let mut clumps = Clumps::default();
            clumps.count(&write, &before, &after, number);
            let wanted: [u64; WAYS.len()] = std::array::from_fn(|at| u64::from(way == Some(at)));
            assert_eq!(clumps.0, wanted, "{clump_size} {length}");
        }
    }

    #[test]
    fn writes_go_every_way() {
        let report = run(1, 20_000).unwrap_or_else(|difference| panic!("{difference}"));
        for clumps in [&report.clumps, &report.split_clumps] {
            assert!(clumps.0.iter().all(|&count| count > 0), "{clumps}");
        }
    }
}
