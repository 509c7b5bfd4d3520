//! Checks 7 to 10.

use super::layout::{entry_at, get_u32, name_at, FIRST_BLOCK, FREE, LAST_OF_FORK};
use super::map::{BlockMap, BLOCK_NUMBERS};
use super::names::fold;
use super::{Facts, Fork, ForkFacts, Refusal};

/// Check 7: the count of files, their numbers and their names.
pub fn check_files(image: &[u8], facts: &Facts, entries: &[usize]) -> Result<(), Refusal> {
    if entries.len() != usize::from(facts.files) {
        return Err(Refusal::Files);
    }
    let mut numbers: Vec<u32> = entries
        .iter()
        .map(|&at| get_u32(image, at + entry_at::NUMBER))
        .collect();
    if numbers.iter().any(|&number| number == 0 || number >= facts.next_number) {
        return Err(Refusal::Files);
    }
    numbers.sort_unstable();
    if numbers.windows(2).any(|pair| pair[0] == pair[1]) {
        return Err(Refusal::Files);
    }
    if names_repeat(image, entries) {
        return Err(Refusal::Files);
    }
    Ok(())
}

/// Whether two names are equal.
fn names_repeat(image: &[u8], entries: &[usize]) -> bool {
    let total = entries.iter().map(|&at| name_at(image, at).len()).sum();
    let mut folded = Vec::with_capacity(total);
    for &at in entries {
        folded.extend_from_slice(name_at(image, at));
    }
    fold(&mut folded);
    let mut rest = folded.as_slice();
    let mut names: Vec<&[u8]> = entries
        .iter()
        .map(|&at| {
            let (name, behind) = rest.split_at(name_at(image, at).len());
            rest = behind;
            name
        })
        .collect();
    names.sort_unstable();
    names.windows(2).any(|pair| pair[0] == pair[1])
}

/// Checks 8, 9 and 10: the forks' chains, blocks of no fork, and the free count.
pub fn check_blocks(image: &[u8], facts: &Facts, map: &BlockMap, entries: &[usize]) -> Result<(), Refusal> {
    let mut owned = [false; BLOCK_NUMBERS];
    for &at in entries {
        for fork in [Fork::Data, Fork::Resource] {
            claim_fork(facts, map, &mut owned, ForkFacts::read(image, at + fork.at()))?;
        }
    }
    let blocks = usize::from(FIRST_BLOCK)..usize::from(FIRST_BLOCK + facts.allocation_blocks);
    let (entries, owned) = (&map[blocks.clone()], &owned[blocks]);
    if entries
        .iter()
        .zip(owned)
        .any(|(&entry, &owned)| entry != FREE && !owned)
    {
        return Err(Refusal::UnownedBlock);
    }
    let free = entries.iter().filter(|&&entry| entry == FREE).count();
    if free != usize::from(facts.free_blocks) {
        return Err(Refusal::FreeCount);
    }
    Ok(())
}

/// Check 8 for one fork, whose blocks are marked as owned. A block that is owned already ends the walk, so that a
/// ring does too.
fn claim_fork(
    facts: &Facts,
    map: &BlockMap,
    owned: &mut [bool; BLOCK_NUMBERS],
    fork: ForkFacts,
) -> Result<(), Refusal> {
    if fork.start == 0 {
        if fork.logical != 0 || fork.physical != 0 {
            return Err(Refusal::Fork);
        }
        return Ok(());
    }
    if fork.physical == 0 || !fork.physical.is_multiple_of(facts.block_size) || fork.logical > fork.physical {
        return Err(Refusal::Fork);
    }
    let blocks = FIRST_BLOCK..FIRST_BLOCK + facts.allocation_blocks;
    let mut block = fork.start;
    for _ in 0..fork.physical / facts.block_size {
        if !blocks.contains(&block) || owned[usize::from(block)] {
            return Err(Refusal::Fork);
        }
        owned[usize::from(block)] = true;
        block = map[usize::from(block)];
    }
    if block != LAST_OF_FORK {
        return Err(Refusal::Fork);
    }
    Ok(())
}
