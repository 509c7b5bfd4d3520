//! Volumes whose names are near misses of one another.

use super::{damage, entries, few_blocks};
use crate::images::{build, FileSpec};
use crate::random::Random;
use crate::spelling::{letter, near_miss, respell, uppers};
use std::collections::HashSet;

/// A volume of 1 to 5 or of up to 40 files, with two names made equal in any spelling, or nearly, two times of three.
pub fn alike(random: &mut Random) -> Vec<u8> {
    let most = if random.once_in(2) {
        random.between(2, 5)
    } else {
        random.between(6, 40)
    } as usize;
    let names = names(random, most);
    let geometry = few_blocks(random, names.len(), 8);
    let file = |(i, name): (usize, &Vec<u8>)| (i / 8, FileSpec::empty(i as u32 + 1, name));
    let files: Vec<_> = names.iter().enumerate().map(file).collect();
    let mut image = build(&geometry, &files, &mut |_| ());
    if !random.once_in(3) {
        let entries = entries(&image);
        damage::repeat_name(random, &mut image, &entries);
    }
    image
}

/// At most so many names of one length, none equal to another: each is the one before with another byte.
fn names(random: &mut Random, most: usize) -> Vec<Vec<u8>> {
    let mut name: Vec<u8> = (0..random.between(1, 12)).map(|_| letter(random)).collect();
    let mut seen = HashSet::from([uppers(&name)]);
    let mut names = vec![name.clone()];
    for _ in 1..2 * most {
        let at = random.index(name.len());
        name[at] = if random.once_in(2) {
            letter(random)
        } else {
            near_miss(random, name[at])
        };
        respell(random, &mut name);
        if names.len() < most && seen.insert(uppers(&name)) {
            names.push(name.clone());
        }
    }
    names
}

#[cfg(test)]
mod tests {
    use super::*;
    use crate::baseline::{check, Refusal};
    use crate::images::get2;

    #[test]
    fn names_are_repeated_on_small_and_large_volumes() {
        let mut random = Random::new(1);
        let mut found = [[0; 2]; 2];
        for _ in 0..400 {
            let image = alike(&mut random);
            let large = usize::from(get2(&image, 1036) >= 6);
            match check(&image) {
                Ok(_) => found[large][0] += 1,
                Err(refusal) => {
                    assert_eq!(refusal, Refusal::Files);
                    found[large][1] += 1;
                }
            }
        }
        assert!(found.iter().flatten().all(|&count| count > 40), "{found:?}");
    }
}
