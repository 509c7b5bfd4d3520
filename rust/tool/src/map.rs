//! A picture of the allocation blocks.

use mfs::{Entry, Facts, Fork, Refusal, Volume};

use crate::listing::count;
use crate::names;

const COLUMNS: usize = 80;
const IN_A_ROW: usize = 64;

/// The letters for forks; after the last one the first comes again.
const LETTERS: [u8; 52] = *b"ABCDEFGHIJKLMNOPQRSTUVWXYZabcdefghijklmnopqrstuvwxyz";

/// A fork with its blocks, in order.
struct Owner {
    name: String,
    fork: Fork,
    blocks: Vec<u16>,
}

/// The picture and its legend.
pub fn picture(volume: Volume, file: &[u8]) -> Result<String, Refusal> {
    let facts = volume.check(file)?;
    let mut owners = Vec::new();
    for entry in volume.entries(file)? {
        for fork in [Fork::Data, Fork::Resource] {
            owners.extend(owner(volume, file, &entry, fork));
        }
    }
    Ok(rows(&facts, &owners) + "\n" + &legend(&facts, &owners))
}

/// The fork as an owner of blocks, if it has any.
fn owner(volume: Volume, file: &[u8], entry: &Entry, fork: Fork) -> Option<Owner> {
    if entry.fork(fork).physical == 0 {
        return None;
    }
    let block = |place| volume.block(file, &entry.name, fork, place).ok();
    Some(Owner {
        name: names::shown(&entry.name),
        fork,
        blocks: (0..).map_while(block).collect(),
    })
}

fn lettered(owners: &[Owner]) -> impl Iterator<Item = (char, &Owner)> {
    LETTERS.iter().cycle().map(|&letter| char::from(letter)).zip(owners)
}

/// A character for each block, 64 to a row.
fn rows(facts: &Facts, owners: &[Owner]) -> String {
    let numbers: Vec<u16> = facts.blocks().collect();
    let mut marks = vec!['.'; numbers.len()];
    let first = numbers.first().copied().unwrap_or_default();
    for (letter, owner) in lettered(owners) {
        for block in &owner.blocks {
            if let Some(mark) = marks.get_mut(usize::from(block.wrapping_sub(first))) {
                *mark = letter;
            }
        }
    }
    let rows = numbers.chunks(IN_A_ROW).zip(marks.chunks(IN_A_ROW));
    let rows = rows.map(|(numbers, marks)| {
        let first = numbers.first().copied().unwrap_or_default();
        format!("{first:>5}  {}\n", marks.iter().collect::<String>())
    });
    rows.collect()
}

/// A line or more for each fork that has blocks, and one for the free ones.
fn legend(facts: &Facts, owners: &[Owner]) -> String {
    let mut text = String::new();
    for (letter, owner) in lettered(owners) {
        let fork = match owner.fork {
            Fork::Data => "data",
            Fork::Resource => "resource",
        };
        let blocks = count(owner.blocks.len() as u64, "block");
        let line = format!(
            "{}, {fork} fork, {blocks}: {}",
            owner.name,
            runs(&owner.blocks).join(", ")
        );
        text.push_str(&wrapped(letter, &line));
    }
    text.push_str(&wrapped(
        '.',
        &format!("free, {}", count(facts.free_blocks.into(), "block")),
    ));
    text
}

/// Blocks as runs of numbers that follow one another: `2`, `4-7`.
fn runs(blocks: &[u16]) -> Vec<String> {
    let runs = blocks.chunk_by(|one, next| one.checked_add(1) == Some(*next));
    let runs = runs.map(|run| match run {
        [first, .., last] => format!("{first}-{last}"),
        [only] => only.to_string(),
        [] => String::new(),
    });
    runs.collect()
}

/// A line behind its letter, broken at spaces, and anywhere where there is none, to fit the columns.
fn wrapped(letter: char, line: &str) -> String {
    const MARGIN: usize = 7;
    let mut text = format!("{letter:>5}  ");
    let mut column = MARGIN;
    for word in line.split_inclusive(' ') {
        let length = word.trim_end_matches(' ').chars().count();
        if column > MARGIN && column + length > COLUMNS {
            text.push_str(&new_row(MARGIN));
            column = MARGIN;
        }
        for character in word.chars() {
            if column == COLUMNS {
                text.push_str(&new_row(MARGIN));
                column = MARGIN;
            }
            text.push(character);
            column += 1;
        }
    }
    text.push('\n');
    let rows = text.lines().map(|row| format!("{}\n", row.trim_end_matches(' ')));
    rows.collect()
}

fn new_row(margin: usize) -> String {
    format!("\n{}", " ".repeat(margin))
}

#[cfg(test)]
mod tests {
    use super::*;

    #[test]
    fn runs_of_blocks() {
        assert_eq!(runs(&[2, 3, 4, 9, 8, 7, 10, 11]), ["2-4", "9", "8", "7", "10-11"]);
        assert!(runs(&[]).is_empty());
    }

    #[test]
    fn lines_fit_the_columns() {
        let long = "x".repeat(200);
        let numbers = (0..100).map(|n| n.to_string()).collect::<Vec<_>>().join(", ");
        for line in ["WEEK1, 2", &long, &numbers, &format!("{long}, {numbers}")] {
            let text = wrapped('A', line);
            assert!(text
                .lines()
                .all(|row| row.chars().count() <= COLUMNS && !row.ends_with(' ')));
            let squeezed = |text: &str| text.replace([' ', '\n'], "");
            assert_eq!(squeezed(&text), squeezed(&format!("A{line}")));
        }
        assert_eq!(wrapped('A', "WEEK1, 2"), "    A  WEEK1, 2\n");
    }
}
