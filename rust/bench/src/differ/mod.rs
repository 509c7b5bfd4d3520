//! The archive against the baseline in one process: the same calls on the same images and wrapped files, and after
//! each call the number, all that it handed out, the image or file and the buffer are compared. Writes are made in
//! parts too, and held to request T-06; those that meet clumps, request T-07, are counted; quick finds, request T-08,
//! are made again where nothing but what they may read is the same.

mod answer;
mod choose;
mod clumps;
mod lent;
mod parts;
mod quick;

use crate::baseline::Form;
use crate::call::{Call, KINDS, QUICK_FIND, RENAME, WRAP};
use crate::images::{self, DATA, HEADER};
use crate::random::Random;
use crate::volumes;
use answer::Answer;
use clumps::Clumps;
use lent::Lent;
use parts::Splits;
use quick::Quicks;
use std::fmt;

const BUFFER_BYTE: u8 = 0x5A;

/// The number for a write that has no room.
const FULL: u8 = 17;

/// The numbers that calls give, 0 to 24.
const NUMBERS: usize = 25;

/// The kinds of the calls that take wrapped files too.
const NINE: [usize; RENAME] = [0, 1, 2, 3, 4, 5, 6, 7, 8];

/// The kinds of the calls on images, but for wrap, which wants a long buffer and is made apart.
const ELEVEN: [usize; WRAP] = [0, 1, 2, 3, 4, 5, 6, 7, 8, RENAME, QUICK_FIND];

/// How many turns there are to one with a wrapped file, whose calls take longer.
const TURNS: u64 = 25;

/// The length above which an image is large: fewer calls are made on it, since each takes longer.
const LARGE: usize = 1 << 20;

/// What was run without a difference.
pub struct Report {
    seed: u64,
    calls: u64,
    /// How often each call gave each number.
    bare: Numbers,
    wrapped: Numbers,
    bare_splits: Splits,
    wrapped_splits: Splits,
    /// All writes, and of those that were split the single ones.
    clumps: Clumps,
    split_clumps: Clumps,
    quicks: Quicks,
}

type Numbers = [[u64; NUMBERS]; KINDS.len()];

/// The first call that differed.
pub struct Difference {
    seed: u64,
    at: u64,
    call: Call,
    form: Form,
    /// What gave each answer, and the answer.
    answers: [(&'static str, Answer); 2],
    /// What differs beside the answers, a line for each.
    found: Vec<String>,
    /// The image or wrapped file before the call.
    pub file: Vec<u8>,
}

/// What a call has left: the image or wrapped file, and the buffer.
struct Left<'a> {
    file: &'a [u8],
    buffer: &'a [u8],
}

struct Differ {
    random: Random,
    report: Report,
    memory: Memory,
}

/// What a call is given, in memory that is used again and again: making it anew would take longer than most calls.
#[derive(Default)]
struct Memory {
    /// The image or wrapped file before the call.
    before: Vec<u8>,
    /// The archive's copy of it.
    lent: Lent,
    /// The buffers of the baseline and of the archive.
    buffer: Vec<u8>,
    lent_buffer: Lent,
}

impl Memory {
    fn prepare(&mut self, file: &[u8], buffer_length: usize, shift: usize) {
        self.before.clear();
        self.before.extend_from_slice(file);
        self.lent.lend(file, shift);
        self.buffer.clear();
        self.buffer.resize(buffer_length, BUFFER_BYTE);
        self.lent_buffer.lend(&self.buffer, shift);
    }
}

type Compared = Result<(), Box<Difference>>;

/// Makes at least so many calls on volumes from a seed, and ends at the first difference.
pub fn run(seed: u64, calls: u64) -> Result<Report, Box<Difference>> {
    let mut differ = Differ::new(seed);
    let crowded = images::crowded();
    let shapes = images::shapes();
    while differ.report.calls < calls {
        if differ.random.once_in(3) {
            let mut image = volumes::crowd(&mut differ.random);
            differ.kinds(Form::Bare, &mut image, &[0, 2, 5, QUICK_FIND])?;
        }
        if differ.random.once_in(2) {
            let mut image = volumes::alike(&mut differ.random);
            differ.kinds(Form::Bare, &mut image, &ELEVEN)?;
        }
        if differ.random.once_in(2) {
            let mut image = volumes::full(&mut differ.random);
            differ.kinds(Form::Bare, &mut image, &[RENAME, RENAME, 5, RENAME, 8, RENAME])?;
        }
        if differ.random.once_in(2) {
            let mut image = volumes::broken(&mut differ.random);
            differ.kinds(Form::Bare, &mut image, &[QUICK_FIND; 8])?;
        }
        if differ.random.once_in(TURNS) {
            differ.wrapped(&shapes)?;
        }
        differ.split_some()?;
        let image = match differ.random.below(2000) {
            0 => crowded[differ.random.index(4)].1.clone(),
            1..=20 => shapes[differ.random.index(shapes.len())].1.clone(),
            _ => volumes::volume(&mut differ.random),
        };
        differ.volume(image)?;
    }
    Ok(differ.report)
}

impl Differ {
    fn new(seed: u64) -> Differ {
        Differ {
            random: Random::new(seed),
            report: Report {
                seed,
                calls: 0,
                bare: [[0; NUMBERS]; KINDS.len()],
                wrapped: [[0; NUMBERS]; KINDS.len()],
                bare_splits: Splits::default(),
                wrapped_splits: Splits::default(),
                clumps: Clumps::default(),
                split_clumps: Clumps::default(),
                quicks: Quicks::default(),
            },
            memory: Memory::default(),
        }
    }

    /// A run of calls on one volume; in between, calls on damaged copies of it, and writes in parts.
    fn volume(&mut self, mut image: Vec<u8>) -> Compared {
        let rounds = if image.len() > LARGE {
            4
        } else {
            self.random.between(5, 60)
        };
        for _ in 0..rounds {
            let kind = if self.random.once_in(40) {
                WRAP
            } else {
                self.random.index(ELEVEN.len())
            };
            self.kinds(Form::Bare, &mut image, &[kind])?;
            if self.random.once_in(8) {
                let mut damaged = image.clone();
                for _ in 0..=self.random.index(3) {
                    volumes::damage(&mut self.random, &mut damaged);
                }
                self.kinds(Form::Bare, &mut damaged, &ELEVEN)?;
            }
            if self.random.once_in(40) {
                self.split(Form::Bare, &image)?;
            }
        }
        Ok(())
    }

    /// A run of calls on one wrapped file; in between, calls on damaged copies of it, renames and quick finds, which
    /// take it for an image, and wraps of its image, which is damaged at times.
    fn wrapped(&mut self, shapes: &[(&str, Vec<u8>)]) -> Compared {
        let shape = &shapes[self.random.index(shapes.len())].1;
        let image = if shape.len() == DATA && self.random.once_in(2) {
            shape.clone()
        } else {
            volumes::disk_400k(&mut self.random)
        };
        let mut file = volumes::wrap_up(&mut self.random, &image);
        for _ in 0..self.random.between(5, 40) {
            let kind = self.random.index(NINE.len());
            self.kinds(Form::Wrapped, &mut file, &[kind])?;
            if self.random.once_in(8) {
                let mut damaged = file.clone();
                for _ in 0..=self.random.index(2) {
                    volumes::damage_wrapped(&mut self.random, &mut damaged);
                }
                self.kinds(Form::Wrapped, &mut damaged, &NINE)?;
            }
            if self.random.once_in(16) {
                self.kinds(Form::Bare, &mut file, &[RENAME, QUICK_FIND])?;
            }
            if self.random.once_in(8) {
                let mut image = file[HEADER..HEADER + DATA].to_vec();
                if self.random.once_in(2) {
                    volumes::damage(&mut self.random, &mut image);
                }
                self.kinds(Form::Bare, &mut image, &[WRAP])?;
            }
        }
        Ok(())
    }

    /// Calls of these kinds, one after another.
    fn kinds(&mut self, form: Form, file: &mut [u8], kinds: &[usize]) -> Compared {
        for &kind in kinds {
            let call = choose::call(&mut self.random, image_in(form, file), kind);
            self.compare(form, file, call.clone())?;
            if let Call::QuickFind(name) = call {
                self.quick(file, name)?;
            }
        }
        Ok(())
    }

    /// Makes the call on both sides; the file becomes what both left. Gives the number that both gave.
    fn compare(&mut self, form: Form, file: &mut [u8], call: Call) -> Result<u8, Box<Difference>> {
        let memory = &mut self.memory;
        memory.prepare(file, call.buffer_length(), self.random.index(8));
        let (lent, lent_buffer) = (&mut memory.lent, &mut memory.lent_buffer);
        let archive = answer::by_archive(&call, form, lent.bytes_mut(), lent_buffer.bytes_mut());
        let baseline = answer::by_baseline(&call, form, file, &mut memory.buffer);
        let (before, buffer) = (&memory.before, &memory.buffer);
        let left = Left {
            file: lent.bytes(),
            buffer: lent_buffer.bytes(),
        };
        let mut found = differences(&left, &Left { file, buffer });
        if !lent.guards_stand() || !lent_buffer.guards_stand() {
            found.push("the archive wrote beside the image, the file or the buffer".to_string());
        }
        let number = baseline.number();
        if (!call.changes() || number != 0) && left.file != *before {
            found.push("the image or file was changed, where nothing may change".to_string());
        }
        if number != 0 && buffer.iter().any(|&byte| byte != BUFFER_BYTE) {
            found.push("the buffer was changed, where nothing may change".to_string());
        }
        self.report.count(form, &call, number);
        let (image, after) = (image_in(form, before), image_in(form, file));
        self.report.clumps.count(&call, image, after, number);
        if archive == baseline && found.is_empty() {
            return Ok(number);
        }
        Err(Box::new(Difference {
            seed: self.report.seed,
            at: self.report.calls,
            call,
            form,
            answers: [("archive", archive), ("baseline", baseline)],
            found,
            file: before.clone(),
        }))
    }
}

impl Report {
    fn count(&mut self, form: Form, call: &Call, number: u8) {
        self.calls += 1;
        let numbers = match form {
            Form::Bare => &mut self.bare,
            Form::Wrapped => &mut self.wrapped,
        };
        numbers[call.kind()][usize::from(number)] += 1;
    }
}

/// The image by which a call's arguments are chosen.
fn image_in(form: Form, file: &[u8]) -> &[u8] {
    match form {
        Form::Bare => file,
        Form::Wrapped => file.get(HEADER..HEADER + DATA).unwrap_or_default(),
    }
}

/// Where the images or files and the buffers differ that the archive and the baseline have left.
fn differences(archive: &Left, baseline: &Left) -> Vec<String> {
    let sides = ["archive", "baseline"];
    let mut found = bytes_that_differ("file", sides, archive.file, baseline.file);
    found.extend(bytes_that_differ("buffer", sides, archive.buffer, baseline.buffer));
    found
}

/// The first bytes that differ in what two sides have left.
fn bytes_that_differ(what: &str, sides: [&str; 2], one: &[u8], other: &[u8]) -> Vec<String> {
    if one == other {
        return Vec::new();
    }
    let differing = one.iter().zip(other).enumerate().filter(|(_, (a, b))| a != b);
    let line = |(at, (a, b))| format!("{what} at byte {at}: {} {a:02X}, {} {b:02X}", sides[0], sides[1]);
    differing.take(3).map(line).collect()
}

impl fmt::Display for Difference {
    fn fmt(&self, f: &mut fmt::Formatter) -> fmt::Result {
        writeln!(f, "difference at call {} of seed {}", self.at, self.seed)?;
        writeln!(f, "call, {:?}: {:?}", self.form, self.call)?;
        let [(one, given), (other, again)] = &self.answers;
        if given == again {
            writeln!(f, "both gave {}", given.number())?;
        } else {
            writeln!(f, "{one} gave {given:?}")?;
            writeln!(f, "{other} gave {again:?}")?;
        }
        self.found.iter().try_for_each(|line| writeln!(f, "{line}"))
    }
}

/// Ways that calls went, each with its count.
fn each_with_its_count(ways: &[&str], counts: &[u64]) -> String {
    let told: Vec<_> = ways
        .iter()
        .zip(counts)
        .map(|(way, count)| format!("{way} {count}"))
        .collect();
    told.join(", ")
}

impl fmt::Display for Report {
    fn fmt(&self, f: &mut fmt::Formatter) -> fmt::Result {
        writeln!(f, "seed {}: {} calls, no difference", self.seed, self.calls)?;
        write_numbers(f, "", &self.bare)?;
        write_numbers(f, "wrapped ", &self.wrapped)?;
        write!(f, "{}wrapped {}", self.bare_splits, self.wrapped_splits)?;
        write!(f, "writes and clumps: {}", self.clumps)?;
        write!(f, "writes split and clumps: {}", self.split_clumps)?;
        write!(f, "{}", self.quicks)
    }
}

/// A line for each call that was made: how often it gave each number.
fn write_numbers(f: &mut fmt::Formatter, form: &str, numbers: &Numbers) -> fmt::Result {
    for (kind, row) in KINDS.iter().zip(numbers) {
        if row.iter().all(|&count| count == 0) {
            continue;
        }
        write!(f, "{form}{kind}")?;
        for (number, count) in row.iter().enumerate().filter(|(_, &count)| count > 0) {
            write!(f, " {number}:{count}")?;
        }
        writeln!(f)?;
    }
    Ok(())
}

#[cfg(test)]
mod tests {
    use super::*;

    #[test]
    fn a_short_run_has_no_difference() {
        let report = run(1, 10_000).unwrap_or_else(|difference| panic!("{difference}"));
        assert!(report.calls >= 10_000);
        assert!(report.bare[..WRAP].iter().all(|row| row[0] > 0), "each call succeeds");
        assert!(report.bare[5][21] > 0, "create refuses a long name");
        for number in [11, 12, 13, 14, 15, 18, 21] {
            assert!(report.bare[RENAME][number] > 0, "rename gives {number}");
        }
        for number in [0, 1, 2, 3, 4, 12, 13] {
            assert!(report.bare[QUICK_FIND][number] > 0, "quick find gives {number}");
        }
    }

    #[test]
    fn wrapped_files_have_no_difference() {
        let mut differ = Differ::new(1);
        let shapes = images::shapes();
        for _ in 0..40 {
            let run = differ.wrapped(&shapes);
            run.unwrap_or_else(|difference| panic!("{difference}"));
        }
        let Report { bare, wrapped, .. } = differ.report;
        for number in [0, 22, 23, 24] {
            let given = wrapped[..RENAME].iter().all(|row| row[number] > 0);
            assert!(given, "each call gives {number}");
        }
        assert!(
            bare[WRAP][0] > 0 && bare[WRAP][22] > 0,
            "images are wrapped and refused"
        );
        for kind in [RENAME, QUICK_FIND] {
            assert!(bare[kind][1] > 0, "a wrapped file is no image");
        }
    }

    #[test]
    fn a_seed_gives_the_same_run() {
        let numbers = [1, 1, 2].map(|seed| run(seed, 500).map(|report| report.bare).ok());
        assert_eq!(numbers[0], numbers[1]);
        assert_ne!(numbers[0], numbers[2]);
    }

    #[test]
    fn bytes_that_differ_are_told() {
        let one = Left {
            file: &[1, 2, 3],
            buffer: &[],
        };
        let other = Left {
            file: &[1, 2, 0xAB],
            buffer: &[],
        };
        assert_eq!(differences(&one, &other), ["file at byte 2: archive 03, baseline AB"]);
        assert!(differences(&one, &one).is_empty());
    }

    #[test]
    fn a_guard_that_fell_is_told() {
        let mut lent = Lent::default();
        lent.lend(&[1, 2], 3);
        lent.bytes_mut().fill(0);
        assert!(lent.guards_stand());
        lent.overrun();
        assert!(!lent.guards_stand());
    }
}
