//! What a call gives back, in the archive's form: by the archive, and by the baseline brought to that form.

use crate::baseline::{self, Entry, Fork, Form, Name, Quick, Refusal};
use crate::call::Call;
use crate::foreign::{self, BlockAnswer, CheckAnswer, EntryAnswer, FindAnswer, QuickFindAnswer, ReadAnswer};

#[derive(Debug, PartialEq, Eq)]
pub enum Answer {
    Check(CheckAnswer),
    Entry(EntryAnswer),
    Find(FindAnswer),
    QuickFind(QuickFindAnswer),
    Block(BlockAnswer),
    Read(ReadAnswer),
    Change(u8),
}

impl Answer {
    pub fn number(&self) -> u8 {
        match self {
            Answer::Check(answer) => answer.number,
            Answer::Entry(answer) => answer.number,
            Answer::Find(answer) => answer.number,
            Answer::QuickFind(answer) => answer.number,
            Answer::Block(answer) => answer.number,
            Answer::Read(answer) => answer.number,
            Answer::Change(number) => *number,
        }
    }
}

pub fn by_archive(call: &Call, form: Form, file: &mut [u8], buffer: &mut [u8]) -> Answer {
    match call {
        Call::Check => Answer::Check(foreign::check(form, file)),
        Call::Entry(place) => Answer::Entry(foreign::entry(form, file, *place)),
        Call::Find(name) => Answer::Find(foreign::find(form, file, name)),
        Call::Block(name, fork, place) => Answer::Block(foreign::block(form, file, name, *fork, *place)),
        Call::Read(name, fork, offset, _) => Answer::Read(foreign::read(form, file, name, *fork, *offset, buffer)),
        Call::Create(name, finder, created, changed) => {
            Answer::Change(foreign::create(form, file, name, finder, *created, *changed))
        }
        Call::Write(name, fork, offset, bytes, changed) => {
            Answer::Change(foreign::write(form, file, name, *fork, *offset, bytes, *changed))
        }
        Call::Cut(name, fork, size, changed) => Answer::Change(foreign::cut(form, file, name, *fork, *size, *changed)),
        Call::Delete(name) => Answer::Change(foreign::delete(form, file, name)),
        Call::Rename(name, new, changed) => Answer::Change(foreign::rename(file, name, new, *changed)),
        Call::QuickFind(name) => Answer::QuickFind(foreign::quick_find(file, name)),
        Call::Wrap(name, format, _) => Answer::Change(foreign::wrap(file, name, *format, buffer)),
    }
}

pub fn by_baseline(call: &Call, form: Form, file: &mut [u8], buffer: &mut [u8]) -> Answer {
    match call {
        Call::Check => {
            let told = form.image(file).and_then(baseline::check);
            let (number, facts) = parts(told.map(facts), foreign::Facts::default());
            Answer::Check(CheckAnswer { number, facts })
        }
        Call::Entry(place) => {
            let told = form.image(file).and_then(|image| baseline::entry(image, *place));
            let (number, entry) = parts(told.map(entry), NO_ENTRY);
            Answer::Entry(EntryAnswer { number, entry })
        }
        Call::Find(name) => {
            let found = form.image(file).and_then(|image| baseline::find(image, name));
            let (number, place, entry) = placed(found);
            Answer::Find(FindAnswer { number, place, entry })
        }
        Call::Block(name, fork, place) => {
            let told = form.image(file);
            let told = told.and_then(|image| baseline::block(image, name, Fork::of(*fork), *place));
            let (number, block) = parts(told, 0);
            Answer::Block(BlockAnswer { number, block })
        }
        Call::Read(name, fork, offset, _) => {
            let read = form.image(file);
            let read = read.and_then(|image| baseline::read(image, name, Fork::of(*fork), *offset, buffer));
            let (number, count) = parts(read, 0);
            Answer::Read(ReadAnswer { number, count })
        }
        Call::Create(..) | Call::Write(..) | Call::Cut(..) | Call::Delete(..) => {
            changed_by(form.change(file, |image| call.change(image)))
        }
        Call::Rename(..) => changed_by(call.change(file)),
        Call::QuickFind(name) => Answer::QuickFind(quick(baseline::quick_find(file, name))),
        Call::Wrap(name, format, _) => changed_by(baseline::wrap(file, name, *format, buffer)),
    }
}

/// The number, and the value, which is zero for a refusal.
fn parts<T>(result: Result<T, Refusal>, zero: T) -> (u8, T) {
    match result {
        Ok(value) => (0, value),
        Err(refusal) => (refusal.number(), zero),
    }
}

/// The number, the place and the entry of a name.
fn placed<N: Into<Name>>(found: Result<(u64, Entry<N>), Refusal>) -> (u8, u64, foreign::Entry) {
    let (number, (place, entry)) = parts(found.map(|(place, found)| (place, entry(found))), (0, NO_ENTRY));
    (number, place, entry)
}

fn quick(Quick { found, looked }: Quick) -> QuickFindAnswer {
    let (number, place, entry) = placed(found);
    QuickFindAnswer {
        number,
        place,
        entry,
        looked,
    }
}

fn changed_by(result: Result<(), Refusal>) -> Answer {
    Answer::Change(parts(result, ()).0)
}

const NO_FORK: foreign::ForkFacts = foreign::ForkFacts {
    start: 0,
    logical: 0,
    physical: 0,
};

const NO_ENTRY: foreign::Entry = foreign::Entry {
    flags: 0,
    version: 0,
    finder: [0; 16],
    number: 0,
    data: NO_FORK,
    resource: NO_FORK,
    created: 0,
    changed: 0,
    name_length: 0,
    name: [0; 255],
};

fn facts(facts: baseline::Facts) -> foreign::Facts {
    foreign::Facts {
        signature: facts.signature,
        created: facts.created,
        backup: facts.backup,
        attributes: facts.attributes,
        files: facts.files,
        directory_start: u32::from(facts.directory_start),
        directory_length: facts.directory_length,
        allocation_blocks: facts.allocation_blocks,
        block_size: facts.block_size,
        clump_size: facts.clump_size,
        allocation_start: u32::from(facts.allocation_start),
        next_number: facts.next_number,
        free_blocks: facts.free_blocks,
        name_length: facts.name_length,
        name: facts.name,
    }
}

fn entry<N: Into<Name>>(entry: Entry<N>) -> foreign::Entry {
    let name = entry.name.into();
    foreign::Entry {
        flags: entry.flags,
        version: entry.version,
        finder: entry.finder,
        number: entry.number,
        data: fork(entry.data),
        resource: fork(entry.resource),
        created: entry.created,
        changed: entry.changed,
        name_length: name.length,
        name: name.bytes,
    }
}

fn fork(facts: baseline::ForkFacts) -> foreign::ForkFacts {
    foreign::ForkFacts {
        start: facts.start,
        logical: facts.logical,
        physical: facts.physical,
    }
}
