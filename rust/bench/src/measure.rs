//! The calls whose instructions and stack are measured, made by the archive or by the baseline.

use crate::baseline::{self, Fork, Form, Refusal};
use crate::call::{Bytes, Call};
use crate::images::{self, get2, get4, put4, DATA, HEADER};
use crate::volumes::{entries, name_at};
use crate::{foreign, stack};
use std::hint::black_box;

#[derive(Clone, Copy)]
enum Side {
    Archive,
    Baseline,
}

/// A call on an image, or on a wrapped file.
struct Measured {
    name: &'static str,
    form: Form,
    file: Vec<u8>,
    call: Call,
}

/// A call with a file and a buffer of its own.
struct Prepared<'a> {
    call: &'a Call,
    form: Form,
    file: Vec<u8>,
    buffer: Vec<u8>,
}

impl Measured {
    fn new(name: &'static str, image: &[u8], call: Call) -> Measured {
        Measured {
            name,
            form: Form::Bare,
            file: image.to_vec(),
            call,
        }
    }

    fn wrapped(name: &'static str, file: &[u8], call: Call) -> Measured {
        Measured {
            form: Form::Wrapped,
            ..Measured::new(name, file, call)
        }
    }

    fn prepare(&self) -> Prepared<'_> {
        Prepared {
            call: &self.call,
            form: self.form,
            file: self.file.clone(),
            buffer: vec![0x5A; self.call.buffer_length()],
        }
    }
}

impl Prepared<'_> {
    /// Makes the call and gives its number.
    fn run(&mut self, side: Side) -> u8 {
        match side {
            Side::Archive => self.run_archive(),
            Side::Baseline => self.run_baseline(),
        }
    }

    fn run_archive(&mut self) -> u8 {
        let (form, file, buffer) = (self.form, &mut self.file, &mut self.buffer);
        match self.call {
            Call::Check => black_box(foreign::check(form, file)).number,
            Call::Entry(place) => black_box(foreign::entry(form, file, *place)).number,
            Call::Find(name) => black_box(foreign::find(form, file, name)).number,
            Call::Block(name, fork, place) => black_box(foreign::block(form, file, name, *fork, *place)).number,
            Call::Read(name, fork, offset, _) => {
                black_box(foreign::read(form, file, name, *fork, *offset, buffer)).number
            }
            Call::Create(name, finder, created, changed) => {
                foreign::create(form, file, name, finder, *created, *changed)
            }
            Call::Write(name, fork, offset, bytes, changed) => {
                foreign::write(form, file, name, *fork, *offset, bytes, *changed)
            }
            Call::Cut(name, fork, size, changed) => foreign::cut(form, file, name, *fork, *size, *changed),
            Call::Delete(name) => foreign::delete(form, file, name),
            Call::Rename(name, new, changed) => foreign::rename(file, name, new, *changed),
            Call::QuickFind(name) => {
                let answer = foreign::quick_find(file, name);
                black_box(&answer).number
            }
            Call::Wrap(name, format, _) => foreign::wrap(file, name, *format, buffer),
        }
    }

    fn run_baseline(&mut self) -> u8 {
        let (form, file, buffer) = (self.form, &mut self.file, &mut self.buffer);
        match self.call {
            Call::Check => number(form.image(file).and_then(baseline::check)),
            Call::Entry(place) => number(form.image(file).and_then(|image| baseline::entry(image, *place))),
            Call::Find(name) => number(form.image(file).and_then(|image| baseline::find(image, name))),
            Call::Block(name, fork, place) => {
                let image = form.image(file);
                number(image.and_then(|image| baseline::block(image, name, Fork::of(*fork), *place)))
            }
            Call::Read(name, fork, offset, _) => {
                let image = form.image(file);
                number(image.and_then(|image| baseline::read(image, name, Fork::of(*fork), *offset, buffer)))
            }
            Call::Create(..) | Call::Write(..) | Call::Cut(..) | Call::Delete(..) => {
                number(form.change(file, |image| self.call.change(image)))
            }
            Call::Rename(..) => number(self.call.change(file)),
            Call::QuickFind(name) => {
                let quick = baseline::quick_find(file, name);
                match &black_box(&quick).found {
                    Ok(_) => 0,
                    Err(refusal) => refusal.number(),
                }
            }
            Call::Wrap(name, format, _) => number(baseline::wrap(file, name, *format, buffer)),
        }
    }
}

fn number<T>(result: Result<T, Refusal>) -> u8 {
    match result {
        Ok(value) => {
            black_box(&value);
            0
        }
        Err(refusal) => refusal.number(),
    }
}

/// The calls on an accepted volume, all on its last file: the whole data fork is read, written over, written anew after
/// a cut to 0, also in clumps of eight blocks, and cut to half. The file is renamed where its entry stays, and where it
/// is taken out and put in again. Create has an image without that file. A 400K disk is wrapped too.
fn calls_on(image: &[u8]) -> Vec<Measured> {
    let files = u64::from(get2(image, 1036));
    let last = baseline::entry(image, files - 1).expect("an accepted volume with a file");
    let name = Bytes(last.name.to_vec());
    let (logical, blocks) = (last.data.logical, last.data.physical / get4(image, 1044));
    let bytes = Bytes(vec![0x5A; logical as usize]);
    let mut without_last = image.to_vec();
    baseline::delete(&mut without_last, &name).expect("the last file is there");
    let mut emptied = image.to_vec();
    baseline::cut(&mut emptied, &name, Fork::Data, 0, 0).expect("the last file is there");
    let (named, new) = (|| name.clone(), || Bytes(b"NEW 1".to_vec()));
    let (half, last_block) = (u64::from(logical / 2), u64::from(blocks) - 1);
    let write = Call::Write(named(), 0, 0, bytes, 3);
    let read = Call::Read(named(), 0, 0, logical as usize);
    let mut calls = vec![
        Measured::new("check", image, Call::Check),
        Measured::new("entry", image, Call::Entry(files - 1)),
        Measured::new("find", image, Call::Find(named())),
        Measured::new("block", image, Call::Block(named(), 0, last_block)),
        Measured::new("read", image, read.clone()),
        Measured::new("create", &without_last, Call::Create(new(), [7; 16], 1, 2)),
        Measured::new("write", image, write.clone()),
        Measured::new("write new", &emptied, write.clone()),
        Measured::new("write clumps", &in_clumps(&emptied), write.clone()),
        Measured::new("cut", image, Call::Cut(named(), 0, half, 3)),
        Measured::new("delete", image, Call::Delete(named())),
        Measured::new("rename", image, Call::Rename(named(), new(), 3)),
        Measured::new(
            "rename longer",
            image,
            Call::Rename(named(), Bytes(b"NEW 1234".to_vec()), 3),
        ),
    ];
    calls.extend(quick_calls(image, &name));
    if image.len() == DATA {
        calls.extend(wrapped_calls(image, read, write));
    }
    calls
}

/// Quick finds of the last file of the first directory block, beside a find of it, of the last file, and of a name that
/// is like its but for the last byte and that no file has.
fn quick_calls(image: &[u8], last: &Bytes) -> [Measured; 4] {
    let block_end = (usize::from(get2(image, 1038)) + 1) * 512;
    let in_first = entries(image).into_iter().rfind(|&at| at < block_end);
    let first = || Bytes(name_at(image, in_first.expect("the first block has a file")).to_vec());
    let mut absent = last.clone();
    *absent.0.last_mut().expect("a name") = b'~';
    [
        Measured::new("find first", image, Call::Find(first())),
        Measured::new("quick find first", image, Call::QuickFind(first())),
        Measured::new("quick find last", image, Call::QuickFind(last.clone())),
        Measured::new("quick find absent", image, Call::QuickFind(absent)),
    ]
}

/// The image with clumps of eight blocks.
fn in_clumps(image: &[u8]) -> Vec<u8> {
    let mut image = image.to_vec();
    let size = 8 * get4(&image, 1044);
    put4(&mut image, 1048, size);
    image
}

/// Calls on the wrapped file of a 400K disk without tags, and the wrap that makes it.
fn wrapped_calls(image: &[u8], read: Call, write: Call) -> [Measured; 4] {
    let file = images::wrapped(image, &[0; 64], 0x02, &[]);
    let wrap = Call::Wrap(Bytes(b"WATER".to_vec()), 0x02, HEADER + DATA);
    [
        Measured::wrapped("wrapped check", &file, Call::Check),
        Measured::wrapped("wrapped read", &file, read),
        Measured::wrapped("wrapped write", &file, write),
        Measured::new("wrap", image, wrap),
    ]
}

/// Every volume with the calls that are measured on it: every call on the plain ones, the check on the crowded ones.
fn all() -> Vec<(&'static str, Vec<Measured>)> {
    let plain = images::shapes()
        .into_iter()
        .map(|(name, image)| (name, calls_on(&image)));
    let crowded = images::crowded()
        .into_iter()
        .map(|(name, image)| (name, vec![Measured::new("check", &image, Call::Check)]));
    plain.chain(crowded).collect()
}

/// Where callgrind counts: it is told the function's name, and sees that it ends since the call is not its last step.
#[inline(never)]
fn mfs_measured(call: &mut dyn FnMut()) {
    call();
    black_box(());
}

/// Makes each call where callgrind counts, by the archive and then by the baseline, and prints a line for each with its
/// number. It was made once before, so that nothing is done for the first time.
pub fn count() {
    for (volume, calls) in all() {
        for measured in calls {
            for (side, word) in [(Side::Archive, "archive"), (Side::Baseline, "baseline")] {
                measured.prepare().run(side);
                let mut prepared = measured.prepare();
                let mut number = 0;
                mfs_measured(&mut || number = prepared.run(side));
                println!("{volume}|{}|{word}|{number}", measured.name);
            }
        }
    }
}

/// Prints for each call the bytes of stack that the archive takes, and the baseline.
pub fn stacks() {
    for (volume, calls) in all() {
        for measured in calls {
            let taken = [Side::Archive, Side::Baseline].map(|side| {
                let mut prepared = measured.prepare();
                stack::taken(&mut || {
                    prepared.run(side);
                })
            });
            println!("{volume}|{}|{}|{}", measured.name, taken[0], taken[1]);
        }
    }
}
