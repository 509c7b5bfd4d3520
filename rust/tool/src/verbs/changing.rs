//! The verbs that change an image. Each makes its calls on a copy, and the copy is saved if none was refused.

use std::ffi::OsStr;
use std::path::Path;

use mfs::{Fork, Refusal, Volume};

use super::{misused, name, refused, take_out, unfit};
use crate::args::Arguments;
use crate::console::Console;
use crate::dates;
use crate::failure::Failure;
use crate::files;
use crate::names;
use crate::save::Target;

const NO_DATE: &str = "--date is missing: a disk keeps the dates of the desk's own clock, which nobody but you knows. \
                       Give 'YYYY-MM-DD HH:MM:SS', @N for the stored number, or now for this machine's local clock";

/// The refusal of a name's length, which `rename` may give for either of two.
const NAME_LENGTH: u8 = 12;

/// The refusal of a write for want of room.
const NO_ROOM: u8 = 17;

/// Makes calls on a copy of an image, bare or wrapped, and saves it if they were done.
fn change(
    arguments: &Arguments,
    path: &OsStr,
    calls: impl FnOnce(Volume, &mut [u8]) -> Result<(), Failure>,
) -> Result<(), Failure> {
    let about = |words: String| Failure::about(&names::path(path), words);
    let target = Target::open(path).map_err(about)?;
    let Some(old) = target.old() else {
        return Err(about("there is no such file".to_string()));
    };
    let read = files::contents(old).map_err(|error| about(files::unread(&error)))?;
    let mut file = read.clone();
    calls(arguments.volume(&read), &mut file)?;
    target.replace(&file, Some(&read)).map_err(about)
}

/// The date that `--date` gives.
fn date(arguments: &Arguments) -> Result<u32, Failure> {
    let given = arguments.value("--date").ok_or_else(|| misused(NO_DATE))?;
    dates::parsed(given).map_err(misused)
}

/// `put`: the file is created, or its fork is cut to nothing; then the bytes are written.
pub fn put(arguments: &Arguments, _: &mut Console) -> Result<(), Failure> {
    let (path, file) = (arguments.operand(0), arguments.operand(1));
    let date = date(arguments)?;
    let name = name_for(arguments, file)?;
    let finder = finder(arguments)?;
    let fork = arguments.fork();
    change(arguments, path, |volume, image| {
        let bytes = files::read_or_input(file)?;
        // where find refuses, create says why
        let ready = match volume.find(image, &name) {
            Ok(_) => volume.cut(image, &name, fork, 0, date),
            Err(_) => volume.create(image, &name, &finder, date, date),
        };
        ready.map_err(refused(path))?;
        store(path, volume, image, (&name, fork), |image| {
            volume.write(image, &name, fork, 0, &bytes, date)
        })
    })
}

/// Writes to a fork. Where there is no room, the refusal tells of other forks' spare blocks that would make room.
fn store(
    path: &OsStr,
    volume: Volume,
    image: &mut [u8],
    own: (&[u8], Fork),
    write: impl Fn(&mut [u8]) -> Result<(), Refusal>,
) -> Result<(), Failure> {
    write(image).map_err(|refusal| {
        let full = refusal.number() == NO_ROOM;
        let spare = full.then(|| spare_blocks(volume, image, own, &write)).flatten();
        Failure::Refused {
            image: names::path(path),
            refusal,
            remark: spare.map(|spare| format!("spare blocks would make room: {spare}; see mfs help cut")),
        }
    })
}

/// The spare blocks of other forks, as many as the write needs to have room: on a copy, forks are cut to their own
/// length until it does.
fn spare_blocks(
    volume: Volume,
    image: &[u8],
    (name, fork): (&[u8], Fork),
    write: impl Fn(&mut [u8]) -> Result<(), Refusal>,
) -> Option<String> {
    let (own, _) = volume.find(image, name).ok()?;
    let mut copy = image.to_vec();
    let mut free = volume.check(image).ok()?.free_blocks;
    let mut spare = Vec::new();
    for (entry, place) in volume.entries(image).ok()?.iter().zip(0..) {
        for (other, title) in [(Fork::Data, ""), (Fork::Resource, "the resource fork of ")] {
            let length = entry.fork(other).logical.into();
            if (place, other) == (own, fork) {
                continue;
            }
            // a locked file refuses, and keeps its blocks
            let _ = volume.cut(&mut copy, &entry.name, other, length, entry.changed);
            let more = volume.check(&copy).ok()?.free_blocks;
            if more > free {
                spare.push(format!("{} of {title}{}", more - free, names::shown(&entry.name)));
                if write(&mut copy).is_ok() {
                    return Some(spare.join(", "));
                }
            }
            free = more;
        }
    }
    None
}

/// The name that a new file gets: what `--as` gives, or its own on this machine.
fn name_for(arguments: &Arguments, file: &OsStr) -> Result<Vec<u8>, Failure> {
    if let Some(given) = arguments.value("--as") {
        return name(given);
    }
    let own = match Path::new(file).file_name() {
        Some(own) if file != "-" => own,
        _ => return Err(misused("the file has no name here: give one by --as")),
    };
    names::of_file(own).map_err(|why| unfit("the name", own, &format!("{why}; give another by --as")))
}

/// The Finder's bytes of a new file.
fn finder(arguments: &Arguments) -> Result<[u8; 16], Failure> {
    let mut finder = [0; 16];
    let (kind, rest) = finder.split_at_mut(4);
    let (creator, _) = rest.split_at_mut(4);
    for (option, four) in [("--type", kind), ("--creator", creator)] {
        match arguments.value(option) {
            None => four.copy_from_slice(b"????"),
            Some(given) => match names::parsed(given) {
                Ok(bytes) if bytes.len() == four.len() => four.copy_from_slice(&bytes),
                Ok(_) => return Err(unfit(option, given, "it is not four characters")),
                Err(why) => return Err(unfit(option, given, &why)),
            },
        }
    }
    Ok(finder)
}

/// `append`: bytes written at the fork's end.
pub fn append(arguments: &Arguments, _: &mut Console) -> Result<(), Failure> {
    let (path, file) = (arguments.operand(0), arguments.operand(2));
    let date = date(arguments)?;
    let name = name(arguments.operand(1))?;
    let fork = arguments.fork();
    change(arguments, path, |volume, image| {
        let bytes = files::read_or_input(file)?;
        // where find refuses, write does too, and says why
        let found = volume.find(image, &name);
        let end = found.map_or(0, |(_, entry)| entry.fork(fork).logical);
        store(path, volume, image, (&name, fork), |image| {
            volume.write(image, &name, fork, end.into(), &bytes, date)
        })
    })
}

/// `cut`: the fork's first bytes stay.
pub fn cut(arguments: &Arguments, _: &mut Console) -> Result<(), Failure> {
    let path = arguments.operand(0);
    let date = date(arguments)?;
    let name = name(arguments.operand(1))?;
    let length = length(arguments.operand(2))?;
    let fork = arguments.fork();
    change(arguments, path, |volume, image| {
        volume.cut(image, &name, fork, length, date).map_err(refused(path))
    })
}

fn length(given: &OsStr) -> Result<u64, Failure> {
    let digits = given
        .to_str()
        .filter(|text| text.bytes().all(|byte| byte.is_ascii_digit()));
    let length = digits.and_then(|digits| digits.parse().ok());
    length.ok_or_else(|| {
        unfit(
            "the length",
            given,
            &format!("it is not a number from 0 to {}", u64::MAX),
        )
    })
}

/// `delete`: all files named, or none.
pub fn delete(arguments: &Arguments, console: &mut Console) -> Result<(), Failure> {
    let path = arguments.operand(0);
    let given = arguments.operands().get(1..).unwrap_or_default();
    let names: Result<Vec<_>, _> = given.iter().map(|given| name(given)).collect();
    let names = names?;
    change(arguments, path, |volume, image| {
        let mut last = Ok(());
        for name in &names {
            let Err(refusal) = volume.delete(image, name) else {
                continue;
            };
            if let Err(earlier) = &last {
                console.report(earlier);
            }
            last = Err(Failure::Refused {
                image: names::path(path),
                refusal,
                remark: (names.len() > 1).then(|| names::shown(name)),
            });
        }
        last
    })
}

/// `rename`: a file of a bare image gets another name.
pub fn rename(arguments: &Arguments, _: &mut Console) -> Result<(), Failure> {
    let path = arguments.operand(0);
    let date = date(arguments)?;
    let (old, new) = (name(arguments.operand(1))?, name(arguments.operand(2))?);
    change(arguments, path, |volume, image| {
        let Err(refusal) = volume.rename(image, &old, &new, date) else {
            return Ok(());
        };
        let remark = match volume {
            Volume::Wrapped => Some(take_out("rename")),
            Volume::Bare if refusal.number() == NAME_LENGTH => Some(match volume.find(image, &old) {
                Err(same) if same == refusal => "the old name".to_string(),
                _ => "the new name".to_string(),
            }),
            Volume::Bare => None,
        };
        Err(Failure::Refused {
            image: names::path(path),
            refusal,
            remark,
        })
    })
}
