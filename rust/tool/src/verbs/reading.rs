//! The verbs that change no image.

use std::ffi::OsStr;
use std::fs::{self, OpenOptions};
use std::io::Write;

use mfs::{Header, QuickRefusal, Refusal, Volume};

use super::{name, refused, take_out, unfit};
use crate::args::Arguments;
use crate::console::Console;
use crate::failure::Failure;
use crate::files;
use crate::json::Json;
use crate::listing;
use crate::map;
use crate::names;
use crate::save::Target;

/// What calls say of an image, bare or wrapped, that is named by an argument.
fn look<T>(
    arguments: &Arguments,
    path: &OsStr,
    calls: impl FnOnce(Volume, &[u8]) -> Result<T, Refusal>,
) -> Result<T, Failure> {
    let file = files::read(path)?;
    calls(arguments.volume(&file), &file).map_err(refused(path))
}

type Members = Vec<(&'static str, Json)>;

/// What a JSON document says of an image: these members, or the failure.
fn document<T>(path: &OsStr, seen: &Result<T, Failure>, members: impl Fn(&T) -> Members) -> Json {
    Json::Object(judged(path, "sound", seen, members))
}

/// The members of a JSON document on an image: what is true of it unless it is refused, with these members, or the
/// failure.
fn judged<T>(path: &OsStr, is: &'static str, seen: &Result<T, Failure>, members: impl Fn(&T) -> Members) -> Members {
    let mut all = vec![("image", Json::Text(names::path(path)))];
    match seen {
        Ok(seen) => {
            all.push((is, Json::Bool(true)));
            all.extend(members(seen));
        }
        Err(Failure::Refused { refusal, .. }) => all.extend([
            (is, Json::Bool(false)),
            ("refused", Json::number(refusal.number())),
            ("words", Json::text(refusal.words())),
        ]),
        Err(Failure::Trouble(words) | Failure::Usage { words, .. }) => all.push(("trouble", Json::text(words))),
    }
    all
}

/// `check`: a line for each image.
pub fn check(arguments: &Arguments, console: &mut Console) -> Result<(), Failure> {
    let json = arguments.has("--json");
    let mut documents = Vec::new();
    for path in arguments.operands() {
        let facts = look(arguments, path, Volume::check);
        if let Err(failure) = &facts {
            console.report(failure);
        }
        if json {
            documents.push(document(path, &facts, |facts| {
                vec![("volume", listing::facts_json(facts))]
            }));
        } else if let Ok(facts) = &facts {
            console.show(format!("{}: {}\n", names::path(path), listing::sound(facts)))?;
        }
    }
    if json {
        console.show(Json::Object(vec![("images", Json::List(documents))]).document())?;
    }
    Ok(())
}

/// `list`: document 01's listing, the table for people, or JSON.
pub fn list(arguments: &Arguments, console: &mut Console) -> Result<(), Failure> {
    let path = arguments.operand(0);
    let seen = look(arguments, path, |volume, file| {
        Ok((volume.check(file)?, volume.entries(file)?))
    });
    if let Err(failure) = &seen {
        console.report(failure);
    }
    if arguments.has("--json") {
        let document = document(path, &seen, |(facts, entries)| {
            let files = entries.iter().map(listing::entry_json).collect();
            vec![("volume", listing::facts_json(facts)), ("files", Json::List(files))]
        });
        return console.show(document.document());
    }
    match seen {
        Ok((facts, entries)) if arguments.has("-l") => console.show(listing::table(&facts, &entries)),
        Ok((facts, entries)) => console.show(listing::plain(&facts, &entries)),
        Err(Failure::Refused { refusal, .. }) => console.show(format!("refused {}\n", refusal.number())),
        Err(_) => Ok(()),
    }
}

/// `info`: the facts of the volume, and a wrapped file's header.
pub fn info(arguments: &Arguments, console: &mut Console) -> Result<(), Failure> {
    let path = arguments.operand(0);
    let seen = look(arguments, path, |volume, file| {
        let header = match volume {
            Volume::Bare => None,
            Volume::Wrapped => Some(Header::of(file)?),
        };
        Ok((volume.check(file)?, header))
    });
    if arguments.has("--json") {
        let document = document(path, &seen, |(facts, header)| {
            let header = header.as_ref().map(|header| ("wrapped", listing::header_json(header)));
            std::iter::once(("volume", listing::facts_json(facts)))
                .chain(header)
                .collect()
        });
        console.show(document.document())?;
    } else if let Ok((facts, header)) = &seen {
        let header = header.as_ref().map(listing::header).unwrap_or_default();
        console.show(listing::facts(facts) + &header)?;
    }
    seen.map(|_| ())
}

/// `find`: what the directory of a bare image has for a name. Only checks 1 to 4 are run.
pub fn find(arguments: &Arguments, console: &mut Console) -> Result<(), Failure> {
    let path = arguments.operand(0);
    let name = name(arguments.operand(1))?;
    let mut looked = None;
    let seen = files::read(path).and_then(|image| {
        mfs::quick_find(&image, &name).map_err(|refused| {
            looked = Some(refused.looked);
            not_found(path, &image, refused)
        })
    });
    if arguments.has("--json") {
        let mut members = judged(path, "found", &seen, listing::found_json);
        members.extend(looked.map(|looked| ("looked", Json::number(looked))));
        console.show(Json::Object(members).document())?;
    } else if let Ok(found) = &seen {
        console.show(listing::found(found))?;
    }
    seen.map(|_| ())
}

/// The failure of `find`, with the directory blocks that were looked at, or what to do with a wrapped file.
fn not_found(path: &OsStr, file: &[u8], refused: QuickRefusal) -> Failure {
    let remark = match (Volume::of(file), refused.looked) {
        (Volume::Wrapped, _) => Some(match mfs::unwrap(file) {
            Ok(_) => take_out("look"),
            Err(_) => "a wrapped file that is not sound: mfs check tells why".to_string(),
        }),
        (Volume::Bare, 0) => None,
        (Volume::Bare, looked) => Some(format!(
            "{} looked at",
            listing::count(looked.into(), "directory block")
        )),
    };
    Failure::Refused {
        image: names::path(path),
        refusal: refused.refusal,
        remark,
    }
}

/// `map`: the picture of the blocks.
pub fn map(arguments: &Arguments, console: &mut Console) -> Result<(), Failure> {
    console.show(look(arguments, arguments.operand(0), map::picture)?)
}

/// `get`: a fork's bytes.
pub fn get(arguments: &Arguments, console: &mut Console) -> Result<(), Failure> {
    let path = arguments.operand(0);
    let name = name(arguments.operand(1))?;
    let fork = arguments.fork();
    let bytes = look(arguments, path, |volume, file| volume.read_all(file, &name, fork))?;
    let file = arguments.operands().get(2).map_or(OsStr::new("-"), |file| file);
    hand_out(file, path, &bytes, console)
}

/// The format byte of a file that is wrapped without `--format`.
const FORMAT: u8 = 0x02;

/// `wrap`: a Disk Copy 4.2 file of a bare image.
pub fn wrap(arguments: &Arguments, console: &mut Console) -> Result<(), Failure> {
    let path = arguments.operand(0);
    let given = arguments.value("--name").map(name).transpose()?;
    let format = arguments.value("--format").map_or(Ok(FORMAT), byte)?;
    let image = files::read(path)?;
    // where check refuses, wrap does too, and says why
    let own = || Volume::Bare.check(&image).map_or(Vec::new(), |facts| facts.name);
    let wrapped = mfs::wrap(&image, &given.unwrap_or_else(own), format).map_err(refused(path))?;
    hand_out(arguments.operand(1), path, &wrapped, console)
}

/// A number from 0 to 255, in decimal or as `0xNN`.
fn byte(given: &OsStr) -> Result<u8, Failure> {
    let text = given.to_str().unwrap_or_default();
    let (digits, radix) = match text.strip_prefix("0x") {
        Some(digits) => (digits, 16),
        None => (text, 10),
    };
    let number = u8::from_str_radix(digits, radix).ok();
    let number = number.filter(|_| !digits.starts_with('+'));
    number.ok_or_else(|| {
        unfit(
            "--format",
            given,
            "it is not a number from 0 to 255, in decimal or as 0xNN",
        )
    })
}

/// `unwrap`: the image in a Disk Copy 4.2 file.
pub fn unwrap(arguments: &Arguments, console: &mut Console) -> Result<(), Failure> {
    let path = arguments.operand(0);
    let file = files::read(path)?;
    let image = mfs::unwrap(&file).map_err(refused(path))?;
    hand_out(arguments.operand(1), path, image, console)
}

/// Puts what was made of an image into a file that is named by an argument, `-` for standard output.
fn hand_out(file: &OsStr, image: &OsStr, bytes: &[u8], console: &mut Console) -> Result<(), Failure> {
    if file == "-" {
        return console.show(bytes);
    }
    store(file, image, bytes).map_err(|words| Failure::about(&names::path(file), words))
}

/// Puts bytes into a file, whole. A pipe or the like holds nothing that could be replaced, and is written to.
fn store(file: &OsStr, image: &OsStr, bytes: &[u8]) -> Result<(), String> {
    if fs::metadata(file).is_ok_and(|facts| !facts.is_file() && !facts.is_dir()) {
        let opened = OpenOptions::new().write(true).open(file);
        let written = opened.and_then(|mut opened| opened.write_all(bytes));
        return written.map_err(|error| files::unwritten(&error));
    }
    let target = Target::open(file)?;
    if target.is(image) {
        return Err("it is the image itself".to_string());
    }
    target.replace(bytes, None)
}
