//! The verbs: which there are, what each takes, and what each does.

mod changing;
mod help;
mod reading;

use std::ffi::{OsStr, OsString};

use mfs::Refusal;

use crate::args::Arguments;
use crate::console::Console;
use crate::failure::Failure;
use crate::names;

/// A verb of the tool.
struct Verb {
    name: &'static str,
    /// Its arguments, as a person reads them.
    takes: &'static str,
    /// What it does, in one line.
    does: &'static str,
    /// What else is to be known.
    more: &'static str,
    options: &'static [&'static str],
    fewest: usize,
    most: usize,
    run: fn(&Arguments, &mut Console) -> Result<(), Failure>,
}

const ANY: usize = usize::MAX;

const VERBS: [Verb; 13] = [
    Verb {
        name: "check",
        takes: "[--json] IMAGE..",
        does: "sound, or the refusal",
        more: "",
        options: &["--json", "--wrapped", "--bare"],
        fewest: 1,
        most: ANY,
        run: reading::check,
    },
    Verb {
        name: "list",
        takes: "[-l | --json] IMAGE",
        does: "the files of a disk",
        more: "\
Without an option: a line for the volume, then for each file its number, data
and resource length, dates of creation and change as stored, and name; bytes
outside 20 to 7E hex are shown as ?. -l is a table for people.
",
        options: &["-l", "--json", "--wrapped", "--bare"],
        fewest: 1,
        most: 1,
        run: reading::list,
    },
    Verb {
        name: "info",
        takes: "[--json] IMAGE",
        does: "the volume's facts",
        more: "\
For a wrapped file also the name, the format byte and whether it has tags.
",
        options: &["--json", "--wrapped", "--bare"],
        fewest: 1,
        most: 1,
        run: reading::info,
    },
    Verb {
        name: "find",
        takes: "[--json] IMAGE NAME",
        does: "a file's facts by its name, after checks 1 to 4 alone",
        more: "\
Looks at the volume's facts and at the directory, up to the block that has the
name, and tells how many directory blocks that were. Only checks 1 to 4 are run:
mfs check runs all, and a disk that it refuses may be answered here. Of a
damaged directory block only the entries before the first bad one are read.
A Disk Copy 4.2 file is refused: where mfs check finds it sound, mfs unwrap
makes a bare image of it.
",
        options: &["--json"],
        fewest: 2,
        most: 2,
        run: reading::find,
    },
    Verb {
        name: "map",
        takes: "IMAGE",
        does: "a picture of the allocation blocks, and whose they are",
        more: "\
A dot is a free block and a letter a fork's; the legend has each fork with its
blocks in order. With more than 52 forks the letters come again.
",
        options: &["--wrapped", "--bare"],
        fewest: 1,
        most: 1,
        run: reading::map,
    },
    Verb {
        name: "get",
        takes: "[-r] IMAGE NAME [FILE]",
        does: "a fork's bytes into a file",
        more: "\
Without FILE, or for -, they go to standard output.
",
        options: &["-r", "--wrapped", "--bare"],
        fewest: 2,
        most: 3,
        run: reading::get,
    },
    Verb {
        name: "put",
        takes: "[-r] [--as NAME] [--type XXXX] [--creator XXXX] --date DATE IMAGE FILE",
        does: "a file of the same bytes: created, or its fork replaced",
        more: "\
Without --as the name is FILE's own. A file that is there keeps its number,
type, creator and creation date. A new one has a name of at most 31 characters,
and the type and creator given, ???? for each that is not.
A fork that needs blocks takes whole clumps, by the disk's clump size, if so
many are free; else what it needs. Blocks without a byte are spare: mfs cut
frees them.
",
        options: &["-r", "--as", "--type", "--creator", "--date", "--wrapped", "--bare"],
        fewest: 2,
        most: 2,
        run: changing::put,
    },
    Verb {
        name: "append",
        takes: "[-r] --date DATE IMAGE NAME FILE",
        does: "bytes behind the fork's end",
        more: "\
Blocks are taken as by put.
",
        options: &["-r", "--date", "--wrapped", "--bare"],
        fewest: 3,
        most: 3,
        run: changing::append,
    },
    Verb {
        name: "cut",
        takes: "[-r] --date DATE IMAGE NAME LENGTH",
        does: "the fork's first bytes stay",
        more: "\
Every block that they do not need is free then. LENGTH may be the fork's own
length, by which only spare blocks go. The change date becomes DATE then too:
to keep the old one, give it again; mfs list -l shows it.
",
        options: &["-r", "--date", "--wrapped", "--bare"],
        fewest: 3,
        most: 3,
        run: changing::cut,
    },
    Verb {
        name: "delete",
        takes: "IMAGE NAME..",
        does: "files taken out; all of them or none",
        more: "",
        options: &["--wrapped", "--bare"],
        fewest: 2,
        most: ANY,
        run: changing::delete,
    },
    Verb {
        name: "rename",
        takes: "--date DATE IMAGE OLD NEW",
        does: "another name for a file",
        more: "\
NEW has at most 31 characters and is no other file's name; OLD in another case
will do. The file keeps its number, type, creator, creation date and forks, and
its change date is DATE. A Disk Copy 4.2 file is refused: mfs unwrap makes a
bare image of it.
",
        options: &["--date"],
        fewest: 3,
        most: 3,
        run: changing::rename,
    },
    Verb {
        name: "wrap",
        takes: "[--name NAME] [--format BYTE] IMAGE FILE",
        does: "a Disk Copy 4.2 file of a bare image of 400K",
        more: "\
The file has no tags. Its name has at most 63 characters; without --name it is
the volume's. BYTE is a number from 0 to 255, in decimal or as 0xNN; without
--format it is 0x02. For - the file goes to standard output.
",
        options: &["--name", "--format"],
        fewest: 2,
        most: 2,
        run: reading::wrap,
    },
    Verb {
        name: "unwrap",
        takes: "FILE IMAGE",
        does: "the bare image in a Disk Copy 4.2 file",
        more: "\
The file's header and tags are left out. For - the image goes to standard
output.
",
        options: &[],
        fewest: 2,
        most: 2,
        run: reading::unwrap,
    },
];

impl Verb {
    fn usage(&self) -> String {
        format!("usage: mfs {} {}", self.name, self.takes)
    }

    fn misused(&self, words: String) -> Failure {
        Failure::Usage {
            words: format!("{}: {words}", self.name),
            usage: self.usage(),
        }
    }

    fn arguments(&self, words: &[OsString]) -> Result<Arguments, Failure> {
        let arguments = Arguments::parse(words, self.options).map_err(|words| self.misused(words))?;
        let count = arguments.operands().len();
        if count < self.fewest {
            return Err(self.misused("something is missing".to_string()));
        }
        if let Some(surplus) = arguments.operands().get(self.most) {
            return Err(self.misused(format!("{} is too much", names::path(surplus))));
        }
        Ok(arguments)
    }
}

/// Runs the command that these words are.
pub fn run(words: &[OsString], console: &mut Console) -> Result<(), Failure> {
    let Some((name, rest)) = words.split_first() else {
        return Err(unknown("a verb is missing".to_string()));
    };
    if name == "help" || name == "--help" || name == "-h" {
        return help::help(rest, console);
    }
    let Some(verb) = VERBS.iter().find(|verb| name == verb.name) else {
        return Err(unknown(format!("there is no verb {}", names::path(name))));
    };
    if let [only] = rest {
        if only == "--help" || only == "-h" {
            return help::help(std::slice::from_ref(name), console);
        }
    }
    let arguments = verb.arguments(rest)?;
    (verb.run)(&arguments, console).map_err(|failure| match failure {
        Failure::Usage { words, .. } => verb.misused(words),
        other => other,
    })
}

fn unknown(words: String) -> Failure {
    let verbs = VERBS.map(|verb| verb.name).join(", ");
    Failure::Usage {
        words,
        usage: format!("usage: mfs VERB ..; the verbs are {verbs} and help"),
    }
}

/// A failure of the words given; the line on how the verb is used is put to it later.
fn misused(words: impl Into<String>) -> Failure {
    let (words, usage) = (words.into(), String::new());
    Failure::Usage { words, usage }
}

/// A failure of one argument.
fn unfit(what: &str, argument: &OsStr, why: &str) -> Failure {
    misused(format!("{what} {}: {why}", names::path(argument)))
}

/// The name that an argument gives.
fn name(argument: &OsStr) -> Result<Vec<u8>, Failure> {
    names::parsed(argument).map_err(|why| unfit("the name", argument, &why))
}

/// What to do with a wrapped file where only bare images are taken.
fn take_out(and: &str) -> String {
    format!("a wrapped file: take the image out by mfs unwrap, and {and} there")
}

/// The failure of a call that refused, on an image that is named by an argument.
fn refused(path: &OsStr) -> impl Fn(Refusal) -> Failure + '_ {
    |refusal| Failure::Refused {
        image: names::path(path),
        refusal,
        remark: None,
    }
}
