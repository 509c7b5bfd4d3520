//! The verb `help`.

use std::ffi::OsString;

use super::{unknown, Verb, VERBS};
use crate::console::Console;
use crate::failure::Failure;
use crate::names;

const NOTES: &str = "\
-r is the resource fork; without it the data fork. With put and append FILE may
be - for standard input. Options may stand anywhere; -- ends them.
But for find, rename, wrap and unwrap, IMAGE may also be a Disk Copy 4.2 file of
a 400K disk: its header tells, or --wrapped and --bare say which it is.
A name is text for Mac OS Roman, \\xNN for any byte, \\\\ for a backslash.
The case of a to z and of à ä ã å ç é ñ ö õ ü æ ø œ does not count in it.
DATE is 'YYYY-MM-DD HH:MM:SS' by the desk's own clock, @N for the stored
number, or now, this machine's local clock.
Exit status: 0 done; 1 refused by a call; 2 could not be carried out.
";

/// Shows all verbs, or one.
pub fn help(words: &[OsString], console: &mut Console) -> Result<(), Failure> {
    match words {
        [] => console.show(all()),
        [name] if name == "help" => console.show("usage: mfs help [VERB]\n"),
        [name] => match VERBS.iter().find(|verb| name == verb.name) {
            Some(verb) => console.show(one(verb)),
            None => Err(unknown(format!("there is no verb {}", names::path(name)))),
        },
        [_, surplus, ..] => Err(unknown(format!("help: {} is too much", names::path(surplus)))),
    }
}

fn all() -> String {
    let mut text = String::from("mfs: what can be done with an MFS disk image\n\n");
    for verb in &VERBS {
        text.push_str(&line(verb.name, verb.takes, verb.does));
    }
    text.push_str(&line("help", "[VERB]", "this, or more on one verb"));
    text + "\n" + NOTES
}

/// A verb's arguments and, on a line of its own, what it does.
fn line(name: &str, takes: &str, does: &str) -> String {
    format!("  mfs {name} {takes}\n      {does}\n")
}

fn one(verb: &Verb) -> String {
    format!("{}\n\n{}\n{}\n{NOTES}", verb.usage(), verb.does, verb.more)
}
