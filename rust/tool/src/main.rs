//! The tool `mfs`: what can be done with an MFS disk image, in plain verbs. It holds no rule of the volume: it reads a
//! file, makes the proved calls on the copy in memory, shows what they say, and saves.

mod args;
mod console;
mod dates;
mod failure;
mod files;
mod json;
mod listing;
mod map;
mod names;
mod save;
mod streams;
mod verbs;

use std::process::ExitCode;

fn main() -> ExitCode {
    let mut console = console::Console::new();
    let words: Vec<_> = std::env::args_os().skip(1).collect();
    if let Err(failure) = verbs::run(&words, &mut console) {
        console.report(&failure);
    }
    ExitCode::from(console.status())
}
