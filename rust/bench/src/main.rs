//! The bench: the archive of the proved calls against a careful Rust program of the same calls, the baseline.
//!
//! - `bench differ SEED CALLS` compares them, call by call.
//! - `bench count` makes the calls whose instructions are counted; the script `speed` runs it under callgrind.
//! - `bench stack` prints the stack that each of these calls takes.

mod baseline;
mod call;
mod differ;
#[allow(unsafe_code)]
mod foreign;
mod images;
mod measure;
mod random;
mod spelling;
mod stack;
mod volumes;

use std::process::ExitCode;

const USAGE: &str = "usage: bench differ SEED CALLS, bench count or bench stack";

fn main() -> ExitCode {
    let arguments: Vec<String> = std::env::args().skip(1).collect();
    let words: Vec<&str> = arguments.iter().map(String::as_str).collect();
    match words[..] {
        ["count"] => measure::count(),
        ["stack"] => measure::stacks(),
        ["differ", seed, calls] => match (seed.parse(), calls.parse()) {
            (Ok(seed), Ok(calls)) => return differ(seed, calls),
            _ => return usage(),
        },
        _ => return usage(),
    }
    ExitCode::SUCCESS
}

fn usage() -> ExitCode {
    eprintln!("{USAGE}");
    ExitCode::from(2)
}

/// Exit status 1 for a difference, whose image or wrapped file is kept in the folder for temporary files.
fn differ(seed: u64, calls: u64) -> ExitCode {
    match differ::run(seed, calls) {
        Ok(report) => {
            print!("{report}");
            ExitCode::SUCCESS
        }
        Err(difference) => {
            print!("{difference}");
            let path = std::env::temp_dir().join(format!("bench-differ-{seed}.img"));
            match std::fs::write(&path, &difference.file) {
                Ok(()) => println!("the image or file before the call: {}", path.display()),
                Err(error) => println!(
                    "the image or file before the call is not kept: {}: {error}",
                    path.display()
                ),
            }
            ExitCode::FAILURE
        }
    }
}
