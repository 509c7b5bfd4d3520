//! Links the archive of the proved calls, `libarchive.a`, which `tools/build_archive` makes.

use std::env;
use std::path::{Path, PathBuf};

const FOLDER: &str = "MFS_ARCHIVE";
const USUAL: &str = "../../target/staticlib";

fn main() {
    println!("cargo::rerun-if-env-changed={FOLDER}");
    let folder = match env::var_os(FOLDER) {
        Some(folder) => PathBuf::from(folder),
        None => Path::new(env!("CARGO_MANIFEST_DIR")).join(USUAL),
    };
    let archive = folder.join("libarchive.a");
    println!("cargo::rerun-if-changed={}", archive.display());
    if !archive.is_file() {
        println!(
            "cargo::error={} is not there: make it with `tools/build_archive`, or let the environment variable {FOLDER} \
             name the folder that has it",
            archive.display()
        );
        return;
    }
    println!("cargo::rustc-link-search=native={}", folder.display());
    println!("cargo::rustc-link-lib=static=archive");
}
