//! Files replaced whole. At every instant the name holds the old bytes or the new ones.
//!
//! The new bytes are written to a temporary file beside the old one, flushed to the disk and renamed over it. The old
//! file and the temporary one are locked meanwhile, so that no two runs of the tool save one file at once. A run that
//! is killed may leave its temporary file; the next run that opens the file for a change takes it away.

use std::ffi::{OsStr, OsString};
use std::fs::{self, File, Metadata, OpenOptions, Permissions, TryLockError};
use std::io::{self, ErrorKind, Write};
use std::os::unix::ffi::OsStrExt;
use std::os::unix::fs::{fchown, FileExt, MetadataExt, OpenOptionsExt, PermissionsExt};
use std::path::{Path, PathBuf};

use crate::files;
use crate::names;

/// How often an open or a link is tried again.
const TRIES: usize = 40;

/// The longest part of the file's name that the temporary file's name has.
const NAME_PART: usize = 200;

const BUSY: &str = "another mfs is at work on it";
const CHANGED: &str = "it was changed since it was read, and nothing was saved";
const APPEARED: &str = "another program made it meanwhile, and nothing was saved";

/// A file that is to be replaced: locked if it is there.
pub struct Target {
    /// Its path, with links followed.
    path: PathBuf,
    old: Option<File>,
}

impl Target {
    /// Opens the file that a path names; there may be none yet.
    pub fn open(path: &OsStr) -> Result<Target, String> {
        for _ in 0..TRIES {
            let path = follow(Path::new(path)).map_err(|error| files::words(&error))?;
            let old = match OpenOptions::new().read(true).write(true).open(&path) {
                Ok(old) => old,
                Err(error) if error.kind() == ErrorKind::NotFound => return Ok(Target { path, old: None }),
                Err(error) => return Err(files::unwritten(&error)),
            };
            if !old.metadata().is_ok_and(|facts| facts.is_file()) {
                return Err("it is not a plain file, and can't be saved whole".to_string());
            }
            lock(&old)?;
            if is_named(&old, &path) {
                // a temporary file that can't be taken away is met again when the new one is made
                let _ = take_away_left(&temporary_path(&path));
                return Ok(Target { path, old: Some(old) });
            }
        }
        Err(BUSY.to_string())
    }

    /// The file as it is, if it is there.
    pub fn old(&self) -> Option<&File> {
        self.old.as_ref()
    }

    /// Puts these bytes in the file's place, if it still is what was opened and holds what was read.
    pub fn replace(&self, bytes: &[u8], read: Option<&[u8]>) -> Result<(), String> {
        let mut new = Temporary::make(&self.path, self.old.is_none())?;
        self.write(&mut new.file, bytes).map_err(|error| unsaved(&error))?;
        let folder = File::open(folder(&self.path)).map_err(|error| unsaved(&error))?;
        self.unchanged(read)?;
        fs::rename(&new.path, &self.path).map_err(|error| unsaved(&error))?;
        new.renamed = true;
        flush(&folder).map_err(|error| format!("saved, but not flushed to the disk: {}", files::words(&error)))
    }

    /// Whether this is the file that a path leads to.
    pub fn is(&self, path: &OsStr) -> bool {
        let old = self.old.as_ref().map(File::metadata);
        match (old, fs::metadata(path)) {
            (Some(Ok(old)), Ok(other)) => same(&old, &other),
            _ => false,
        }
    }

    /// Fills the new file, gives it the old one's mode and owner, and flushes it.
    fn write(&self, new: &mut File, bytes: &[u8]) -> io::Result<()> {
        new.write_all(bytes)?;
        if let Some(old) = &self.old {
            let facts = old.metadata()?;
            // only root may give a file away; a group that one is in may be kept
            let _ = fchown(&*new, Some(facts.uid()), None);
            let _ = fchown(&*new, None, Some(facts.gid()));
            new.set_permissions(Permissions::from_mode(facts.mode() & 0o7777))?;
        }
        new.sync_all()
    }

    fn unchanged(&self, read: Option<&[u8]>) -> Result<(), String> {
        match &self.old {
            Some(old) if !is_named(old, &self.path) => Err(CHANGED.to_string()),
            Some(old) if read.is_some_and(|read| !holds(old, read)) => Err(CHANGED.to_string()),
            None if fs::symlink_metadata(&self.path).is_ok() => Err(APPEARED.to_string()),
            _ => Ok(()),
        }
    }
}

/// Whether a file holds these bytes and no more.
fn holds(file: &File, bytes: &[u8]) -> bool {
    let mut again = vec![0; bytes.len()];
    let long = file.metadata().is_ok_and(|facts| facts.len() == bytes.len() as u64);
    long && file.read_exact_at(&mut again, 0).is_ok() && again == bytes
}

/// A temporary file, which goes away unless it was renamed.
struct Temporary {
    path: PathBuf,
    file: File,
    renamed: bool,
}

impl Temporary {
    /// Makes one for a file; it is this user's alone, or for everybody whom the umask allows.
    fn make(for_file: &Path, open_to_all: bool) -> Result<Temporary, String> {
        let path = temporary_path(for_file);
        let mode = if open_to_all { 0o666 } else { 0o600 };
        for _ in 0..TRIES {
            let made = OpenOptions::new().write(true).create_new(true).mode(mode).open(&path);
            let file = match made {
                Ok(file) => file,
                Err(error) if error.kind() == ErrorKind::AlreadyExists => {
                    take_away_left(&path)?;
                    continue;
                }
                Err(error) => return Err(unsaved(&error)),
            };
            let made = Temporary {
                path: path.clone(),
                file,
                renamed: false,
            };
            lock(&made.file)?;
            // before it was locked, another run may have taken it for one that was left
            if is_named(&made.file, &made.path) {
                return Ok(made);
            }
        }
        Err(BUSY.to_string())
    }
}

impl Drop for Temporary {
    fn drop(&mut self) {
        if !self.renamed && is_named(&self.file, &self.path) {
            let _ = fs::remove_file(&self.path);
        }
    }
}

/// The path of the temporary file, in the file's folder.
fn temporary_path(path: &Path) -> PathBuf {
    let name = path.file_name().unwrap_or_default().as_bytes();
    let mut temporary = OsString::from(".");
    temporary.push(OsStr::from_bytes(name.get(..NAME_PART).unwrap_or(name)));
    temporary.push(".mfs-new");
    folder(path).join(temporary)
}

/// Takes away the temporary file that a killed run has left. One that is locked is another run's.
fn take_away_left(path: &Path) -> Result<(), String> {
    let shown = names::path(path.as_os_str());
    let in_the_way = |error: io::Error| format!("{shown} is in the way: {}", files::words(&error));
    match fs::symlink_metadata(path) {
        Err(error) if error.kind() == ErrorKind::NotFound => return Ok(()),
        Err(error) => return Err(in_the_way(error)),
        Ok(facts) if !facts.is_file() => return Err(in_the_way(io::Error::other("it is not a plain file"))),
        Ok(_) => {}
    }
    let left = match File::open(path) {
        Ok(left) => left,
        Err(error) if error.kind() == ErrorKind::NotFound => return Ok(()),
        Err(error) => return Err(in_the_way(error)),
    };
    lock(&left)?;
    if !is_named(&left, path) {
        return Ok(());
    }
    match fs::remove_file(path) {
        Err(error) if error.kind() != ErrorKind::NotFound => Err(in_the_way(error)),
        _ => Ok(()),
    }
}

/// Locks a file until it is closed.
fn lock(file: &File) -> Result<(), String> {
    match file.try_lock() {
        Ok(()) => Ok(()),
        Err(TryLockError::WouldBlock) => Err(BUSY.to_string()),
        Err(TryLockError::Error(error)) => Err(format!("can't be locked: {}", files::words(&error))),
    }
}

/// Whether a path names this file.
fn is_named(file: &File, path: &Path) -> bool {
    match (file.metadata(), fs::symlink_metadata(path)) {
        (Ok(file), Ok(named)) => same(&file, &named),
        _ => false,
    }
}

/// Whether two files are one.
fn same(one: &Metadata, other: &Metadata) -> bool {
    (one.dev(), one.ino()) == (other.dev(), other.ino())
}

fn unsaved(error: &io::Error) -> String {
    format!("can't be saved: {}", files::words(error))
}

/// The path of the file that a path leads to by links; it need not be there.
fn follow(path: &Path) -> io::Result<PathBuf> {
    let mut path = path.to_path_buf();
    for _ in 0..TRIES {
        match fs::read_link(&path) {
            Ok(link) => path = folder(&path).join(link),
            Err(_) => return Ok(path),
        }
    }
    Err(io::Error::other("its links lead nowhere"))
}

fn folder(path: &Path) -> &Path {
    match path.parent() {
        Some(folder) if folder != Path::new("") => folder,
        _ => Path::new("."),
    }
}

/// Flushes a folder, so that a new name in it is on the disk.
fn flush(folder: &File) -> io::Result<()> {
    match folder.sync_all() {
        // some file systems have no such flush
        Err(error) if error.kind() == ErrorKind::InvalidInput => Ok(()),
        flushed => flushed,
    }
}
