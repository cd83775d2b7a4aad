//! Files, standard input and standard output.

use std::ffi::OsStr;
use std::fs::{self, File, OpenOptions, Permissions};
use std::io::{self, ErrorKind, Read, Write};
use std::path::Path;
use std::process;

use crate::failure::Failure;

/// The name of standard input and of standard output.
pub const STANDARD: &str = "-";

/// Reads a file to its end, or to the first byte past the most that the library takes, so that the library refuses it.
pub fn read(name: &OsStr, most: usize) -> Result<Vec<u8>, Failure> {
    let most = most as u64 + 1;
    let mut bytes = Vec::new();
    let read = open(name)?.take(most).read_to_end(&mut bytes);
    read.map(|_| bytes).map_err(|error| Failure::read(name, error))
}

/// A file, or standard input, to read as it comes.
pub fn open(name: &OsStr) -> Result<Box<dyn Read>, Failure> {
    if name == STANDARD {
        return Ok(Box::new(io::stdin()));
    }
    match File::open(name) {
        Ok(file) => Ok(Box::new(file)),
        Err(error) => Err(Failure::read(name, error)),
    }
}

/// Writes all of a text to standard output.
pub fn print(text: &[u8]) -> Result<(), Failure> {
    let mut stdout = io::stdout();
    stdout.write_all(text).and_then(|()| stdout.flush()).map_err(|error| Failure::write(OsStr::new(STANDARD), error))
}

/// Writes a file whole, or leaves it as it was.
pub fn write(name: &OsStr, bytes: &[u8]) -> Result<(), Failure> {
    write_to(Path::new(name), bytes).map_err(|error| Failure::write(name, error))
}

fn write_to(path: &Path, bytes: &[u8]) -> io::Result<()> {
    match fs::metadata(path) {
        Ok(old) if old.is_file() => {
            // A rename asks leave of the folder alone, so the file is asked here.
            OpenOptions::new().write(true).open(path)?;
            replace(&fs::canonicalize(path)?, bytes, Some(old.permissions()))
        }
        // A device or a pipe has nothing to keep; a folder cannot be opened.
        Ok(_) => OpenOptions::new().write(true).open(path)?.write_all(bytes),
        Err(error) if error.kind() == ErrorKind::NotFound => replace(path, bytes, None),
        Err(error) => Err(error),
    }
}

/// Writes a new file beside the path, and gives it the path's name once it is whole.
fn replace(path: &Path, bytes: &[u8], permissions: Option<Permissions>) -> io::Result<()> {
    let beside = path.with_file_name(format!(".griffeljol-{}.tmp", process::id()));
    let mut file = File::create_new(&beside)?;
    let replaced = permissions
        .map_or(Ok(()), |permissions| file.set_permissions(permissions))
        .and_then(|()| file.write_all(bytes))
        .and_then(|()| file.sync_all())
        .and_then(|()| fs::rename(&beside, path));
    if replaced.is_err() {
        // The first error is the one to tell.
        let _ = fs::remove_file(&beside);
    }
    replaced
}
