//! Files that a command reads and writes.

use std::ffi::OsStr;
use std::fs::{self, File};
use std::io::{self, Read, Write};
use std::path::Path;

use crate::trouble::Trouble;

/// The argument that stands for standard input, or for standard output.
pub const STANDARD: &str = "-";

/// The bytes of a file, or those of standard input, up to so many and one more. By that one the
/// caller knows a file that is longer; more is not read, for a device has no end.
pub fn read(file: &OsStr, most: usize) -> Result<Vec<u8>, Trouble> {
    let bytes = if file == STANDARD {
        read_start(io::stdin().lock(), most)
    } else {
        File::open(file).and_then(|opened| read_start(opened, most))
    };
    bytes.map_err(|error| Trouble::File(format!("{} cannot be read: {error}", name(file))))
}

fn read_start(from: impl Read, most: usize) -> io::Result<Vec<u8>> {
    let mut bytes = Vec::new();
    from.take(most as u64 + 1).read_to_end(&mut bytes)?;
    Ok(bytes)
}

/// Whether two names are those of one file.
pub fn same(one: &OsStr, other: &OsStr) -> bool {
    if one == other {
        return true;
    }
    let both = (fs::canonicalize(one), fs::canonicalize(other));
    matches!(both, (Ok(one), Ok(other)) if one == other)
}

/// Writes a file, in place of one that is there.
pub fn write(file: &OsStr, bytes: &[u8]) -> Result<(), Trouble> {
    let written = fs::write(file, bytes);
    written.map_err(|error| Trouble::File(format!("{} cannot be written: {error}", name(file))))
}

/// Writes a file, or for `-` adds to what the command prints.
pub fn put(file: &OsStr, bytes: &[u8], output: &mut Vec<u8>) -> Result<(), Trouble> {
    if file == STANDARD {
        output.extend_from_slice(bytes);
        return Ok(());
    }
    write(file, bytes)
}

/// Prints all that a command has to say.
pub fn print(output: &[u8]) -> Result<(), Trouble> {
    let mut standard = io::stdout().lock();
    let printed = standard.write_all(output).and_then(|()| standard.flush());
    printed.map_err(|error| Trouble::File(format!("standard output cannot be written: {error}")))
}

/// How pictures call a file that is read: without its folders.
pub fn short_name(file: &OsStr) -> String {
    match Path::new(file).file_name() {
        Some(short) if file != STANDARD => short.to_string_lossy().into_owned(),
        _ => name(file),
    }
}

/// How messages call a file that is read.
pub fn name(file: &OsStr) -> String {
    if file == STANDARD {
        return "standard input".to_string();
    }
    file.to_string_lossy().into_owned()
}
