//! What is written: standard output, or a file that is not the text.

use crate::failure::Failure;
use crate::input::is_standard;
use crate::quoting::shown;
use std::ffi::OsStr;
use std::fs;
use std::io::{self, ErrorKind, Write};
use std::os::unix::fs::MetadataExt;
use std::path::Path;

/// Device and number of a regular file, by whatever name; none of a terminal,
/// which may well be read and written.
fn identity(path: &Path) -> Option<(u64, u64)> {
    let told = fs::metadata(path).ok()?;
    told.is_file().then(|| (told.dev(), told.ino()))
}

fn path<'a>(operand: &'a OsStr, standard: &'a str) -> &'a Path {
    match is_standard(operand) {
        true => Path::new(standard),
        false => Path::new(operand),
    }
}

/// Fails if what is to be written is what is read.
pub fn check_other(read: &OsStr, written: &OsStr) -> Result<(), Failure> {
    let read = identity(path(read, "/dev/stdin"));
    let over = read.is_some() && read == identity(path(written, "/dev/stdout"));
    match over {
        true => Err(Failure::File(format!(
            "{}: would be written over",
            name(written)
        ))),
        false => Ok(()),
    }
}

fn name(written: &OsStr) -> String {
    match is_standard(written) {
        true => "standard output".to_string(),
        false => shown(written.as_encoded_bytes()),
    }
}

/// Writes to standard output.
pub fn print(bytes: &[u8]) -> Result<(), Failure> {
    let mut out = io::stdout().lock();
    match out.write_all(bytes).and_then(|()| out.flush()) {
        Ok(()) => Ok(()),
        Err(error) if error.kind() == ErrorKind::BrokenPipe => Err(Failure::Closed),
        Err(error) => Err(Failure::file("standard output", error)),
    }
}

/// Writes to a file, or to standard output.
pub fn write(operand: &OsStr, bytes: &[u8]) -> Result<(), Failure> {
    if is_standard(operand) {
        return print(bytes);
    }
    fs::write(operand, bytes).map_err(|error| Failure::file(&name(operand), error))
}
