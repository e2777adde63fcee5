//! What is read: a file or standard input.

use crate::failure::Failure;
use crate::quoting::shown;
use std::ffi::OsStr;
use std::fs::File;
use std::io::{self, Read};

/// A file that was read, by the name that it has in reports.
pub struct Input {
    pub name: String,
    pub bytes: Vec<u8>,
}

/// Whether an operand stands for standard input or output.
pub fn is_standard(operand: &OsStr) -> bool {
    operand == "-"
}

/// What a file that is read is called in reports; nothing in it is sent to a
/// terminal that could steer it.
pub fn name(operand: &OsStr) -> String {
    match is_standard(operand) {
        true => "<stdin>".to_string(),
        false => shown(operand.as_encoded_bytes()),
    }
}

/// At most one byte more than may be, by which the library knows that there are
/// too many, however long the file is.
fn bounded(from: impl Read, most: usize) -> io::Result<Vec<u8>> {
    let mut bytes = Vec::new();
    from.take(most as u64 + 1).read_to_end(&mut bytes)?;
    Ok(bytes)
}

/// Reads a file that may have so many bytes.
pub fn read(operand: &OsStr, most: usize) -> Result<Input, Failure> {
    let name = name(operand);
    let bytes = match is_standard(operand) {
        true => bounded(io::stdin().lock(), most),
        false => File::open(operand).and_then(|file| bounded(file, most)),
    };
    match bytes {
        Ok(bytes) => Ok(Input { name, bytes }),
        Err(error) => Err(Failure::file(&name, error)),
    }
}
