//! Prints the value of every literal that has one: `values TEXT` reads the file
//! TEXT at level 2, and writes a line for each Boolean, Integer, Text, Blob and
//! Bits: `LINE:COLUMN KIND VALUE`.  If the text is refused, the reason goes to
//! standard error, and the exit code is 1; it is 2 if it cannot be read.
//!
//! `cargo run --example values -- TEXT`

mod whole_file;

use muon::{bits, blob, integer, text, Answer, Branch, Document, Kind};
use std::env;
use std::ffi::OsString;
use std::process::ExitCode;
use whole_file::{exit_code, input, refused, Failure};

/// What a call writes for a literal of an accepted text, with room enough.
fn written(call: fn(&[u8], &mut [u8]) -> Answer, piece: &[u8]) -> Vec<u8> {
    let mut buffer = vec![0; 4 * piece.len()];
    let count = call(piece, &mut buffer).accepted();
    buffer.truncate(count.expect("a literal of this kind, and room"));
    buffer
}

fn value(branch: Branch) -> Option<String> {
    let piece = branch.bytes();
    Some(match branch.kind() {
        Kind::Boolean => branch.detail().to_string(),
        Kind::Integer => match integer(piece).accepted() {
            Ok(value) => value.to_string(),
            Err(refusal) => refusal.to_string(),
        },
        Kind::Text => {
            let characters = written(text, piece);
            format!("{:?}", String::from_utf8_lossy(&characters))
        }
        Kind::Blob => format!("{:02X?}", written(blob, piece)),
        Kind::Bits => format!("{:?}", written(bits, piece)),
        _ => return None,
    })
}

fn values(arguments: &[OsString]) -> Result<(), Failure> {
    let [path] = arguments else {
        return Err(("values TEXT".to_string(), 2));
    };
    let text = input(path, muon::TEXT_MAX)?;
    let mut table = [0; muon::TABLE_MAX];
    let read = Document::read(2, &text, &mut table);
    let document = read.map_err(|error| refused(path, error))?;
    for branch in document.branches() {
        if let Some(value) = value(branch) {
            println!("{} {} {value}", branch.position(), branch.kind());
        }
    }
    Ok(())
}

fn main() -> ExitCode {
    let arguments: Vec<OsString> = env::args_os().skip(1).collect();
    exit_code(values(&arguments))
}
