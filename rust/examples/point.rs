//! Shows where a settings file is refused: `point TEXT` reads the file TEXT at
//! level 2.  If it is refused, the reason, the line that the place is in and a
//! mark below the place go to standard error, and the exit code is 1; it is 2 if
//! the file cannot be read.
//!
//! `cargo run --example point -- TEXT`

mod whole_file;

use muon::{line_column, Position};
use std::env;
use std::ffi::OsString;
use std::process::ExitCode;
use whole_file::{exit_code, input, refused, Failure};

/// A line with one character for each column: a byte that begins none is shown as
/// one that stands for it.
fn shown(line: &[u8]) -> String {
    line.utf8_chunks()
        .flat_map(|chunk| {
            let strange = chunk.invalid().iter().map(|_| char::REPLACEMENT_CHARACTER);
            chunk.valid().chars().chain(strange)
        })
        .collect()
}

/// A control character is not sent to a terminal, which it could steer; a tab is.
fn harmless(shown: char) -> char {
    match shown.is_control() && shown != '\t' {
        true => char::REPLACEMENT_CHARACTER,
        false => shown,
    }
}

/// The line of this position, and a mark below its column.
fn pointed(text: &[u8], position: Position) -> String {
    let mut lines = text.split(|byte| *byte == b'\n');
    let line = shown(lines.nth(position.line - 1).unwrap_or_default());
    // A tab stays one, so that the mark stands where the byte is shown.
    let blank = |shown: char| if shown == '\t' { '\t' } else { ' ' };
    let indent: String = line.chars().take(position.column - 1).map(blank).collect();
    let line: String = line.trim_end().chars().map(harmless).collect();
    format!("{line}\n{indent}^")
}

fn point(arguments: &[OsString]) -> Result<(), Failure> {
    let [path] = arguments else {
        return Err(("point TEXT".to_string(), 2));
    };
    let text = input(path, muon::TEXT_MAX)?;
    let answer = muon::read(2, &text, &mut [0; muon::TABLE_MAX]);
    let Err(error) = answer.accepted_in(&text) else {
        return Ok(());
    };
    let (reason, code) = refused(path, error);
    let mark = pointed(&text, line_column(&text, answer.place));
    Err((format!("{reason}\n{mark}"), code))
}

fn main() -> ExitCode {
    let arguments: Vec<OsString> = env::args_os().skip(1).collect();
    exit_code(point(&arguments))
}
