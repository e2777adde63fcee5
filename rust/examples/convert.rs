//! Converts a settings file that may still have arrows `<-`: `convert TEXT` reads
//! the file TEXT at level 2, by the rules of before the arrow was retired, and
//! writes its plain form to standard output; `convert TEXT OTHER` writes it to
//! the file OTHER, which must not be TEXT.  If the text is refused, the reason
//! goes to standard error, nothing is written, and the exit code is 1; it is 2 if
//! a file cannot be read or written, or if OTHER is TEXT.
//!
//! `cargo run --example convert -- TEXT OTHER`

mod other_file;
mod whole_file;

use muon::{convert, plain};
use other_file::{check_other, print};
use std::ffi::OsString;
use std::process::ExitCode;
use std::{env, fs};
use whole_file::{exit_code, input, refused, said, Failure};

fn converted(path: &OsString) -> Result<Vec<u8>, Failure> {
    let text = input(path, muon::TEXT_MAX)?;
    let mut converted = vec![0; plain::bytes(text.len())];
    let answer = convert::write(2, &text, &mut converted);
    let count = answer.accepted_in(&text);
    converted.truncate(count.map_err(|error| refused(path, error))?);
    Ok(converted)
}

fn convert_file(arguments: &[OsString]) -> Result<(), Failure> {
    match arguments {
        [text] => print(&converted(text)?),
        [text, other] => {
            check_other(text, other)?;
            fs::write(other, converted(text)?).map_err(|error| said(other, error))
        }
        _ => Err(("convert TEXT [OTHER]".to_string(), 2)),
    }
}

fn main() -> ExitCode {
    let arguments: Vec<OsString> = env::args_os().skip(1).collect();
    exit_code(convert_file(&arguments))
}
