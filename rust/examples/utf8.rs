//! Tests whether a file is UTF-8, of whatever length: `utf8 FILE` prints how many
//! bytes it has and how many steps the test took.  If it is not, the line and the
//! column of the first byte that begins no character go to standard error, and the
//! exit code is 1; it is 2 if the file cannot be read.
//!
//! `cargo run --example utf8 -- FILE`

mod whole_file;

use std::env;
use std::ffi::OsString;
use std::process::ExitCode;
use whole_file::{exit_code, input, refused, Failure};

fn test(arguments: &[OsString]) -> Result<(), Failure> {
    let [path] = arguments else {
        return Err(("utf8 FILE".to_string(), 2));
    };
    let text = input(path, isize::MAX as usize)?;
    let steps = muon::utf8(&text).accepted_in(&text);
    let steps = steps.map_err(|error| refused(path, error))?;
    println!("{} bytes, {steps} steps", text.len());
    Ok(())
}

fn main() -> ExitCode {
    let arguments: Vec<OsString> = env::args_os().skip(1).collect();
    exit_code(test(&arguments))
}
