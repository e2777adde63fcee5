//! Stores what was read of a text beside it, or checks what was stored: `store
//! write TEXT FILE` reads the file TEXT at level 2 and writes its stored file
//! to FILE; `store check TEXT FILE` tells whether FILE is still the one of
//! TEXT.  Prints how many bytes FILE has.  If text or file is refused, the
//! reason goes to standard error, nothing is written, and the exit code is 1;
//! it is 2 if one of them cannot be read or written.
//!
//! `cargo run --example store -- write TEXT FILE`

mod whole_file;

use muon::{file, TEXT_MAX};
use std::ffi::OsString;
use std::path::Path;
use std::process::ExitCode;
use std::{env, fs};
use whole_file::{exit_code, input, refused, said, Failure};

fn write(text: &OsString, stored: &OsString) -> Result<usize, Failure> {
    let bytes = input(text, TEXT_MAX)?;
    let mut buffer = [0; file::MAX];
    let count = file::write(&bytes, &mut buffer).accepted_in(&bytes);
    let count = count.map_err(|error| refused(text, error))?;
    fs::write(stored, &buffer[..count]).map_err(|error| said(stored, error))?;
    Ok(count)
}

fn check(text: &OsString, stored: &OsString) -> Result<usize, Failure> {
    let answer = file::check(&input(text, TEXT_MAX)?, &input(stored, file::MAX)?);
    // of the file as a whole: there is no place to tell
    let refused = |refusal| (format!("{}: {refusal}", Path::new(stored).display()), 1);
    answer.accepted().map_err(refused)
}

fn main() -> ExitCode {
    let arguments: Vec<OsString> = env::args_os().skip(1).collect();
    let stored = match &arguments[..] {
        [command, text, stored] if command == "write" => write(text, stored),
        [command, text, stored] if command == "check" => check(text, stored),
        _ => Err(("store write|check TEXT FILE".to_string(), 2)),
    };
    exit_code(stored.map(|bytes| println!("{bytes} bytes")))
}
