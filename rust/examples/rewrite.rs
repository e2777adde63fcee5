//! Writes a settings file in its plain form: `rewrite TEXT` reads the file TEXT
//! at level 2 and writes its plain form to standard output; `rewrite TEXT OTHER`
//! writes it to the file OTHER, which must not be TEXT.  If the text is refused,
//! the reason goes to standard error, nothing is written, and the exit code is
//! 1; it is 2 if a file cannot be read or written, or if OTHER is TEXT.
//!
//! `cargo run --example rewrite -- TEXT OTHER`

mod other_file;
mod whole_file;

use muon::plain;
use other_file::{check_other, print};
use std::ffi::OsString;
use std::process::ExitCode;
use std::{env, fs};
use whole_file::{exit_code, input, refused, said, Failure};

fn form(path: &OsString) -> Result<Vec<u8>, Failure> {
    let text = input(path, muon::TEXT_MAX)?;
    let mut table = [0; muon::TABLE_MAX];
    let mut answer = muon::read(2, &text, &mut table);
    let mut form = vec![0; plain::bytes(text.len())];
    if answer.is_accepted() {
        answer = plain::write(2, &text, &table, &mut form);
    }
    let count = answer.accepted_in(&text);
    form.truncate(count.map_err(|error| refused(path, error))?);
    Ok(form)
}

fn rewrite(arguments: &[OsString]) -> Result<(), Failure> {
    match arguments {
        [text] => print(&form(text)?),
        [text, other] => {
            check_other(text, other)?;
            fs::write(other, form(text)?).map_err(|error| said(other, error))
        }
        _ => Err(("rewrite TEXT [OTHER]".to_string(), 2)),
    }
}

fn main() -> ExitCode {
    let arguments: Vec<OsString> = env::args_os().skip(1).collect();
    exit_code(rewrite(&arguments))
}
