//! The commands.

use crate::arguments::Command;
use crate::failure::Failure;
use crate::input::{self, is_standard, Input};
use crate::output::{check_other, print, write};
use crate::{get, list, refusal, values};
use muon::{convert, file, plain, Document, Error, Refusal, TABLE_MAX, TEXT_MAX};
use std::ffi::OsStr;
use std::io::{stdout, IsTerminal};

const STANDARD: &str = "-";

fn text(file: &OsStr) -> Result<Input, Failure> {
    input::read(file, TEXT_MAX)
}

/// What a call gives for a text at a level, or the report of its refusal.
fn given<'a, T>(
    input: &'a Input,
    level: u32,
    call: impl FnOnce(&'a [u8]) -> Result<T, Error>,
) -> Result<T, Failure> {
    call(&input.bytes).map_err(|error| refusal::of_text(input, level, &error))
}

/// Writes what a call gives for a text, elsewhere than over it.
fn rewrite(
    level: u32,
    file: &OsStr,
    out: &OsStr,
    call: impl FnOnce(&[u8]) -> Result<Vec<u8>, Error>,
) -> Result<(), Failure> {
    check_other(file, out)?;
    let input = text(file)?;
    write(out, &given(&input, level, call)?)
}

/// Prints what is told of a text that was read, under its file's name.
fn tell(
    level: u32,
    file: &OsStr,
    told: impl FnOnce(&str, Document) -> Result<String, Failure>,
) -> Result<(), Failure> {
    check_other(file, OsStr::new(STANDARD))?;
    let input = text(file)?;
    let mut table = [0; TABLE_MAX];
    let document = given(&input, level, |text| {
        Document::read(level, text, &mut table)
    })?;
    print(told(&input.name, document)?.as_bytes())
}

fn nodes(count: usize) -> String {
    format!("{count} node{}", if count == 1 { "" } else { "s" })
}

/// How many nodes a stored file of so many bytes has.
fn stored_nodes(bytes: usize) -> usize {
    (bytes - file::bytes(0)) / (file::bytes(1) - file::bytes(0))
}

/// Of a text that is refused even by the old rules, as the check reads it, that
/// refusal is told, and not that no file is its own.
fn check_stored(file: &OsStr, stored: &OsStr) -> Result<(), Failure> {
    if is_standard(file) && is_standard(stored) {
        let reason = "standard input cannot be both FILE and STORED";
        return Err(Failure::Usage(reason.to_string()));
    }
    for read in [file, stored] {
        check_other(read, OsStr::new(STANDARD))?;
    }
    let input = text(file)?;
    let stored = input::read(stored, file::MAX)?;
    match file::check(&input.bytes, &stored.bytes).accepted() {
        Ok(bytes) => {
            let (name, text, nodes) = (stored.name, input.name, nodes(stored_nodes(bytes)));
            print(format!("{name}: ok, the stored file of {text}, {nodes}\n").as_bytes())
        }
        Err(refusal) => {
            if refusal == Refusal::NotTheFile {
                given(&input, 2, |text| convert::to_vec(2, text))?;
            }
            Err(refusal::of_stored(&stored.name, refusal))
        }
    }
}

/// Does what a command says.
pub fn run(command: Command) -> Result<(), Failure> {
    match command {
        Command::List { level, tree, file } => tell(level, &file, |_, document| match tree {
            true => Ok(list::tree(document)),
            false => Ok(list::numbers(document)),
        }),
        Command::Values { level, file } => {
            tell(level, &file, |_, document| Ok(values::values(document)))
        }
        Command::Get { level, file, path } => tell(level, &file, |name, document| {
            let asked = get::asked(path.as_encoded_bytes());
            get::get(name, document, &asked, stdout().is_terminal())
        }),
        Command::Check { level, file } => tell(level, &file, |name, document| {
            Ok(format!("{name}: ok, {}\n", nodes(document.nodes().len())))
        }),
        Command::CheckStored { file, stored } => check_stored(&file, &stored),
        Command::Plain { level, file, out } => {
            rewrite(level, &file, &out, |text| plain::to_vec(level, text))
        }
        Command::Convert { level, file, out } => {
            rewrite(level, &file, &out, |text| convert::to_vec(level, text))
        }
        Command::Store { file, stored } => rewrite(2, &file, &stored, file::to_vec),
    }
}
