//! Reads a file, or standard input if none is named, at level 2 and prints
//! the bytes of every Blob in it, a line each: `PLACE: A7 05 FF`.  If the text
//! is refused, the reason goes to standard error.
//!
//! `cargo run --example blobs -- FILE`

use muon::{Error, Kind, Node, TABLE_MAX};
use std::fs::File;
use std::io::{self, Read};
use std::process::ExitCode;

const LEVEL: u32 = 2;

/// A byte more than a text may have is enough to know that it has too many.
fn input() -> io::Result<Vec<u8>> {
    let mut text = Vec::new();
    let most = muon::TEXT_MAX as u64 + 1;
    match std::env::args_os().nth(1) {
        Some(path) => File::open(path)?.take(most).read_to_end(&mut text)?,
        None => io::stdin().take(most).read_to_end(&mut text)?,
    };
    Ok(text)
}

/// Prints the Blobs of a text; why and where it is refused, if it is.
fn blobs(text: &[u8]) -> Result<(), Error> {
    let mut table = [0; TABLE_MAX];
    let count = muon::read(LEVEL, text, &mut table).accepted_in(text)?;
    // No Blob has more bytes than the text; so with this much room, a Blob of
    // an accepted text is never refused.
    let mut buffer = vec![0; text.len()];
    let is_blob = |node: &Node| node.kind == Kind::Blob.number();
    for node in muon::nodes(&table, count).filter(is_blob) {
        let first = node.span().start;
        let bytes = muon::blob(&text[node.span()], &mut buffer)
            .accepted()
            .expect("the bytes of a Blob of an accepted text");
        let hex: String = buffer[..bytes]
            .iter()
            .map(|byte| format!(" {byte:02X}"))
            .collect();
        println!("{first}:{hex}");
    }
    Ok(())
}

fn main() -> io::Result<ExitCode> {
    match blobs(&input()?) {
        Ok(()) => Ok(ExitCode::SUCCESS),
        Err(error) => {
            eprintln!("{error}");
            Ok(ExitCode::FAILURE)
        }
    }
}
