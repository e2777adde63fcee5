//! Reads a file, or standard input if none is named, at level 2 and prints
//! the listing: `ok 2 COUNT` and the words of each node, or `no NUMBER
//! PLACE`; what a refusal means goes to standard error.
//!
//! `cargo run --example list -- FILE`

use std::fs::File;
use std::io::{self, Read, Write};
use std::process::ExitCode;

const LEVEL: u32 = 2;

/// A byte more than a text may have is enough to know that it has too many.
fn input() -> io::Result<Vec<u8>> {
    let mut text = Vec::new();
    let most = muon::TEXT_MAX as u64 + 1;
    match std::env::args_os().nth(1) {
        Some(path) => File::open(path)?.take(most).read_to_end(&mut text)?,
        None => io::stdin().take(most).read_to_end(&mut text)?,
    };
    Ok(text)
}

fn main() -> io::Result<ExitCode> {
    let text = input()?;
    let mut table = [0; muon::TABLE_MAX];
    let answer = muon::read(LEVEL, &text, &mut table);
    let mut out = io::BufWriter::new(io::stdout().lock());
    if let Err(error) = answer.accepted_in(&text) {
        writeln!(out, "no {} {}", answer.number, answer.place)?;
        out.flush()?;
        eprintln!("{error}");
        return Ok(ExitCode::FAILURE);
    }
    writeln!(out, "ok {LEVEL} {}", answer.count)?;
    for node in muon::nodes(&table, answer.count) {
        writeln!(
            out,
            "{} {} {} {} {} {} {}",
            node.kind, node.first, node.end, node.parent, node.role, node.detail, node.skip
        )?;
    }
    out.flush()?;
    Ok(ExitCode::SUCCESS)
}
