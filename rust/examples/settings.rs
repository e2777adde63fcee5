//! Two settings by their names: `settings FILE` reads FILE at level 2 and prints
//! its speed, an Integer, and its site, a Text.  What is refused, absent, there
//! twice or unknown goes to standard error as `FILE:LINE:COLUMN: REASON`, with
//! exit code 1; it is 2 if FILE cannot be read.  The repository's
//! `examples/settings.muon` is such a file.
//!
//! `cargo run --example settings -- FILE`

use muon::{Document, TABLE_MAX};
use std::error::Error;
use std::process::ExitCode;
use std::{env, fs};

/// All that a file may have.
const KNOWN: [&str; 5] = ["site", "speed", "armed", "limits", "stops"];

fn settings(text: &[u8]) -> Result<(i64, String), Box<dyn Error>> {
    let mut table = [0; TABLE_MAX];
    let root = Document::read(2, text, &mut table)?.root();
    let speed = root.get("speed")?.integer()?;
    let site = root.get("site")?.to_text()?;
    match root.unknown(&KNOWN) {
        Some(other) => Err(format!("{}: an unknown setting", other.position()).into()),
        None => Ok((speed, site)),
    }
}

fn main() -> ExitCode {
    let arguments: Vec<String> = env::args().skip(1).collect();
    let [path] = &arguments[..] else {
        eprintln!("settings FILE");
        return ExitCode::from(2);
    };
    let read = match fs::read(path) {
        Ok(text) => settings(&text).map_err(|error| (format!("{path}:{error}"), 1)),
        Err(error) => Err((format!("{path}: {error}"), 2)),
    };
    match read {
        Ok((speed, site)) => println!("speed {speed}\nsite {site}"),
        Err((reason, code)) => {
            eprintln!("{reason}");
            return ExitCode::from(code);
        }
    }
    ExitCode::SUCCESS
}
