//! Compares what the proved program writes with this package's listing: every
//! sample, once whole and once in small pieces of a pipe, generated texts, some
//! with arrows `<-` or with escapes out of range, and texts around the size of
//! its buffer.
//!
//! `compare_listings PROGRAM`; exits with 1 at the first disagreement.

use second::generate::{arrow_texts, escape_texts, texts};
use second::listing::{listing, BUFFER};
use second::progress;
use second::samples;
use std::io::{self, Write};
use std::process::{Command, ExitCode, Stdio};

const SEED: u64 = 20_261_118;
const GENERATED: usize = 300;
const ARROWS: usize = 60;
const ESCAPES: usize = 60;
const PIECE: usize = 7;

/// The program's output for a text that comes in pieces of at most `piece`
/// bytes.
fn written(program: &str, text: &[u8], piece: usize) -> io::Result<Vec<u8>> {
    let mut child = Command::new(program)
        .stdin(Stdio::piped())
        .stdout(Stdio::piped())
        .spawn()?;
    let mut stdin = child.stdin.take().expect("a piped standard input");
    for part in text.chunks(piece) {
        // A program that has read enough may end before all is written.
        if stdin.write_all(part).is_err() {
            break;
        }
    }
    drop(stdin);
    Ok(child.wait_with_output()?.stdout)
}

fn main() -> io::Result<ExitCode> {
    let program = std::env::args().nth(1).expect("the program's path");
    let mut all: Vec<Vec<u8>> = samples::all().iter().map(|s| s.text.to_vec()).collect();
    all.extend(
        samples::readings::SKIPS
            .iter()
            .map(|(text, _)| text.to_vec()),
    );
    all.extend(texts(SEED, GENERATED));
    all.extend(arrow_texts(SEED, ARROWS));
    all.extend(escape_texts(SEED, ESCAPES));
    for length in [BUFFER - 2, BUFFER - 1, BUFFER, BUFFER + 1, 2 * BUFFER] {
        all.push(samples::members(length));
        all.push(vec![b' '; length]);
    }
    let mut runs = 0;
    progress::begin("compare_listings", "texts", Some(all.len()));
    for text in &all {
        progress::step();
        let expected = listing(&text[..text.len().min(BUFFER)]);
        let small = if text.len() > 4096 { 1000 } else { PIECE };
        for piece in [text.len().max(1), small] {
            let found = written(&program, text, piece)?;
            runs += 1;
            if found != expected {
                progress::end();
                println!(
                    "{:?} in pieces of {piece}: {:?}, not {:?}",
                    String::from_utf8_lossy(text),
                    String::from_utf8_lossy(&found),
                    String::from_utf8_lossy(&expected)
                );
                return Ok(ExitCode::FAILURE);
            }
        }
    }
    progress::end();
    println!(
        "compare_listings: {} texts, {runs} runs: all agree",
        all.len()
    );
    Ok(ExitCode::SUCCESS)
}
