//! The stored file: what the box read, kept beside the text.

use crate::answer::{Answer, NODES_MAX, NODE_WORDS, NOT_THE_FILE, NOT_THE_MARK, OTHER_VERSION};
use crate::tree::{self, Rules};
use crate::value::written;

const LEVEL: u32 = 2;
const MARK: &[u8] = b"FNT";
const VERSION: u16 = 1;
/// Bytes of a number.
const NUMBER: usize = 2;
/// Words of a node in a file of version 1: it has no seventh.
pub const STORED_WORDS: usize = 6;
/// Mark and version.
const FRONT: usize = MARK.len() + NUMBER;

/// The bytes of a file with so many nodes: mark, version, node count, text
/// length, and six words a node.
pub const fn length(nodes: usize) -> usize {
    FRONT + 2 * NUMBER + nodes * STORED_WORDS * NUMBER
}

/// The longest file.
pub const FILE_MAX: usize = length(NODES_MAX);

/// Writes the file of a text to the buffer's start, by today's rules; a refusal
/// leaves the buffer unchanged.
pub fn write(text: &[u8], buffer: &mut [u8]) -> Answer {
    written(text, of(Rules::Today, text), buffer)
}

/// Whether the file is the text's, byte for byte; by the old rules, since it may
/// have been stored under them.
pub fn check(text: &[u8], file: &[u8]) -> Answer {
    match fault(text, file) {
        Some(number) => Answer::refused(number, 0),
        None => Answer::accepted(text.len(), file.len()),
    }
}

/// The file of a text by these rules, or the reader's refusal.
pub fn of(rules: Rules, text: &[u8]) -> Result<Vec<u8>, Answer> {
    let mut table = [0; NODES_MAX * NODE_WORDS];
    let answer = tree::read_by(rules, LEVEL, text, &mut table);
    if answer.number != 0 {
        return Err(answer);
    }
    let head = [u32::from(VERSION), answer.count as u32, text.len() as u32];
    let nodes = table.chunks(NODE_WORDS).take(answer.count);
    let words = nodes.flat_map(|node| &node[..STORED_WORDS]);
    let mut file = MARK.to_vec();
    for number in head.iter().chain(words) {
        let number = u16::try_from(*number).expect("an accepted text has no greater number");
        file.extend(number.to_be_bytes());
    }
    Ok(file)
}

/// The first thing that is wrong with a file.
fn fault(text: &[u8], file: &[u8]) -> Option<u32> {
    if file.len() < FRONT || !file.starts_with(MARK) {
        return Some(NOT_THE_MARK);
    }
    if file[MARK.len()..FRONT] != VERSION.to_be_bytes() {
        return Some(OTHER_VERSION);
    }
    match of(Rules::Old, text) {
        Ok(whole) if whole == file => None,
        _ => Some(NOT_THE_FILE),
    }
}

#[cfg(test)]
mod tests;
