//! Readings into lent tables, by this package and by the archive.

use super::{same, Difference};
use crate::answer::Answer;
use crate::tree;

/// Words behind the lent table, which no call may touch.
const GUARD: usize = 8;

/// An answer, and the table with its guard as they are then.
#[derive(PartialEq)]
pub struct Reading {
    pub answer: Answer,
    pub words: Vec<u32>,
}

/// So many words to lend and the guard, this one and those that follow.
pub fn lent(length: usize, first: u32) -> Vec<u32> {
    (first..).take(length + GUARD).collect()
}

/// The archive's reading, through the package that users link.
pub fn proved(level: u32, text: &[u8], table: &mut [u32]) -> Answer {
    muon::read(level, text, table).into()
}

fn reading(
    read: fn(u32, &[u8], &mut [u32]) -> Answer,
    level: u32,
    text: &[u8],
    length: usize,
    first: u32,
) -> Reading {
    let mut words = lent(length, first);
    let answer = read(level, text, &mut words[..length]);
    Reading { answer, words }
}

/// The archive's reading into `length` words, of which `first` is the first, if
/// it is ours too.
pub fn same_reading(
    level: u32,
    text: &[u8],
    length: usize,
    first: u32,
) -> Result<Reading, Difference> {
    let ours = reading(tree::read, level, text, length, first);
    let theirs = reading(proved, level, text, length, first);
    let what = format!("reading at level {level} with {length} words");
    same(&what, text, ours.answer, theirs.answer)?;
    for (index, (ours, theirs)) in ours.words.iter().zip(&theirs.words).enumerate() {
        if ours != theirs {
            same(&format!("{what}: word {index}"), text, ours, theirs)?;
        }
    }
    Ok(theirs)
}
