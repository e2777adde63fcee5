//! Bits and Blob literals: a mark of three bytes, then groups that may be
//! missing.

use super::digits::{self, Alphabet};
use super::{exactly, Kind, Match};
use crate::{base64, space};

pub fn bits(text: &[u8], at: usize) -> Option<Match> {
    let (_, end) = body(text, at, b"0bb", Alphabet::Binary, 1)
        .or_else(|| body(text, at, b"0bo", Alphabet::Octal, 1))
        .or_else(|| body(text, at, b"0bx", Alphabet::Hexadecimal, 1))?;
    Some(Match::good(Kind::Bits, end))
}

pub fn blob(text: &[u8], at: usize) -> Option<Match> {
    if let Some((first, end)) = body(text, at, b"0xy", Alphabet::Base64, 4) {
        return Some(Match {
            kind: Kind::Blob,
            end,
            bad: (!encodes(text, first, end)).then_some(at),
        });
    }
    let (_, end) = body(text, at, b"0xb", Alphabet::Binary, 8)
        .or_else(|| body(text, at, b"0xx", Alphabet::Hexadecimal, 2))?;
    Some(Match::good(Kind::Blob, end))
}

/// The place behind the mark and the literal's end.  Dividing space behind
/// the mark belongs to the literal only if digits follow.
fn body(
    text: &[u8],
    at: usize,
    mark: &[u8],
    alphabet: Alphabet,
    unit: usize,
) -> Option<(usize, usize)> {
    let behind = exactly(text, at, mark)?;
    let first = space::skip(text, behind);
    let end = digits::groups(text, first, alphabet, unit).unwrap_or(behind);
    Some((behind, end))
}

/// Whether the characters are the base 64 of some bytes.
fn encodes(text: &[u8], from: usize, to: usize) -> bool {
    let characters: Vec<u8> = digits::figures(text, from, to).collect();
    base64::bytes(&characters).is_some()
}
