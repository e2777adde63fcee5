//! Integer and Fraction literals.

use super::digits::{self, Alphabet};
use super::{exactly, Kind, Match};
use crate::space;

const MARKS: [(&[u8], Alphabet); 4] = [
    (b"0b", Alphabet::Binary),
    (b"0o", Alphabet::Octal),
    (b"0d", Alphabet::Decimal),
    (b"0x", Alphabet::Hexadecimal),
];

/// A number without sign.
#[derive(Clone, Copy)]
struct Unsigned {
    alphabet: Alphabet,
    /// First digit behind the base mark.
    body: usize,
    end: usize,
}

impl Unsigned {
    fn value(&self, text: &[u8]) -> u64 {
        digits::number(text, self.body, self.end, self.alphabet)
    }
}

/// The longest number without sign at `at`.
fn unsigned(text: &[u8], at: usize) -> Option<Unsigned> {
    let marked = MARKS
        .iter()
        .filter_map(|&(mark, alphabet)| {
            let body = space::skip(text, exactly(text, at, mark)?);
            Some((body, alphabet))
        })
        .chain([(at, Alphabet::Decimal)]);
    marked
        .filter_map(|(body, alphabet)| {
            let end = digits::groups(text, body, alphabet, 1)?;
            Some(Unsigned {
                alphabet,
                body,
                end,
            })
        })
        .max_by_key(|found| found.end)
}

/// The place behind an optional sign.  Dividing space belongs to a number
/// only behind a sign.
fn behind_sign(text: &[u8], at: usize) -> (Option<u8>, usize) {
    match text.get(at) {
        Some(&sign @ (b'+' | b'-')) => (Some(sign), space::skip(text, at + 1)),
        _ => (None, at),
    }
}

pub fn integer(text: &[u8], at: usize) -> Option<Match> {
    let (sign, body) = behind_sign(text, at);
    let found = unsigned(text, body)?;
    let signed = sign.is_some();
    Some(Match::good(Kind::Integer { signed }, found.end))
}

/// Sign, magnitude and end of the Integer at `at`.  Magnitudes of 2^64 and
/// more are given as 2^64 - 1.
pub struct IntegerParts {
    pub negative: bool,
    pub magnitude: u64,
    pub end: usize,
}

pub fn integer_parts(text: &[u8], at: usize) -> Option<IntegerParts> {
    let (sign, body) = behind_sign(text, at);
    let found = unsigned(text, body)?;
    Some(IntegerParts {
        negative: sign == Some(b'-'),
        magnitude: found.value(text),
        end: found.end,
    })
}

pub fn fraction(text: &[u8], at: usize) -> Option<Match> {
    let (end, zero_below) = significand(text, at)?;
    let (end, small_radix) = power(text, end).unwrap_or((end, false));
    Some(Match {
        kind: Kind::Fraction,
        end,
        bad: (zero_below || small_radix).then_some(at),
    })
}

/// The end of a point form or N/D, and whether the denominator is 0.
fn significand(text: &[u8], at: usize) -> Option<(usize, bool)> {
    let (_, body) = behind_sign(text, at);
    let whole = unsigned(text, body)?;
    if let Some(part) = behind_byte(text, whole.end, b'.') {
        // The part behind the point has the same base and no mark.
        let end = digits::groups(text, part, whole.alphabet, 1)?;
        return Some((end, false));
    }
    let below = unsigned(text, behind_byte(text, whole.end, b'/')?)?;
    Some((below.end, below.value(text) == 0))
}

/// The end of `*R^E` behind a significand, and whether R is below 2.
fn power(text: &[u8], at: usize) -> Option<(usize, bool)> {
    let radix = unsigned(text, behind_byte(text, at, b'*')?)?;
    let (_, exponent) = behind_sign(text, behind_byte(text, radix.end, b'^')?);
    let exponent = unsigned(text, exponent)?;
    Some((exponent.end, radix.value(text) < 2))
}

/// The place behind `byte` with optional dividing space on both sides.
fn behind_byte(text: &[u8], at: usize, byte: u8) -> Option<usize> {
    let place = space::skip(text, at);
    (text.get(place) == Some(&byte)).then(|| space::skip(text, place + 1))
}
