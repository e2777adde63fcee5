//! Code points, bare or inside an escape.

use super::digits::{self, Alphabet};
use super::{exactly, Form, Kind, Match};
use crate::utf8;

const MARKS: [(&[u8], Alphabet); 5] = [
    (b"0cb", Alphabet::Binary),
    (b"0co", Alphabet::Octal),
    (b"0c", Alphabet::Decimal),
    (b"0cd", Alphabet::Decimal),
    (b"0cx", Alphabet::Hexadecimal),
];

/// The number of the code point literal at `at`, and its end.
pub fn number(text: &[u8], at: usize) -> Option<(u64, usize)> {
    MARKS.iter().find_map(|&(mark, alphabet)| {
        let body = exactly(text, at, mark)?;
        let end = digits::run(text, body, alphabet, 1)?;
        Some((digits::number(text, body, end, alphabet), end))
    })
}

pub fn text(text: &[u8], at: usize) -> Option<Match> {
    let (code, end) = number(text, at)?;
    Some(Match {
        kind: Kind::Text(Form::CodePoint),
        end,
        bad: (!utf8::is_scalar(code)).then_some(at),
    })
}
