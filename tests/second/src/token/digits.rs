//! Runs and groups of digits.

use crate::space;

#[derive(Clone, Copy, Debug, PartialEq, Eq)]
pub enum Alphabet {
    Binary,
    Octal,
    Decimal,
    Hexadecimal,
    /// Base-64 characters; no digits of a number.
    Base64,
}

impl Alphabet {
    pub fn has(self, byte: u8) -> bool {
        match self {
            Alphabet::Binary => matches!(byte, b'0'..=b'1'),
            Alphabet::Octal => matches!(byte, b'0'..=b'7'),
            Alphabet::Decimal => byte.is_ascii_digit(),
            Alphabet::Hexadecimal => matches!(byte, b'0'..=b'9' | b'A'..=b'F'),
            Alphabet::Base64 => byte.is_ascii_alphanumeric() || matches!(byte, b'+' | b'/' | b'='),
        }
    }

    /// The base of a number so written.
    fn base(self) -> u64 {
        match self {
            Alphabet::Binary => 2,
            Alphabet::Octal => 8,
            Alphabet::Decimal => 10,
            Alphabet::Hexadecimal => 16,
            Alphabet::Base64 => 64,
        }
    }
}

/// The place behind the longest run of whole units at `at`, at least one.
/// Digits that do not fill a unit are left out.
pub fn run(text: &[u8], at: usize, alphabet: Alphabet, unit: usize) -> Option<usize> {
    let rest = text.get(at..)?;
    let length = rest.iter().take_while(|&&byte| alphabet.has(byte)).count();
    let whole = length - length % unit;
    (whole > 0).then_some(at + whole)
}

/// The place behind the groups at `at`: runs joined by one `_` or one
/// stretch of dividing space.  A joiner counts only if a run follows it.
pub fn groups(text: &[u8], at: usize, alphabet: Alphabet, unit: usize) -> Option<usize> {
    let mut end = run(text, at, alphabet, unit)?;
    while let Some(further) = further_group(text, end, alphabet, unit) {
        end = further;
    }
    Some(end)
}

fn further_group(text: &[u8], end: usize, alphabet: Alphabet, unit: usize) -> Option<usize> {
    let behind = if text.get(end) == Some(&b'_') {
        end + 1
    } else {
        space::skip(text, end)
    };
    // Without a joiner the digits left over are no group of their own.
    if behind == end {
        return None;
    }
    run(text, behind, alphabet, unit)
}

/// The digits of matched groups, joiners left out.
pub fn figures(text: &[u8], from: usize, to: usize) -> impl Iterator<Item = u8> + '_ {
    let mut place = from;
    std::iter::from_fn(move || {
        if place < to {
            place = space::skip(text, place);
            place += usize::from(text[place] == b'_');
        }
        // Groups end with a digit, so a joiner is never the last.
        let figure = text[..to].get(place).copied();
        place += 1;
        figure
    })
}

/// The number that matched groups denote; too large ones stay at the most.
pub fn number(text: &[u8], from: usize, to: usize, alphabet: Alphabet) -> u64 {
    figures(text, from, to).fold(0u64, |sum, figure| {
        let digit = match figure {
            b'0'..=b'9' => figure - b'0',
            _ => figure - b'A' + 10,
        };
        sum.saturating_mul(alphabet.base())
            .saturating_add(u64::from(digit))
    })
}
