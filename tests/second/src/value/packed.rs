//! The bits of a Bits literal and the bytes of a Blob literal.

use super::{only_token, written};
use crate::answer::{Answer, BAD_VALUE};
use crate::base64;
use crate::token::{self, Kind};

/// Bytes of a mark such as `0xy`.
const MARK: usize = 3;

/// Writes the bits of a Bits literal to the buffer's start, a byte 0 or 1
/// each; a refusal leaves the buffer unchanged.
pub fn bits(piece: &[u8], buffer: &mut [u8]) -> Answer {
    written(piece, bits_of(piece), buffer)
}

/// Writes the bytes of a Blob literal to the buffer's start; a refusal leaves
/// the buffer unchanged.
pub fn blob(piece: &[u8], buffer: &mut [u8]) -> Answer {
    written(piece, bytes_of(piece), buffer)
}

fn bits_of(piece: &[u8]) -> Result<Vec<u8>, Answer> {
    only_token(piece, |kind| kind == Kind::Bits)?;
    let digits = digits(piece);
    let places: &[u8] = match piece[..MARK] {
        [.., b'b'] => &[1],
        [.., b'o'] => &[4, 2, 1],
        _ => &[8, 4, 2, 1],
    };
    let mut bits = Vec::with_capacity(digits.len() * places.len());
    for digit in digits.into_iter().map(number) {
        bits.extend(places.iter().map(|place| u8::from(digit & place != 0)));
    }
    Ok(bits)
}

fn bytes_of(piece: &[u8]) -> Result<Vec<u8>, Answer> {
    only_token(piece, |kind| kind == Kind::Blob)?;
    let digits = digits(piece);
    let bytes = match piece[..MARK] {
        [.., b'b'] => units(&digits, 8, 2),
        [.., b'x'] => units(&digits, 2, 16),
        _ => base64::bytes(&digits),
    };
    bytes.ok_or(Answer::refused(BAD_VALUE, 0))
}

/// The digits behind the mark, joiners left out.
fn digits(piece: &[u8]) -> Vec<u8> {
    token::figures(piece, MARK, piece.len()).collect()
}

/// The byte of each unit of so many digits, if they come in whole units.
fn units(digits: &[u8], unit: usize, base: u8) -> Option<Vec<u8>> {
    let all = digits.chunks_exact(unit);
    if !all.remainder().is_empty() {
        return None;
    }
    let byte = |unit: &[u8]| {
        let more = |sum: u8, digit: &u8| sum * base + number(*digit);
        unit.iter().fold(0, more)
    };
    Some(all.map(byte).collect())
}

fn number(digit: u8) -> u8 {
    match digit {
        b'0'..=b'9' => digit - b'0',
        _ => digit - b'A' + 10,
    }
}
