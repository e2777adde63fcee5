//! The value calls: what an Integer, a Text, a Bits or a Blob literal denotes.

mod packed;

pub use packed::{bits, blob};

use crate::answer::{
    Answer, BAD_VALUE, NOT_THE_LITERAL, NOT_UTF8, OUT_OF_RANGE, TEXT_MAX, TOO_LONG,
};
use crate::token::{self, Form, Kind, Lexed, Token};
use crate::utf8;

#[derive(Clone, Copy, Debug, PartialEq, Eq)]
pub struct IntAnswer {
    pub number: u32,
    pub place: usize,
    pub count: usize,
    pub value: i64,
}

impl IntAnswer {
    fn new(answer: Answer, value: i64) -> IntAnswer {
        IntAnswer {
            number: answer.number,
            place: answer.place,
            count: answer.count,
            value,
        }
    }
}

/// The number of an Integer literal; 0 if refused.
pub fn integer(piece: &[u8]) -> IntAnswer {
    match integer_value(piece) {
        Ok(value) => IntAnswer::new(Answer::accepted(piece.len(), 0), value),
        Err(refusal) => IntAnswer::new(refusal, 0),
    }
}

fn integer_value(piece: &[u8]) -> Result<i64, Answer> {
    only_token(piece, |kind| matches!(kind, Kind::Integer { .. }))?;
    let refusal = Answer::refused(OUT_OF_RANGE, 0);
    let parts = token::integer_parts(piece, 0).ok_or(refusal)?;
    let magnitude = i128::from(parts.magnitude);
    let value = if parts.negative {
        -magnitude
    } else {
        magnitude
    };
    i64::try_from(value).map_err(|_| refusal)
}

/// Writes the characters of a Text literal as UTF-8 to the buffer's start; a
/// refusal leaves the buffer unchanged.
pub fn text(piece: &[u8], buffer: &mut [u8]) -> Answer {
    written(piece, text_bytes(piece), buffer)
}

/// Writes what a text or piece gives, if there is room.
pub(crate) fn written(piece: &[u8], bytes: Result<Vec<u8>, Answer>, buffer: &mut [u8]) -> Answer {
    let bytes = match bytes {
        Ok(bytes) => bytes,
        Err(refusal) => return refusal,
    };
    if bytes.len() > buffer.len() {
        return Answer::no_room(piece.len(), bytes.len());
    }
    buffer[..bytes.len()].copy_from_slice(&bytes);
    Answer::accepted(piece.len(), bytes.len())
}

fn text_bytes(piece: &[u8]) -> Result<Vec<u8>, Answer> {
    let token = only_token(piece, |kind| matches!(kind, Kind::Text(_)))?;
    if let Some(place) = token.bad {
        return Err(Answer::refused(BAD_VALUE, place));
    }
    let mut bytes = Vec::new();
    // The literal is not bad, so every number is a character's.
    let mut give = |code: u64| utf8::spell(code as u32, &mut bytes);
    match token.kind {
        Kind::Text(Form::Quoted) => token::for_each_character(piece, 0, &mut give),
        Kind::Text(Form::CodePoint) => token::code_point(piece, 0).into_iter().for_each(give),
        _ => piece.iter().for_each(|&byte| give(u64::from(byte))),
    }
    Ok(bytes)
}

/// The one token that is the whole piece, if its kind is asked for.
fn only_token(piece: &[u8], asked: fn(Kind) -> bool) -> Result<Token, Answer> {
    if piece.len() > TEXT_MAX {
        return Err(Answer::refused(TOO_LONG, 0));
    }
    let bad = utf8::first_bad(piece);
    if bad < piece.len() {
        return Err(Answer::refused(NOT_UTF8, bad));
    }
    match token::next(piece, 0) {
        Lexed::Token(token) if whole(&token, piece) && asked(token.kind) => Ok(token),
        _ => Err(Answer::refused(NOT_THE_LITERAL, 0)),
    }
}

fn whole(token: &Token, piece: &[u8]) -> bool {
    token.first == 0 && token.end == piece.len()
}

#[cfg(test)]
mod tests;
