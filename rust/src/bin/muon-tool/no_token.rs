//! Hints where no token starts.

use crate::before::Before;
use crate::hint::{is_rest, said, word_before, PERHAPS_TEXT, QUOTED};
use crate::wrong_place::outside;
use muon::{line_column, Refusal};

const COLON: &str = "a colon stands between a name and its value";
const POINT: &str = "a digit stands before and behind the point";

pub fn hint(text: &[u8], place: usize) -> Option<String> {
    match text[place..] {
        [b'"', ..] => quotes(text, place),
        [b'`', ..] => said("the comment is not closed by another grave accent"),
        [b'#', ..] | [b'/', b'/' | b'*', ..] => said("comments stand between grave accents"),
        [b'\'', ..] => said("a Text is quoted by \""),
        [b'=', ..] => equals(text, place),
        [b';', ..] => semicolon(text, place),
        [0x80..=0xFF, ..] => character(&text[place..]),
        [b'.', ..] | [b'+' | b'-', b'.', ..] => point(text, place),
        _ => within_word(text, place),
    }
}

fn equals(text: &[u8], place: usize) -> Option<String> {
    let before = Before::of(text, place);
    let last = before.last?;
    if text[last] != b'"' && !is_rest(&text[last]) {
        return None;
    }
    match before.open.is_empty() {
        true => Some(format!("{COLON}; {}", outside(text, last))),
        false => said(COLON),
    }
}

fn semicolon(text: &[u8], place: usize) -> Option<String> {
    let before = Before::of(text, place);
    match before.open.is_empty() {
        true => Some(outside(text, before.last?)),
        false => said("a comma divides attributes and members"),
    }
}

/// A character beyond ASCII, which stands in quotes and comments only.
fn character(bytes: &[u8]) -> Option<String> {
    let chunk = bytes.utf8_chunks().next()?;
    let character = chunk.valid().chars().next()?;
    let number = format!("U+{:04X}", u32::from(character));
    Some(match character {
        '\u{2018}'..='\u{201F}' | '\u{AB}' | '\u{BB}' => {
            format!("{number} is no quotation mark; a Text is quoted by \"")
        }
        _ if character.is_whitespace() => format!("{number} is not taken for a space"),
        _ => format!("{number} is no letter here; {QUOTED}"),
    })
}

/// A point, or a sign and a point, that belongs to no number.
fn point(text: &[u8], place: usize) -> Option<String> {
    let point = place + usize::from(text[place] != b'.');
    let is_behind = text.get(point + 1).is_some_and(u8::is_ascii_digit);
    match word_before(text, place) {
        [b'0'..=b'9', ..] if is_behind => said(PERHAPS_TEXT),
        [b'0'..=b'9', ..] => said(POINT),
        [] if is_behind => said(POINT),
        _ => within_word(text, place),
    }
}

/// Another sign, such as `-` or `%`, with a letter or digit right beside it.
fn within_word(text: &[u8], place: usize) -> Option<String> {
    let is_behind = text.get(place + 1).is_some_and(is_rest);
    match is_behind || !word_before(text, place).is_empty() {
        true => said(QUOTED),
        false => None,
    }
}

/// The first thing that keeps what follows a quotation mark from being quoted.
fn quotes(text: &[u8], place: usize) -> Option<String> {
    let has_escapes = text.get(place + 1) == Some(&b'\\');
    let mut at = place + if has_escapes { 2 } else { 1 };
    let fault = loop {
        at += match text[at..] {
            [] => return said("the quotation mark is not closed"),
            [b'"', ..] => return None,
            [b'`', ..] => break "a grave accent; \\g is its escape",
            [b'\n' | b'\r', ..] => return said("the line ends inside the quotes"),
            [0..0x20, ..] | [0xC2, 0x80..0xA0, ..] => break "a control character",
            [b'\\', ..] if has_escapes => match escape(&text[at..]) {
                0 => break "a bad escape; there are \\q \\g \\b \\t \\n \\r and \\<0cxE9>",
                length => length,
            },
            _ => 1,
        };
    };
    let position = line_column(text, at);
    Some(format!("inside the quotes, at {position}, stands {fault}"))
}

/// The length of the escape that some bytes begin with, 0 if it is none.
fn escape(bytes: &[u8]) -> usize {
    match bytes {
        [_, b'q' | b'g' | b'b' | b't' | b'n' | b'r', ..] => 2,
        [_, b'<', code @ ..] => match code.iter().position(|byte| *byte == b'>') {
            Some(length) if is_code_point(&code[..length]) => length + 3,
            _ => 0,
        },
        _ => 0,
    }
}

/// Whether it is a code point, be it a character's or not.
fn is_code_point(piece: &[u8]) -> bool {
    let mut buffer = vec![0; piece.len()];
    let refusal = muon::text(piece, &mut buffer).refusal();
    piece.starts_with(b"0c") && matches!(refusal, None | Some(Refusal::BadValue))
}
