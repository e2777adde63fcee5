//! What a refusal most likely comes from.  A hint is true, or says "perhaps";
//! what it says of another call, level or text was tried.

use crate::before::Before;
use crate::{no_token, wrong_place};
use muon::{convert, line_column, Error, Refusal, TABLE_MAX};

/// Of what is no word, and no token of another kind.
pub const QUOTED: &str =
    "a word has only A to Z, a to z, 0 to 9 and _; with other characters it stands in quotes";
/// Of digits that go on as no number does.
pub const PERHAPS_TEXT: &str = "perhaps it is a Text, which stands in quotes";

/// A hint for a text that was refused at a level.
pub fn hint(text: &[u8], level: u32, error: &Error) -> Option<String> {
    let place = error.place;
    match error.refusal {
        Refusal::NotUtf8 => not_utf8(text),
        Refusal::NoToken => no_token::hint(text, place),
        Refusal::WrongPlace if place == text.len() => Some(ends(text)),
        Refusal::WrongPlace => wrong_place::hint(text, level, place),
        Refusal::NewerForm if level == 1 && is_accepted(2, text) => {
            said("it is accepted with --level 2")
        }
        Refusal::NewerForm => wrong_place::head(text, level, place, place),
        Refusal::RetiredArrow if convert::to_vec(level, text).is_ok() => {
            said("`muon-tool convert` writes it without the arrow")
        }
        _ => None,
    }
}

pub fn said(hint: &str) -> Option<String> {
    Some(hint.to_string())
}

fn is_accepted(level: u32, text: &[u8]) -> bool {
    muon::read(level, text, &mut [0; TABLE_MAX]).is_accepted()
}

/// Letters, digits and `_`, of which words and numbers are made.
pub fn is_rest(byte: &u8) -> bool {
    byte.is_ascii_alphanumeric() || *byte == b'_'
}

/// The bytes of this kind right before a place.
pub fn word_before(text: &[u8], place: usize) -> &[u8] {
    let before = &text[..place];
    let length = before.iter().rev().take_while(|byte| is_rest(byte)).count();
    &before[place - length..]
}

fn not_utf8(text: &[u8]) -> Option<String> {
    match text {
        [0xFF, 0xFE, ..] | [0xFE, 0xFF, ..] => said("it begins as UTF-16 does"),
        _ => None,
    }
}

/// `the ( of 2:5 is still open`.
pub fn still_open(text: &[u8], bracket: usize) -> String {
    let (bracket, position) = (char::from(text[bracket]), line_column(text, bracket));
    format!("the {bracket} of {position} is still open")
}

fn ends(text: &[u8]) -> String {
    let before = Before::of(text, text.len());
    match (before.open.last(), before.last) {
        (Some(bracket), _) => format!("the text ends here, and {}", still_open(text, *bracket)),
        (None, None) => "the text ends here, and there is no value in it".to_string(),
        (None, Some(_)) => "the text ends here".to_string(),
    }
}
