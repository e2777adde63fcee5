//! Hints where a token stands in the wrong place.

use crate::before::{skip, Before};
use crate::hint::{is_rest, said, still_open, word_before, PERHAPS_TEXT, QUOTED};
use muon::{line_column, TABLE_MAX};

pub fn hint(text: &[u8], level: u32, place: usize) -> Option<String> {
    if let Some(word) = word(text, place) {
        return in_word(word, &text[place..]);
    }
    let before = Before::of(text, place);
    // where nothing stands before it, nothing is told
    let last = before.last?;
    let open = before.open.last().copied();
    behind_word(text, place)
        .or_else(|| behind_quotes(text, place, &before))
        .or_else(|| match open {
            Some(open) => inside(text, level, place, last, open),
            None => Some(outside(text, last)),
        })
        .or_else(|| between_quotes(text, level, place, &before))
}

/// Whether a text is read beyond a place.
fn reads_beyond(level: u32, text: &[u8], place: usize) -> bool {
    let answer = muon::read(level, text, &mut [0; TABLE_MAX]);
    answer.is_accepted() || answer.place > place
}

fn with(text: &[u8], at: usize, more: u8) -> Vec<u8> {
    [&text[..at], &[more], &text[at..]].concat()
}

/// Whether a value or a name may begin with it.
fn begins(byte: u8) -> bool {
    is_rest(&byte) || b"\"({[+-".contains(&byte)
}

/// The word that a place is inside of.
fn word(text: &[u8], place: usize) -> Option<&[u8]> {
    let before = word_before(text, place).len();
    let behind = text[place..].iter().take_while(|byte| is_rest(byte));
    let behind = behind.count();
    (before > 0 && behind > 0).then(|| &text[place - before..place + behind])
}

/// A word that begins as a number, and goes on by a token that is none of it.
fn in_word(word: &[u8], token: &[u8]) -> Option<String> {
    said(match word {
        _ if has_lower_digits(word) => "hexadecimal digits are upper case",
        [b'0', b'b' | b'B', name @ ..] if is_boolean(name) => "a Boolean is 0bTRUE or 0bFALSE",
        [b'0', b'B' | b'D' | b'O' | b'X', digits @ ..] if is_hexadecimal(digits) => {
            "a prefix is lower case and hexadecimal digits are upper case, as in 0xFF"
        }
        [b'0', b'A'..=b'Z' | b'a'..=b'z', ..] => return None,
        _ if is_exponent(token) => "there is no exponent by e: 1e3 is written 1.0*10^3",
        _ => PERHAPS_TEXT,
    })
}

fn is_hexadecimal(digits: &[u8]) -> bool {
    let is_digit = |byte: &u8| byte.is_ascii_hexdigit() || *byte == b'_';
    !digits.is_empty() && digits.iter().all(is_digit)
}

fn has_lower_digits(word: &[u8]) -> bool {
    let marks = [&b"0xx"[..], b"0bx", b"0cx", b"0x"];
    let digits = marks.iter().find_map(|mark| word.strip_prefix(*mark));
    let is_lower = |byte: &u8| (b'a'..=b'f').contains(byte);
    digits.is_some_and(|digits| is_hexadecimal(digits) && digits.iter().any(is_lower))
}

fn is_boolean(name: &[u8]) -> bool {
    name.eq_ignore_ascii_case(b"true") || name.eq_ignore_ascii_case(b"false")
}

/// Whether what stands behind digits is an e, perhaps a sign, and a digit.
fn is_exponent(token: &[u8]) -> bool {
    let unsigned = match token {
        [b'e' | b'E', b'+' | b'-', rest @ ..] | [b'e' | b'E', rest @ ..] => rest,
        _ => return false,
    };
    unsigned.first().is_some_and(u8::is_ascii_digit)
}

/// A sign between what may be parts of one word, as in `22:30` and `fan-5`.
fn behind_word(text: &[u8], place: usize) -> Option<String> {
    let is_number = text.get(place + 1)?.is_ascii_digit();
    match (word_before(text, place), text[place]) {
        ([b'0'..=b'9', ..], b':' | b'+' | b'-') if is_number => said(PERHAPS_TEXT),
        ([_, ..], b'+' | b'-') if is_number => said(QUOTED),
        _ => None,
    }
}

/// A word right behind quotes, which most likely end too early.
fn behind_quotes(text: &[u8], place: usize, before: &Before) -> Option<String> {
    let is_it = is_rest(&text[place]) && text[..place].ends_with(b"\"");
    let position = line_column(text, before.quotes);
    is_it.then(|| format!("the quotation mark before it closes the quotes of {position}"))
}

/// What stands outside of every bracket, behind a token.
pub fn outside(text: &[u8], last: usize) -> String {
    let said = match text[last] {
        b')' | b'}' | b']' => "the text is one value, which ends before this",
        _ => "the text is one value; settings stand in round brackets ( ), a list in braces { }",
    };
    said.to_string()
}

/// What stands in a bracket, behind a token.
fn inside(text: &[u8], level: u32, place: usize, last: usize, open: usize) -> Option<String> {
    let byte = text[place];
    match (text[open], byte) {
        (b'(', b'}' | b']') | (b'{', b')' | b']') | (b'[', b')' | b'}') => {
            Some(still_open(text, open))
        }
        (b'[', _) if open < last && (byte == b',' || begins(byte)) => {
            said("square brackets are an Interval, a list has braces { }")
        }
        (b'(', _) => head(text, level, open, place).or_else(|| comma(text, level, place, last)),
        _ => comma(text, level, place, last),
    }
}

/// A first word behind a round bracket that is no name, if the text is read
/// beyond a place once it is in quotes.
pub fn head(text: &[u8], level: u32, bracket: usize, place: usize) -> Option<String> {
    let start = skip(text, bracket + 1);
    let rest = text.get(start..)?;
    let end = start + rest.iter().take_while(|byte| is_rest(byte)).count();
    let word = std::str::from_utf8(&text[start..end]).ok()?;
    let is_named = text[bracket] == b'(' && text.get(skip(text, end)) == Some(&b':');
    let quoted = with(&with(text, end, b'"'), start, b'"');
    if word.is_empty() || !is_named || !reads_beyond(level, &quoted, place + 2) {
        return None;
    }
    match word.starts_with(|first: char| first.is_ascii_digit()) {
        true => said("a name that begins with a digit stands in quotes"),
        false => Some(format!(
            "behind ( the word {word} begins a collection; as a name it stands in quotes"
        )),
    }
}

/// What stands behind a whole value, if the text is read beyond it once a comma
/// is between them.
fn comma(text: &[u8], level: u32, place: usize, last: usize) -> Option<String> {
    let byte = text[place];
    if !begins(byte) || !reads_beyond(level, &with(text, place, b','), place + 1) {
        return None;
    }
    let is_one_line = !text[last..place].contains(&b'\n');
    said(
        match is_one_line && is_rest(&text[last]) && is_rest(&byte) {
            true => "perhaps a comma is missing before it; a Text with spaces stands in quotes",
            false => "perhaps a comma is missing before it",
        },
    )
}

/// A colon behind quotes that were taken for more of the Text before them.
fn between_quotes(text: &[u8], level: u32, place: usize, before: &Before) -> Option<String> {
    let is_it = text[place] == b':'
        && text[before.last?] == b'"'
        && reads_beyond(level, &with(text, before.quotes, b','), place + 1);
    let position = line_column(text, before.quotes);
    is_it.then(|| format!("perhaps a comma is missing before the quotes of {position}"))
}
