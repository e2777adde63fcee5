//! Quoted texts: one or more segments.

use super::{code_point, Form, Kind, Match};
use crate::{space, utf8};

const QUOTE: u8 = b'"';
const BACKSLASH: u8 = b'\\';

pub fn text(text: &[u8], at: usize) -> Option<Match> {
    let (mut end, mut bad) = judged_segment(text, at)?;
    // A further segment belongs to the literal only if it is whole.
    while let Some((further, fault)) = judged_segment(text, space::skip(text, end)) {
        end = further;
        bad = bad.or(fault);
    }
    Some(Match {
        kind: Kind::Text(Form::Quoted),
        end,
        bad,
    })
}

/// The end of the segment at `at`, and the backslash of its first escape out
/// of range.
fn judged_segment(text: &[u8], at: usize) -> Option<(usize, Option<usize>)> {
    let mut bad = None;
    let end = segment(text, at, |place, code| {
        if !utf8::is_scalar(code) {
            bad = bad.or(Some(place));
        }
    })?;
    Some((end, bad))
}

/// Gives the characters' numbers of a whole quoted literal, in order.
pub fn for_each_character(text: &[u8], first: usize, give: &mut dyn FnMut(u64)) {
    let mut place = first;
    while let Some(end) = segment(text, place, |_, code| give(code)) {
        place = space::skip(text, end);
    }
}

/// The place behind the segment at `at`; where each of its characters is
/// written and the character's number are given while it is read, even if it
/// then turns out not to be whole.
fn segment(text: &[u8], at: usize, mut give: impl FnMut(usize, u64)) -> Option<usize> {
    if text.get(at) != Some(&QUOTE) {
        return None;
    }
    let escaped = text.get(at + 1) == Some(&BACKSLASH);
    let mut place = at + 1 + usize::from(escaped);
    loop {
        let (code, end) = match *text.get(place)? {
            QUOTE => return Some(place + 1),
            BACKSLASH if escaped => escape(text, place + 1)?,
            _ => plain(text, place)?,
        };
        give(place, code);
        place = end;
    }
}

/// A character that stands for itself.
fn plain(text: &[u8], at: usize) -> Option<(u64, usize)> {
    let (code, end) = utf8::step(text, at)?;
    let barred = matches!(code, 0..=0x1F | 0x22 | 0x60 | 0x80..=0x9F);
    (!barred).then_some((u64::from(code), end))
}

/// The character of the escape whose backslash is before `at`.
fn escape(text: &[u8], at: usize) -> Option<(u64, usize)> {
    let code = match *text.get(at)? {
        b'q' => 0x22,
        b'g' => 0x60,
        b'b' => 0x5C,
        b't' => 0x09,
        b'n' => 0x0A,
        b'r' => 0x0D,
        b'<' => return bracketed(text, at + 1),
        _ => return None,
    };
    Some((code, at + 1))
}

fn bracketed(text: &[u8], at: usize) -> Option<(u64, usize)> {
    let (code, end) = code_point::number(text, at)?;
    (text.get(end) == Some(&b'>')).then_some((code, end + 1))
}
