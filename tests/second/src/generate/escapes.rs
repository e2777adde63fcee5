//! Quoted texts with escapes out of range, and texts that hold them: before and
//! behind sound segments, raw ones and broken ones, wherever a Text may stand
//! and where none may.

use super::grammar::Mischief;
use super::pieces::{self, code_point_of};
use super::random::Random;
use super::{damage, grammar, NONE};
use crate::front;
use crate::token::{self, Kind, Lexed};

/// A quoted text, and the backslash of its first escape out of range.
#[derive(Default)]
struct Quoted {
    piece: Vec<u8>,
    bad: Option<usize>,
}

/// A whole segment, and its first escape out of range.
type Segment = (&'static str, Option<usize>);

const SEGMENTS: [Segment; 8] = [
    (r#""a""#, None),
    (r#""a\<0cxD800>""#, None),
    (r#""\<0cxD800>""#, None),
    (r#""\\<0c65>\n""#, None),
    (r#""\\<0cxD800>""#, Some(2)),
    (r#""\\b\<0cx10FFFF>\<0cxDFFF>""#, Some(16)),
    (r#""\é\<0cx110000>\<0cxD800>""#, Some(4)),
    (r#""\<\<0c055296>""#, Some(3)),
];

/// Segments that are none, behind a literal: it ends before them.
const BROKEN: [&str; 5] = [
    r#""\\<0cxD800>"#,
    r#""\\<0cxD800>\x""#,
    r#""\\<0cxD800"#,
    "\"\\\\<0cxD800>`\"",
    "\"",
];

const BETWEEN: [&str; 3] = ["", "\n", "`\"\\\\<0cxD800>\"` "];

/// What stands around a Text: each of its places, places where none may stand,
/// and before what is refused, or behind it.
const FRAMES: [(&str, &str); 26] = [
    ("", ""),
    ("x ", ""),
    ("(x:", ")"),
    ("(", ")"),
    ("(", ":1)"),
    ("(", ":1,)"),
    ("(a,", ":1)"),
    ("(", "->$)"),
    ("(", "<-b)"),
    ("(a<-", ")"),
    ("::", "::0cxD800"),
    ("::0c65::", ""),
    ("(::", ":1,)"),
    ("{a,", "}"),
    ("{", ":b}"),
    ("{a->", ",1/0}"),
    ("{a<-", "}"),
    ("(Array:{", ":2})"),
    ("(Set:{a:", "})"),
    ("(Bag:{5,", "})"),
    ("[", "..1]"),
    ("[*<", "]"),
    ("(Mix:", ")"),
    ("(0L,", ")"),
    ("(1/0,", ")"),
    ("\u{FEFF}#!\"\\\\<0cxD800>\"\n`\\<`", " "),
];

/// One segment, and every two with anything between.
fn quoted_rows() -> Vec<Quoted> {
    let mut all = Vec::new();
    for first in SEGMENTS {
        all.push(joined("", &[first]));
        for between in BETWEEN {
            all.extend(SEGMENTS.map(|second| joined(between, &[first, second])));
        }
    }
    all
}

fn joined(between: &str, segments: &[Segment]) -> Quoted {
    let mut made = Quoted::default();
    for (segment, bad) in segments {
        if !made.piece.is_empty() {
            made.piece.extend(between.bytes());
        }
        let first = made.piece.len();
        made.bad = made.bad.or(bad.map(|at| first + at));
        made.piece.extend(segment.bytes());
    }
    made
}

/// The rows by themselves and with a broken segment behind: pieces for the Text
/// call.
pub fn escape_pieces() -> Vec<Vec<u8>> {
    let mut all = Vec::new();
    for Quoted { piece, .. } in quoted_rows() {
        all.extend(BROKEN.map(|broken| [&piece, broken.as_bytes()].concat()));
        all.push(piece);
    }
    all
}

/// All these pieces in every frame.
pub fn escape_rows() -> Vec<Vec<u8>> {
    let framed = |piece: Vec<u8>| {
        FRAMES.map(|(open, close)| [open.as_bytes(), &piece, close.as_bytes()].concat())
    };
    escape_pieces().into_iter().flat_map(framed).collect()
}

/// `n` quoted texts, damaged now and then: pieces for the Text call.
pub fn random_escape_pieces(seed: u64, n: usize) -> Vec<Vec<u8>> {
    let mut random = Random::new(seed);
    (0..n)
        .map(|_| {
            let mut piece = quoted(&mut random).piece;
            match random.below(8) {
                0 | 1 => pieces::damage(&mut piece, &mut random),
                2 => pieces::surround(&mut piece, &mut random),
                _ => (),
            }
            piece
        })
        .collect()
}

/// `n` texts of four families in turn: a quoted text in a frame, texts made by
/// the grammar with quoted texts in place of some of theirs, by today's rules and
/// with arrows, bad values and newer forms, and damaged.
pub fn escape_texts(seed: u64, n: usize) -> Vec<Vec<u8>> {
    let mut random = Random::new(seed);
    (0..n)
        .map(|index| match index % 4 {
            0 => framed(&mut random),
            1 => replaced(&mut random, NONE),
            2 => replaced(&mut random, super::MISCHIEF),
            _ => {
                let text = replaced(&mut random, NONE);
                damage::damaged(text, &mut random)
            }
        })
        .collect()
}

fn framed(random: &mut Random) -> Vec<u8> {
    let (open, close) = FRAMES[random.below(FRAMES.len())];
    let piece = quoted(random).piece;
    [open.as_bytes(), &piece, close.as_bytes()].concat()
}

/// Some Texts of a text are quoted ones.
fn replaced(random: &mut Random, mischief: Mischief) -> Vec<u8> {
    let mut text = grammar::text(random, mischief).text;
    let tokens = token::list(&text, front::begin(&text));
    for found in tokens.into_iter().rev() {
        match found {
            Lexed::Token(token) if matches!(token.kind, Kind::Text(_)) && random.once_in(2) => {
                text.splice(token.first..token.end, quoted(random).piece);
            }
            _ => (),
        }
    }
    text
}

/// A quoted text of some segments, escaped or not.
fn quoted(random: &mut Random) -> Quoted {
    let mut made = Quoted::default();
    for index in 0..1 + random.below(3) {
        if index > 0 {
            made.piece.extend(pieces::space(random).bytes());
        }
        segment(&mut made, random);
    }
    made
}

fn segment(made: &mut Quoted, random: &mut Random) {
    made.piece.push(b'"');
    if random.once_in(3) {
        raw(made, random);
    } else {
        made.piece.push(b'\\');
        (0..random.below(5)).for_each(|_| escaped(made, random));
    }
    made.piece.push(b'"');
}

/// A segment without escapes, with what would be one elsewhere.
fn raw(made: &mut Quoted, random: &mut Random) {
    const FRONTS: &[&str] = &["", "a", "<", "\u{E9}"];
    let front = random.pick(FRONTS);
    made.piece.extend(front.bytes());
    if !front.is_empty() {
        let code_point = code_point_of(out_of_range(random), random);
        made.piece.extend(format!("\\<{code_point}>x").bytes());
    }
}

/// A character of an escaped segment; one in three is out of range.
fn escaped(made: &mut Quoted, random: &mut Random) {
    const SOUND: &[&str] = &[
        "\\q",
        "\\g",
        "\\b",
        "\\t",
        "\\n",
        "\\r",
        "x",
        "<",
        "\u{E9}",
        "\u{1F600}",
        "<0cxD800>",
    ];
    match random.below(6) {
        0 | 1 => {
            made.bad = made.bad.or(Some(made.piece.len()));
            let code_point = code_point_of(out_of_range(random), random);
            made.piece.extend(format!("\\<{code_point}>").bytes());
        }
        2 => {
            let character = u32::from(pieces::character(random));
            let code_point = code_point_of(u128::from(character), random);
            made.piece.extend(format!("\\<{code_point}>").bytes());
        }
        _ => made.piece.extend(random.pick(SOUND).bytes()),
    }
}

/// A number that is no character's: at the bounds, between them, or with more
/// digits than a number of 64 bits has.
fn out_of_range(random: &mut Random) -> u128 {
    const BOUNDS: [u128; 6] = [0xD800, 0xDFFF, 0x11_0000, 0x1_0000_0041, 1 << 64, u128::MAX];
    match random.below(3) {
        0 => 0xD800 + random.below(0x800) as u128,
        1 => 0x11_0000 + u128::from(random.number()),
        _ => BOUNDS[random.below(BOUNDS.len())],
    }
}

#[cfg(test)]
mod tests {
    use super::*;
    use crate::answer::{Answer, BAD_VALUE};
    use crate::compare::in_quotes;
    use crate::{tree, value};

    fn shown(text: &[u8]) -> String {
        text.escape_ascii().to_string()
    }

    /// The Text call's answer is told by how the piece was made.
    fn is_as_made(made: &Quoted) {
        let answer = value::text(&made.piece, &mut [0; 2_000]);
        match made.bad {
            Some(place) => assert_eq!(answer, Answer::refused(BAD_VALUE, place)),
            None => assert_eq!(answer.number, 0, "{}", shown(&made.piece)),
        }
    }

    #[test]
    fn quoted_texts_are_refused_where_they_were_made_bad() {
        let mut random = Random::new(9);
        let mut counts = [0; 3];
        for _ in 0..8_000 {
            let made = quoted(&mut random);
            is_as_made(&made);
            let first = 1 + made
                .piece
                .iter()
                .skip(1)
                .position(|byte| *byte == b'"')
                .unwrap();
            match made.bad {
                None => counts[0] += 1,
                Some(place) if place < first => counts[1] += 1,
                Some(_) => counts[2] += 1,
            }
        }
        assert!(counts.iter().all(|count| *count > 1_000), "{counts:?}");
        quoted_rows().iter().for_each(is_as_made);
    }

    /// In a frame that takes a sound Text a bad one is refused there, and in any
    /// other frame its escapes are not looked at.
    #[test]
    fn rows_are_refused_where_they_were_made_bad() {
        let mut table = [0; 70];
        let (mut taken, mut others) = (0, 0);
        for (open, close) in FRAMES {
            let mut answer = |piece: &[u8]| {
                let text = [open.as_bytes(), piece, close.as_bytes()].concat();
                tree::read(2, &text, &mut table)
            };
            let sound = answer(b"\"a\"");
            let is_taken = sound.number == 0 || sound.place > open.len();
            for made in quoted_rows() {
                for behind in BROKEN.into_iter().chain([""]) {
                    let found = answer(&[&made.piece, behind.as_bytes()].concat());
                    match made.bad {
                        Some(place) if is_taken => {
                            let want = Answer::refused(BAD_VALUE, open.len() + place);
                            assert_eq!(found, want, "{open}{}", shown(&made.piece));
                            taken += 1;
                        }
                        None if is_taken => {
                            let end = open.len() + made.piece.len();
                            assert!(found.number != BAD_VALUE || found.place >= end);
                        }
                        _ => {
                            assert_eq!(found, sound, "{open}{}", shown(&made.piece));
                            others += 1;
                        }
                    }
                }
            }
        }
        assert!(taken > 10_000 && others > 5_000, "{taken}, {others}");
    }

    /// Many of the texts made at random are refused in quotes, too.
    #[test]
    fn texts_are_refused_in_quotes() {
        let refused = |text: &&Vec<u8>| in_quotes(text, tree::read(2, text, &mut []));
        let texts = escape_texts(8, 8_000);
        let times = texts.iter().filter(refused).count();
        assert!(times > 2_000, "{times}");
        assert_eq!(texts, escape_texts(8, 8_000));
    }
}
