//! Texts with arrows `<-`, at places where the old rules allow them and at
//! others, before and behind what is refused.

use super::grammar::Mischief;
use super::random::Random;
use super::{damage, grammar, ARROWS};
use crate::answer::DEPTH_MAX;
use crate::front;
use crate::token::{self, Kind, Lexed, Symbol};

const ARROW: &[u8] = b"<-";

/// What stands around an arrow: sound, refused with 4, 5, 6, 7 and 11, and the
/// arrow itself.
const SIDES: &[&str] = &[
    "a",
    "5",
    "-5",
    "\"s\"",
    "::b",
    "Set",
    "{}",
    "(b<-c)",
    "[1]",
    "(Set:{a})",
    "(Mix:5)",
    "0L",
    "1/0",
    "$",
    "",
    ",",
    ")",
    "<-",
];

/// Before the first, between the two and behind the second side.
const AROUND: &[[&str; 3]] = &[
    ["", "<-", ""],
    ["(", "<-", ")"],
    ["( ", " <- ", " )"],
    ["(", "<--", ")"],
    ["{", "<-", "}"],
    ["{,", "<-", ",}"],
    ["(,", "<-", ")"],
    ["(", "<-", ",)"],
    ["(", ",a<-", ")"],
    ["(", ":a<-", ")"],
    ["(", "<-a:", ")"],
    ["{", "<-a<-", "}"],
    ["{", ",a<-", "}"],
    ["{a<-", ",", "}"],
    ["{", ",", "<-a}"],
    ["{", ":", "<-a}"],
    ["[", "<-", "]"],
    ["[", "..", "<-a]"],
    ["(Set:{", "<-", "})"],
    ["(Bag:{", ":", "<-2})"],
    ["(Array<-", "", ")"],
    ["(Array:", "<-", ")"],
];

/// Every two of the sides in every frame; with a plain first side also with
/// brackets around, as many as may be open and one more.
pub fn arrow_rows() -> Vec<Vec<u8>> {
    let mut all = Vec::new();
    for [open, between, close] in AROUND {
        for one in SIDES {
            for other in SIDES {
                let text = format!("{open}{one}{between}{other}{close}");
                if *one == "a" {
                    all.extend([DEPTH_MAX - 1, DEPTH_MAX].map(|depth| nested(&text, depth)));
                }
                all.push(text.into_bytes());
            }
        }
    }
    all
}

fn nested(text: &str, depth: usize) -> Vec<u8> {
    [&"{".repeat(depth), text, &"}".repeat(depth)]
        .concat()
        .into_bytes()
}

/// `n` texts of five families in turn: made by the grammar of the old rules,
/// also with bad values and newer forms, with an arrow in place of another
/// sign, with one more put in, and damaged.
pub fn arrow_texts(seed: u64, n: usize) -> Vec<Vec<u8>> {
    let mut random = Random::new(seed);
    (0..n)
        .map(|index| match index % 5 {
            0 => made(&mut random, false),
            1 => made(&mut random, true),
            2 => replaced(&mut random),
            3 => put_in(&mut random),
            _ => damage::arrow_text(&mut random),
        })
        .collect()
}

/// A text with arrows where they may stand.
pub fn made(random: &mut Random, bad: bool) -> Vec<u8> {
    grammar::text(random, Mischief { bad, ..ARROWS }).text
}

/// One of the signs is an arrow.
fn replaced(random: &mut Random) -> Vec<u8> {
    let mut text = made(random, false);
    let signs: Vec<(usize, usize)> = tokens(&text)
        .into_iter()
        .filter_map(|found| match found {
            Lexed::Token(token) if is_sign(token.kind) => Some((token.first, token.end)),
            _ => None,
        })
        .collect();
    if !signs.is_empty() {
        let (first, end) = signs[random.below(signs.len())];
        text.splice(first..end, ARROW.iter().copied());
    }
    text
}

/// An arrow in front of one of the tokens, or at the end.
fn put_in(random: &mut Random) -> Vec<u8> {
    let mut text = made(random, true);
    let found = tokens(&text);
    let at = found[random.below(found.len())].first();
    text.splice(at..at, ARROW.iter().copied());
    text
}

fn tokens(text: &[u8]) -> Vec<Lexed> {
    token::list(text, front::begin(text))
}

/// Between values, names and members.
fn is_sign(kind: Kind) -> bool {
    use Symbol::{ArrowRight, Colon, Comma, Dots};
    matches!(kind, Kind::Symbol(Colon | Comma | ArrowRight | Dots))
}
