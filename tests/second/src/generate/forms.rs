//! Texts for plain forms and conversions.

use crate::answer::{DEPTH_MAX, NODES_MAX, TEXT_MAX};
use crate::token::Lexed;
use crate::{front, samples, token};

/// Brackets as deep as may be, around members or the innermost value; this is
/// the sign of the pairs, `->` or the arrow `<-`.
pub fn deep_forms(sign: &str) -> Vec<Vec<u8>> {
    let mut all = Vec::new();
    let wrapped = [
        ("(b<-", ")"),
        ("{b<-", "}"),
        ("{a,b<-", ",c<-d}"),
        ("(", "<-a)"),
        ("{", "<-a}"),
        ("{", "<-Set,Bag<-b}"),
        ("(", ":a)"),
        ("(", ")"),
        ("(", ",)"),
        ("(,", ")"),
        ("(x:", ",)"),
        ("(Set->", ")"),
        ("[", "..b]"),
        ("[a<*<=", "]"),
        ("[*<", "]"),
        ("{,", ",}"),
    ];
    for (open, close) in wrapped {
        for inner in ["a", "{Set}", "(c<-d)", "[ 1 ]", ""] {
            for depth in [DEPTH_MAX - 1, DEPTH_MAX, DEPTH_MAX + 1] {
                let (open, close) = (open.repeat(depth), close.repeat(depth));
                all.push(signed(&format!("{open}{inner}{close}"), sign));
            }
        }
    }
    let pairs = "b<-a,".repeat(300);
    let (open, close) = ("{".repeat(DEPTH_MAX), "}".repeat(DEPTH_MAX));
    all.push(signed(&format!("{open}{pairs}{close}"), sign));
    all
}

/// The text with this sign for the arrow.
fn signed(text: &str, sign: &str) -> Vec<u8> {
    text.replace("<-", sign).into_bytes()
}

/// Words that are put in quotes, in texts as long as may be.
pub fn head_forms() -> Vec<Vec<u8>> {
    let mut all = Vec::new();
    for (front, unit, rear) in [
        ("", "::Set", ""),
        ("", "::Bag", "::a"),
        ("", ":: Mix", " "),
        ("", "::Interval_Set", ""),
        ("(", "::Array", ":Set)"),
        ("{5:", "::Renaming", "}"),
    ] {
        for length in [TEXT_MAX / 7 * 5, TEXT_MAX] {
            let room = length - front.len() - rear.len();
            let text = [front, &unit.repeat(room / unit.len()), rear].concat();
            all.push(text.into_bytes());
        }
    }
    // forms of the text size, less a byte and a byte more
    for spare in 5..=7 {
        let text = format!("{}::{}", "::Set".repeat(4_680), "a".repeat(spare));
        all.push(text.into_bytes());
    }
    for members in [1, 2, NODES_MAX - 1, NODES_MAX] {
        all.push(format!("{{{}}}", "Set,".repeat(members)).into_bytes());
        all.push(format!("({})", "Bag , ".repeat(members)).into_bytes());
        all.push(format!("(Set:{{{}}})", "Set,".repeat(members)).into_bytes());
    }
    all
}

/// Around 1,024 nodes, with this sign in pairs, and around the longest text.
pub fn sized_forms(sign: &str) -> Vec<Vec<u8>> {
    let lots = [2 * NODES_MAX - 2, 2 * NODES_MAX, 2 * NODES_MAX + 2];
    let mut all: Vec<Vec<u8>> = lots.map(samples::members).to_vec();
    for unit in [
        "b<-a,",
        "b<-(c<-d),",
        "x,y<-z,",
        "::a::b:5,",
        "{b<-a}<-[1..2],",
    ] {
        all.push(signed(&format!("{{{}}}", unit.repeat(200)), sign));
        all.push(signed(&format!("{{{}}}", unit.repeat(1_000)), sign));
    }
    for pairs in [511, 512] {
        all.push(signed(&format!("{{{}}}", "b<-a,".repeat(pairs)), sign));
    }
    let lengths = [TEXT_MAX - 1, TEXT_MAX, TEXT_MAX + 1];
    all.extend(lengths.into_iter().flat_map(samples::digit_at_either_end));
    all
}

/// Where a comment may stand: before each token, and at the end or where there
/// is none.
pub fn gaps(text: &[u8]) -> Vec<usize> {
    let tokens = token::list(text, front::begin(text));
    tokens.iter().map(Lexed::first).collect()
}

/// The text with a comment in each of its gaps.
pub fn commented(text: &[u8], comment: &[u8]) -> Vec<u8> {
    let mut other = text.to_vec();
    for at in gaps(text).into_iter().rev() {
        other.splice(at..at, comment.iter().copied());
    }
    other
}

#[cfg(test)]
mod tests {
    use super::*;

    #[test]
    fn a_comment_in_each_gap() {
        assert_eq!(gaps(b"( xy )`z` "), [0, 2, 5, 10]);
        assert_eq!(commented(b"( xy )", b"`c`"), b"`c`( `c`xy `c`)`c`");
    }
}
