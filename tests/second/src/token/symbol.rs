//! Symbols.

use super::{exactly, Kind, Match};

/// In the order of the comparison's numbers.
#[derive(Clone, Copy, Debug, PartialEq, Eq)]
pub enum Symbol {
    ParenOpen,
    ParenClose,
    BraceOpen,
    BraceClose,
    BracketOpen,
    BracketClose,
    Comma,
    ArrowRight,
    ArrowLeft,
    Dots,
    Colon,
    Colons,
    ClosedClosed,
    ClosedOpen,
    OpenClosed,
    OpenOpen,
    FromClosed,
    FromOpen,
    ToClosed,
    ToOpen,
    Star,
}

/// All but the colons, whose rule is not the longest match.
const SPELLINGS: [(&[u8], Symbol); 19] = [
    (b"(", Symbol::ParenOpen),
    (b")", Symbol::ParenClose),
    (b"{", Symbol::BraceOpen),
    (b"}", Symbol::BraceClose),
    (b"[", Symbol::BracketOpen),
    (b"]", Symbol::BracketClose),
    (b",", Symbol::Comma),
    (b"->", Symbol::ArrowRight),
    (b"<-", Symbol::ArrowLeft),
    (b"..", Symbol::Dots),
    (b"<=*<=", Symbol::ClosedClosed),
    (b"<=*<", Symbol::ClosedOpen),
    (b"<*<=", Symbol::OpenClosed),
    (b"<*<", Symbol::OpenOpen),
    (b"<=*", Symbol::FromClosed),
    (b"<*", Symbol::FromOpen),
    (b"*<=", Symbol::ToClosed),
    (b"*<", Symbol::ToOpen),
    (b"*", Symbol::Star),
];

pub fn symbol(text: &[u8], at: usize) -> Option<Match> {
    colons(text, at).or_else(|| {
        SPELLINGS
            .iter()
            .filter_map(|&(spelling, symbol)| {
                let end = exactly(text, at, spelling)?;
                Some(Match::good(Kind::Symbol(symbol), end))
            })
            .max_by_key(|found| found.end)
    })
}

/// Three colons are `:` and then `::`; four and more start no token.
fn colons(text: &[u8], at: usize) -> Option<Match> {
    let rest = text.get(at..)?;
    let run = rest.iter().take(4).take_while(|&&b| b == b':').count();
    let (symbol, length) = match run {
        1 | 3 => (Symbol::Colon, 1),
        2 => (Symbol::Colons, 2),
        _ => return None,
    };
    Some(Match::good(Kind::Symbol(symbol), at + length))
}
