//! Tokens: at each place the longest match of any token rule.

mod code_point;
mod digits;
mod number;
mod packed;
mod quoted;
mod symbol;
mod word;

pub use digits::figures;
pub use number::{integer_parts, IntegerParts};
pub use quoted::for_each_character;
pub use symbol::Symbol;
pub use word::Head;

use crate::space;

/// How a Text is written.
#[derive(Clone, Copy, Debug, PartialEq, Eq)]
pub enum Form {
    Quoted,
    /// A bare word, and which head word it is, if any.
    Word(Option<Head>),
    CodePoint,
}

#[derive(Clone, Copy, Debug, PartialEq, Eq)]
pub enum Kind {
    Ignorance,
    Boolean(bool),
    Integer { signed: bool },
    Fraction,
    Bits,
    Blob,
    Text(Form),
    Later,
    Symbol(Symbol),
}

impl Kind {
    /// The number the comparison uses for this kind.
    pub fn number(self) -> u32 {
        match self {
            Kind::Ignorance => 1,
            Kind::Boolean(_) => 2,
            Kind::Integer { .. } => 3,
            Kind::Fraction => 4,
            Kind::Bits => 5,
            Kind::Blob => 6,
            Kind::Text(_) => 7,
            Kind::Later => 8,
            Kind::Symbol(_) => 9,
        }
    }

    /// The comparison's number for what else is known; 0 if nothing is.
    pub fn detail(self) -> u32 {
        match self {
            Kind::Boolean(value) => u32::from(value),
            Kind::Integer { signed } => u32::from(signed),
            Kind::Text(Form::Quoted) => 1,
            Kind::Text(Form::Word(None)) => 2,
            Kind::Text(Form::CodePoint) => 3,
            Kind::Text(Form::Word(Some(head))) => 4 + head as u32,
            Kind::Symbol(symbol) => symbol as u32,
            _ => 0,
        }
    }
}

#[derive(Clone, Copy, Debug, PartialEq, Eq)]
pub struct Token {
    pub kind: Kind,
    pub first: usize,
    pub end: usize,
    /// Where a literal with a bad value is refused: at the backslash of its
    /// first escape out of range, and else at its first byte.
    pub bad: Option<usize>,
}

/// What stands at or after a place.
#[derive(Clone, Copy, Debug, PartialEq, Eq)]
pub enum Lexed {
    Token(Token),
    /// At the text length.
    End(usize),
    /// No token starts at this place.
    NoToken(usize),
}

impl Lexed {
    pub fn first(&self) -> usize {
        match *self {
            Lexed::Token(token) => token.first,
            Lexed::End(place) | Lexed::NoToken(place) => place,
        }
    }

    /// The five numbers of the comparison: kind, first, end, detail, bad.
    pub fn words(&self) -> [u64; 5] {
        match *self {
            Lexed::End(place) => [0, place as u64, place as u64, 0, 0],
            Lexed::NoToken(place) => [10, place as u64, place as u64, 0, 0],
            Lexed::Token(token) => [
                u64::from(token.kind.number()),
                token.first as u64,
                token.end as u64,
                u64::from(token.kind.detail()),
                u64::from(token.bad.is_some()),
            ],
        }
    }
}

/// One rule's match at a place, and where its bad value is refused.
#[derive(Clone, Copy, Debug)]
struct Match {
    kind: Kind,
    end: usize,
    bad: Option<usize>,
}

impl Match {
    fn good(kind: Kind, end: usize) -> Match {
        Match {
            kind,
            end,
            bad: None,
        }
    }
}

type Rule = fn(&[u8], usize) -> Option<Match>;

const RULES: [Rule; 11] = [
    ignorance,
    boolean,
    number::integer,
    number::fraction,
    packed::bits,
    packed::blob,
    quoted::text,
    word::text,
    code_point::text,
    later,
    symbol::symbol,
];

/// The token at or after `at`, dividing space skipped; for any bytes and any
/// place.
pub fn next(text: &[u8], at: usize) -> Lexed {
    let first = space::skip(text, at);
    if first >= text.len() {
        return Lexed::End(text.len());
    }
    let longest = RULES
        .iter()
        .filter_map(|rule| rule(text, first))
        .max_by_key(|found| found.end);
    match longest {
        Some(found) => Lexed::Token(Token {
            kind: found.kind,
            first,
            end: found.end,
            bad: found.bad,
        }),
        None => Lexed::NoToken(first),
    }
}

/// All tokens from `at`; the last entry is the end or the place of no token.
pub fn list(text: &[u8], at: usize) -> Vec<Lexed> {
    let mut tokens = Vec::new();
    let mut place = at;
    loop {
        let found = next(text, place);
        tokens.push(found);
        match found {
            Lexed::Token(token) => place = token.end,
            Lexed::End(_) | Lexed::NoToken(_) => return tokens,
        }
    }
}

/// The place behind `word` if it stands at `at`.
fn exactly(text: &[u8], at: usize, word: &[u8]) -> Option<usize> {
    text.get(at..)?.starts_with(word).then(|| at + word.len())
}

/// The character's number of the code point literal at `at`.
pub fn code_point(text: &[u8], at: usize) -> Option<u64> {
    code_point::number(text, at).map(|(code, _)| code)
}

fn ignorance(text: &[u8], at: usize) -> Option<Match> {
    let end = exactly(text, at, b"0sIGNORANCE")?;
    Some(Match::good(Kind::Ignorance, end))
}

fn boolean(text: &[u8], at: usize) -> Option<Match> {
    let spelled = |word, value| {
        let end = exactly(text, at, word)?;
        Some(Match::good(Kind::Boolean(value), end))
    };
    spelled(b"0bFALSE", false).or_else(|| spelled(b"0bTRUE", true))
}

/// Two bytes; what follows is never looked at.
fn later(text: &[u8], at: usize) -> Option<Match> {
    let end = exactly(text, at, b"0L")?;
    Some(Match::good(Kind::Later, end))
}

#[cfg(test)]
mod tests;
