//! Where the stretches of dividing space of a text stand.

use crate::front;
use crate::token::{self, Form, Kind, Lexed};
use std::ops::Range;

#[derive(Clone, Copy, Debug, PartialEq, Eq)]
pub enum Place {
    /// At byte 0.
    Start,
    /// Right behind a byte-order mark or a first line.
    BehindFront,
    /// Inside a number, Bits or a Blob.
    InLiteral,
    BetweenSegments,
    BetweenTokens,
    /// Up to the text's last byte.
    End,
}

pub const PLACES: usize = Place::End as usize + 1;

/// An accepted text's ends and tokens.
pub struct Places {
    length: usize,
    front: usize,
    tokens: Vec<Lexed>,
}

impl Places {
    pub fn new(text: &[u8]) -> Places {
        let front = front::begin(text);
        Places {
            length: text.len(),
            front,
            tokens: token::list(text, front),
        }
    }

    pub fn of(&self, stretch: &Range<usize>) -> Place {
        match *stretch {
            Range { start: 0, .. } => Place::Start,
            Range { start, .. } if start == self.front => Place::BehindFront,
            Range { end, .. } if end == self.length => Place::End,
            Range { start, .. } => self.behind_a_token(start),
        }
    }

    fn behind_a_token(&self, at: usize) -> Place {
        let begun = self.tokens.partition_point(|found| found.first() < at);
        match self.tokens[begun - 1] {
            Lexed::Token(token) if at < token.end => match token.kind {
                Kind::Text(Form::Quoted) => Place::BetweenSegments,
                _ => Place::InLiteral,
            },
            _ => Place::BetweenTokens,
        }
    }
}

#[cfg(test)]
mod tests {
    use super::{Place, Places};
    use crate::layout::stretches;

    #[test]
    fn each_place() {
        use Place::{BehindFront, BetweenSegments, BetweenTokens, End, InLiteral, Start};
        let found = |text: &[u8]| -> Vec<Place> {
            let places = Places::new(text);
            let stretches = stretches(text);
            stretches.iter().map(|one| places.of(one)).collect()
        };
        assert_eq!(found(b" 1 2 "), [Start, InLiteral, End]);
        assert_eq!(
            found(b"#!\n\n{5 ,0xx ,\"a\" \"b\" }"),
            [
                BehindFront,
                BetweenTokens,
                BetweenTokens,
                BetweenSegments,
                BetweenTokens
            ]
        );
        assert_eq!(found(b"\xEF\xBB\xBF 5"), [BehindFront]);
        assert_eq!(found(b"0xx AA - 5"), [InLiteral, BetweenTokens, InLiteral]);
    }
}
