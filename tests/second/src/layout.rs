//! Layout: which texts differ in their dividing space alone.
//!
//! Behind its front a text is cut into ordinary bytes, whole quotes and full
//! stretches of dividing space.  A text is another laid out anew if both have
//! the same front and the same pieces, whatever stands in the stretches.  An
//! empty place is no stretch, so space is never put in or left out.

pub mod places;

use crate::{front, space};
use std::ops::Range;

#[derive(Clone, Copy, Debug, PartialEq, Eq)]
pub enum Kind {
    /// An ordinary one.
    Byte,
    /// Two quotation marks and what is between.
    Quotes,
    /// Dividing space at its full length, which is not empty.
    Space,
}

#[derive(Clone, Debug, PartialEq, Eq)]
pub struct Piece {
    pub kind: Kind,
    pub span: Range<usize>,
}

/// A stretch of a text, and the bytes that are to stand there.
pub type Change = (Range<usize>, Vec<u8>);

/// The pieces of a text behind its front; none if a quotation mark or a grave
/// accent lacks its partner, as none of an accepted text does.
pub fn cut(text: &[u8]) -> Option<Vec<Piece>> {
    let mut pieces = Vec::new();
    let mut place = front::begin(text);
    while place < text.len() {
        let piece = piece(text, place)?;
        place = piece.span.end;
        pieces.push(piece);
    }
    Some(pieces)
}

/// No quotation mark stands inside quotes, since an escape spells it with a
/// letter.
fn piece(text: &[u8], at: usize) -> Option<Piece> {
    let (kind, end) = match text[at] {
        b'"' => (Kind::Quotes, space::behind_partner(text, at)?),
        byte => match space::skip(text, at) {
            end if end > at => (Kind::Space, end),
            _ if byte == b'`' => return None,
            _ => (Kind::Byte, at + 1),
        },
    };
    let span = at..end;
    Some(Piece { kind, span })
}

/// Whether one of two texts is the other laid out anew.
pub fn relaid(text: &[u8], other: &[u8]) -> bool {
    let (front, other_front) = (front::begin(text), front::begin(other));
    if text[..front] != other[..other_front] {
        return false;
    }
    let (Some(pieces), Some(others)) = (cut(text), cut(other)) else {
        return false;
    };
    let alike = |(one, another): (&Piece, &Piece)| {
        let bytes = || text[one.span.clone()] == other[another.span.clone()];
        one.kind == another.kind && (one.kind == Kind::Space || bytes())
    };
    pieces.len() == others.len() && pieces.iter().zip(&others).all(alike)
}

/// The spans of the pieces of one kind, in order.
pub fn spans(text: &[u8], kind: Kind) -> Vec<Range<usize>> {
    let pieces = cut(text).unwrap_or_default().into_iter();
    let these = pieces.filter(|piece| piece.kind == kind);
    these.map(|piece| piece.span).collect()
}

/// The stretches of dividing space, in order.
pub fn stretches(text: &[u8]) -> Vec<Range<usize>> {
    spans(text, Kind::Space)
}

/// The text with these changes, which are given in order.
pub fn changed(text: &[u8], changes: &[Change]) -> Vec<u8> {
    let mut other = Vec::new();
    let mut place = 0;
    for (stretch, bytes) in changes {
        other.extend(&text[place..stretch.start]);
        other.extend(bytes);
        place = stretch.end;
    }
    other.extend(&text[place..]);
    other
}

/// The text with one blank for each of its stretches: of two texts that have a
/// cut it is the same exactly if one is the other laid out anew.
pub fn plainly(text: &[u8]) -> Vec<u8> {
    let blanks = |stretch| (stretch, b" ".to_vec());
    let changes: Vec<Change> = stretches(text).into_iter().map(blanks).collect();
    changed(text, &changes)
}

#[cfg(test)]
mod tests;
