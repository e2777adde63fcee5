//! A refusal with its place.

use crate::{line_column, Position, Refusal};
use core::fmt;

/// Why and where a text was refused, or a literal in it; shown as
/// `4:12: refused (6): a token in the wrong place`, so that behind a file's name
/// and a colon an editor finds it.
///
/// ```
/// use muon::{Document, Refusal, TABLE_MAX};
///
/// let text = b"{ engines : 7,\n  site : }";
/// let error = Document::read(2, text, &mut [0; TABLE_MAX]).expect_err("no value");
/// assert_eq!((error.refusal, error.place), (Refusal::WrongPlace, 24));
/// assert_eq!((error.position.line, error.position.column), (2, 10));
/// assert_eq!(error.to_string(), "2:10: refused (6): a token in the wrong place");
///
/// // with no room, what would be enough
/// let error = Document::read(2, b"(x:y)", &mut []).expect_err("no table");
/// assert_eq!((error.refusal, error.count), (Refusal::NoRoom, 3));
/// assert_eq!(
///     error.to_string(),
///     "1:6: refused (8): no room in the table or buffer, 3 needed"
/// );
/// ```
#[derive(Clone, Copy, Debug, PartialEq, Eq, Hash)]
#[non_exhaustive]
pub struct Error {
    /// Why.
    pub refusal: Refusal,
    /// Where, in bytes; see [`Refusal`].  Of a literal in a
    /// [`Document`](crate::Document) it is counted from the start of the text.
    pub place: usize,
    /// Line and column of the place.
    pub position: Position,
    /// Under [`Refusal::NoRoom`] the nodes or bytes needed; else 0.
    pub count: usize,
}

impl Error {
    /// Of a refusal at a place in the text.
    pub(crate) fn at(text: &[u8], refusal: Refusal, place: usize, count: usize) -> Error {
        Error {
            refusal,
            place,
            position: line_column(text, place),
            count,
        }
    }
}

impl fmt::Display for Error {
    fn fmt(&self, out: &mut fmt::Formatter<'_>) -> fmt::Result {
        let number = self.refusal.number();
        write!(
            out,
            "{}: refused ({number}): {}",
            self.position, self.refusal
        )?;
        match self.refusal {
            Refusal::NoRoom => write!(out, ", {} needed", self.count),
            _ => Ok(()),
        }
    }
}

impl core::error::Error for Error {}
