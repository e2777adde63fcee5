//! Lines and columns.

use crate::raw;
use core::fmt;

/// A line and a column, both counted from 1; shown as `4:12`.
#[derive(Clone, Copy, Debug, PartialEq, Eq, PartialOrd, Ord, Hash)]
pub struct Position {
    /// 1 and the line feeds before the place.
    pub line: usize,
    /// 1 and the characters since the line began.
    pub column: usize,
}

impl fmt::Display for Position {
    fn fmt(&self, out: &mut fmt::Formatter<'_>) -> fmt::Result {
        write!(out, "{}:{}", self.line, self.column)
    }
}

/// The line and the column of a place in `text`, for those who look for it in an
/// editor.
///
/// The line is 1 and the bytes 0A before the place, the column 1 and the
/// characters since the line began.  A character is a well-formed UTF-8
/// sequence; a byte at which none begins counts as one by itself.  A place
/// inside of a character has that character's column, and a place beyond the
/// text is taken as its end.  Nothing is refused: a text may have any bytes and
/// any length.
///
/// ```
/// use muon::{line_column, Position};
///
/// let text = "{ \"café\" : 1,\n  \"réglage\" : $ }".as_bytes();
/// let answer = muon::read(2, text, &mut [0; 60]);
/// let position = line_column(text, answer.place);
/// assert_eq!(position, Position { line: 2, column: 15 });
/// assert_eq!(position.to_string(), "2:15");
///
/// // inside of the first é, behind it, and at the text's end
/// let at = |place| line_column("é\n".as_bytes(), place).to_string();
/// assert_eq!([at(1), at(2), at(3), at(99)], ["1:1", "1:2", "2:1", "2:1"]);
/// // a byte that begins no character
/// assert_eq!(line_column(b"\xFF\xFFa", 2).column, 3);
/// ```
#[must_use]
pub fn line_column(text: &[u8], place: usize) -> Position {
    // What the call did not write would not look like a line.
    let (mut line, mut column) = (usize::MAX, usize::MAX);
    // SAFETY: pointer and length are those of a live slice, and the numbers
    // to be written are this function's own.
    unsafe {
        raw::muon_line_column(text.as_ptr(), text.len(), place, &mut line, &mut column);
    }
    Position { line, column }
}
