//! The plain form: a text written again without all that means nothing.
//!
//! No byte-order mark, first line `#!`, comment, dividing space or group is
//! left, and no `_` between digits; a pair is this, `:` and that; commas stand
//! only between members, and one behind a Tuple's single attribute.  A word that
//! is one of the thirteen heads, but is no head where it stands, is put in
//! quotes.  All else is as it stands in the text.
//!
//! Texts that differ only in what is left out have the same plain form:
//!
//! ```
//! # #[cfg(feature = "alloc")] {
//! use muon::plain;
//!
//! let office = plain::to_vec(2, b"{ north : -1_5 , `as agreed` }")?;
//! let site = plain::to_vec(2, b"{,(north)->-15}")?;
//! assert_eq!(office, b"{north:-15}");
//! assert_eq!(site, office);
//! # }
//! # Ok::<(), muon::Error>(())
//! ```

use crate::{raw, Answer};

#[cfg(feature = "alloc")]
use crate::{Error, TABLE_MAX};
#[cfg(feature = "alloc")]
use alloc::{vec, vec::Vec};

/// The stack that [`write()`] needs at most, in bytes: it keeps a table on it.
pub const STACK_MAX: usize = crate::file::STACK_MAX;

/// Bytes that are always enough for the plain form of a text of so many.
///
/// It may be longer than the text, by two bytes for each word that it has to
/// put in quotes.
///
/// ```
/// assert_eq!(muon::plain::bytes(12), 24);
/// ```
#[must_use]
pub const fn bytes(text_len: usize) -> usize {
    2 * text_len
}

/// Writes the plain form of `text` to the start of `buffer`; `level` and `table`
/// are those that [`read`](crate::read) has read it with.
///
/// Accepted, exactly the first `count` bytes are written; refused, none.  What
/// the buffer held doesn't matter, nor do the words behind those that `read`
/// wrote.  Refusals are those of `read` at that level with a table as long, so 8
/// with the nodes if it is too short for them; then 14 at 0 if the table doesn't
/// begin with what `read` writes; then 8 with the bytes needed.  No other is
/// given.  With [`bytes`] of the text's length the last one is never given, and
/// the text is written without being measured first.  With fewer, the count alone
/// does not tell whether nodes or bytes are meant, but a table that `read` has
/// just accepted the text with has room for the nodes.
///
/// Read at the same level, a plain form that is no longer than
/// [`TEXT_MAX`](crate::TEXT_MAX) gives the same nodes, except for their places
/// and a Text's detail; its own plain form is itself.  At the other level, too,
/// text and plain form end alike, in number and count.  By the quotes that it puts
/// around words it may be longer than the text, and even than `TEXT_MAX`; it is
/// written all the same, though `read` refuses it.  A text with an arrow `<-`
/// is refused, as by `read`; [`convert`](mod@crate::convert) takes it.
///
/// ```
/// use muon::{plain, Refusal};
///
/// let text = b"(Array -> 5)";
/// let mut table = [0; 3 * muon::NODE_WORDS];
/// muon::read(1, text, &mut table).accepted()?;
/// let mut buffer = [0; plain::bytes(12)];
/// let answer = plain::write(1, text, &table, &mut buffer);
/// assert_eq!((answer.place, answer.accepted()), (12, Ok(11)));
/// assert_eq!(&buffer[..11], b"(\"Array\":5)");
///
/// // a buffer that is too short: the count tells what is needed
/// let answer = plain::write(1, text, &table, &mut buffer[..10]);
/// assert_eq!(answer.refusal(), Some(Refusal::NoRoom));
/// assert_eq!((answer.place, answer.count), (12, 11));
///
/// // the table of another text
/// let answer = plain::write(1, b"(Array ,  5)", &table, &mut buffer);
/// assert_eq!(answer.refusal(), Some(Refusal::NotTheFile));
/// # Ok::<(), Refusal>(())
/// ```
pub fn write(level: u32, text: &[u8], table: &[u32], buffer: &mut [u8]) -> Answer {
    // SAFETY: pointers and lengths are those of live slices and numbers, and
    // what may be written is borrowed by this call alone.
    Answer::of(|place, count| unsafe {
        raw::muon_plain(
            level,
            text.as_ptr(),
            text.len(),
            table.as_ptr(),
            table.len(),
            buffer.as_mut_ptr(),
            buffer.len(),
            place,
            count,
        )
    })
}

/// Reads `text` at a level and gives its plain form as a vector.
///
/// # Errors
///
/// Those of [`read`](crate::read()), with line and column.
///
/// ```
/// use muon::{plain, Refusal};
///
/// assert_eq!(plain::to_vec(2, b"[ 1 <=*< 2 ]")?, b"[1<=*<2]");
/// let error = plain::to_vec(1, b"[ 1 <=*< 2 ]").expect_err("level 2");
/// assert_eq!(error.refusal, Refusal::NewerForm);
/// # Ok::<(), muon::Error>(())
/// ```
#[cfg(feature = "alloc")]
pub fn to_vec(level: u32, text: &[u8]) -> Result<Vec<u8>, Error> {
    let mut table = vec![0; TABLE_MAX];
    crate::read(level, text, &mut table).accepted_in(text)?;
    let mut plain = vec![0; bytes(text.len())];
    let count = write(level, text, &table, &mut plain).accepted_in(text)?;
    plain.truncate(count);
    Ok(plain)
}
