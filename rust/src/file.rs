//! Stored files: the nodes of a text as bytes, to be kept beside it.
//!
//! A file is the mark `FNT`, the version, the number of nodes, the length of
//! the text, and the words of each node as [`read`](crate::read) writes them at
//! level 2, less the last, the [skip](crate::Node::skip).  Behind the mark every
//! number has two bytes, the high one first.  The file tells what was read and
//! not the text's bytes: `x` and `y` have the same file.
//!
//! A file that was kept is checked against the text before it is relied on:
//!
//! ```
//! # #[cfg(feature = "alloc")] {
//! use muon::{file, Refusal};
//!
//! let stored = file::to_vec(b"{engines : 7}")?;
//!
//! // later
//! assert!(file::check(b"{engines : 7}", &stored).is_accepted());
//! let answer = file::check(b"{engines : 78}", &stored);
//! assert_eq!(answer.refusal(), Some(Refusal::NotTheFile));
//! # }
//! # Ok::<(), muon::Error>(())
//! ```

use crate::value::writing;
use crate::{raw, Answer, NODES_MAX, TABLE_MAX};

#[cfg(feature = "alloc")]
use crate::Error;
#[cfg(feature = "alloc")]
use alloc::{vec, vec::Vec};

/// The version of the files that are written and accepted.
pub const VERSION: u16 = 1;
/// The bytes of the longest file.
pub const MAX: usize = bytes(NODES_MAX);
/// The stack that [`write()`] and [`check`] need at most, in bytes: each keeps a
/// table on it.
pub const STACK_MAX: usize = crate::STACK_MAX + 4 * TABLE_MAX;

/// The bytes of the file of a text with so many nodes.
///
/// ```
/// assert_eq!(muon::file::bytes(3), 45);
/// assert_eq!(muon::file::MAX, 12_297);
/// ```
#[must_use]
pub const fn bytes(nodes: usize) -> usize {
    9 + 12 * nodes
}

/// Reads `text` at level 2 and writes its file to the start of `buffer`.  A text
/// with an arrow `<-` is refused, as by [`read`](crate::read).
///
/// Accepted, exactly the first `count` bytes are written; refused, none.  What
/// the buffer held doesn't matter.  Refusals are those of
/// [`read`](crate::read()) with a table of [`TABLE_MAX`] words, so never 1, and
/// then 8 with the bytes needed, [`bytes`] of the nodes.  With a buffer of [`MAX`]
/// bytes it is given only for more nodes than [`NODES_MAX`], and the count tells
/// them; with a shorter one, the count alone does not tell whether nodes or bytes
/// are meant.
///
/// ```
/// use muon::{file, Refusal};
///
/// let mut buffer = [0; 21];
/// let answer = file::write(b"x", &mut buffer);
/// assert_eq!((answer.place, answer.accepted()), (1, Ok(21)));
/// // mark, version, one node, one byte of text; a Text, 0 to 1, the root, a word
/// assert_eq!(&buffer[..9], b"FNT\0\x01\0\x01\0\x01");
/// assert_eq!(buffer[9..], [0, 7, 0, 0, 0, 1, 0, 0, 0, 0, 0, 2]);
///
/// // a buffer that is too short: the count tells what is needed
/// let answer = file::write(b"(x:y)", &mut buffer);
/// assert_eq!(answer.refusal(), Some(Refusal::NoRoom));
/// assert_eq!((answer.place, answer.count), (5, 45));
///
/// // a text that is refused has no file
/// let answer = file::write(b"(x", &mut buffer);
/// assert_eq!(answer.refusal(), Some(Refusal::WrongPlace));
/// assert_eq!(answer.place, 2);
/// ```
pub fn write(text: &[u8], buffer: &mut [u8]) -> Answer {
    writing(raw::muon_file_write, text, buffer)
}

/// Tests whether `file` is the file of `text`: it is accepted exactly when
/// [`write()`] would give it for the text, all of it and nothing behind it, or
/// would have given it before the arrow `<-` was retired.  So what was stored
/// with an arrow is still accepted, though no more is written.
///
/// Accepted, the place is the text's length and the count the file's.  The
/// refusals are 12, 13, 14 in this order, all with place and count 0, and no
/// other: under 12 and 13 the text is not looked at, and a text that
/// [`read`](crate::read()) refused before, too, is 14.
///
/// The file tells what was read, and not the text's bytes.  To know that no byte
/// of the text was changed, keep a check sum of the text, too.
///
/// ```
/// use muon::{file, Refusal};
///
/// // stored before
/// let old = b"FNT\0\x01\0\x03\0\x06\0\x09\0\0\0\x06\0\0\0\0\0\0\
///     \0\x07\0\x01\0\x02\0\0\0\x03\0\x02\0\x07\0\x04\0\x05\0\0\0\x01\0\x02";
/// assert_eq!(file::check(b"(b<-a)", old).accepted(), Ok(45));
/// let answer = file::write(b"(b<-a)", &mut [0; file::MAX]);
/// assert_eq!(answer.accepted(), Err(Refusal::RetiredArrow));
///
/// for (stored, refusal) in [
///     (&b"FNT\0"[..], Refusal::NotTheMark),
///     (b"FNX\0\x01", Refusal::NotTheMark),
///     (b"FNT\0\x02", Refusal::OtherVersion),
///     (b"FNT\0\x01", Refusal::NotTheFile),
/// ] {
///     let answer = file::check(b"x", stored);
///     assert_eq!(answer.refusal(), Some(refusal));
///     assert_eq!((answer.place, answer.count), (0, 0));
/// }
/// ```
pub fn check(text: &[u8], file: &[u8]) -> Answer {
    // SAFETY: pointers and lengths are those of live slices and numbers, and
    // what may be written is borrowed by this call alone.
    Answer::of(|place, count| unsafe {
        raw::muon_file_check(
            text.as_ptr(),
            text.len(),
            file.as_ptr(),
            file.len(),
            place,
            count,
        )
    })
}

/// The file of `text` as a vector.
///
/// # Errors
///
/// Those of [`write()`], with line and column.
///
/// ```
/// use muon::{file, Refusal};
///
/// assert_eq!(file::to_vec(b"{a, b}")?.len(), file::bytes(3));
/// let error = file::to_vec(b"1/0").expect_err("no denominator");
/// assert_eq!(error.refusal, Refusal::BadValue);
/// # Ok::<(), muon::Error>(())
/// ```
#[cfg(feature = "alloc")]
pub fn to_vec(text: &[u8]) -> Result<Vec<u8>, Error> {
    let mut file = vec![0; MAX];
    let count = write(text, &mut file).accepted_in(text)?;
    file.truncate(count);
    Ok(file)
}
