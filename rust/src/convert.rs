//! The converter: a text that may still have arrows `<-`, in its plain form,
//! which has none.
//!
//! The arrow is retired: [`read`](crate::read()) refuses `b<-a` with
//! [`Refusal::RetiredArrow`](crate::Refusal::RetiredArrow).  The converter reads
//! by the rules of before, and writes `a:b`, with the rest as in a [`plain`] form:
//!
//! ```
//! # #[cfg(feature = "alloc")] {
//! use muon::{convert, Refusal};
//!
//! let text = b"{ 8 <- first, `since 2024` (9<-last) }";
//! let answer = muon::read(2, text, &mut [0; 60]);
//! assert_eq!((answer.refusal(), answer.place), (Some(Refusal::RetiredArrow), 4));
//! let converted = convert::to_vec(2, text)?;
//! assert_eq!(converted, b"{first:8,(last:9)}");
//! assert!(muon::read(2, &converted, &mut [0; 60]).is_accepted());
//! # }
//! # Ok::<(), muon::Error>(())
//! ```

use crate::{plain, raw, Answer};

#[cfg(feature = "alloc")]
use crate::Error;
#[cfg(feature = "alloc")]
use alloc::{vec, vec::Vec};

/// The stack that [`write()`] needs at most, in bytes: it keeps a table on it.
pub const STACK_MAX: usize = plain::STACK_MAX;

/// Reads `text` at a level, by the rules of before the arrow was retired, and
/// writes its plain form to the start of `buffer`.
///
/// Accepted, exactly the first `count` bytes are written; refused, none.  What
/// the buffer held doesn't matter.  Refusals are those that
/// [`read`](crate::read) had before, with a table of
/// [`TABLE_MAX`](crate::TABLE_MAX) words, so never 15; then 8 with the
/// bytes needed, and no other.  With [`plain::bytes`] of the text's length it is
/// given only for more nodes than [`NODES_MAX`](crate::NODES_MAX), and the count
/// tells them; with fewer, the count alone does not tell whether nodes or bytes
/// are meant.
///
/// A text without an arrow is converted to its plain form.  What is written has
/// no arrow; if it is no longer than [`TEXT_MAX`](crate::TEXT_MAX), `read` takes
/// it at the same level, with the nodes that the text had, except for their
/// places, the order of this and that, the role of a that, and a Text's detail.
/// Converted again it is itself.  At the other level, too, `read` ends on it as it
/// ended on the text before, in number and count.
///
/// ```
/// use muon::{convert, plain, Refusal};
///
/// let text = b"(Array <- 5)";
/// let mut buffer = [0; plain::bytes(12)];
/// let answer = convert::write(1, text, &mut buffer);
/// assert_eq!((answer.place, answer.accepted()), (12, Ok(11)));
/// assert_eq!(&buffer[..11], b"(5:\"Array\")");
///
/// // a buffer that is too short: the count tells what is needed
/// let answer = convert::write(1, text, &mut buffer[..10]);
/// assert_eq!(answer.refusal(), Some(Refusal::NoRoom));
/// assert_eq!((answer.place, answer.count), (12, 11));
///
/// // an arrow where none was allowed
/// let answer = convert::write(1, b"(<-5)", &mut buffer);
/// assert_eq!(answer.refusal(), Some(Refusal::WrongPlace));
/// assert_eq!(answer.place, 1);
/// ```
pub fn write(level: u32, text: &[u8], buffer: &mut [u8]) -> Answer {
    // SAFETY: pointers and lengths are those of live slices and numbers, and
    // what may be written is borrowed by this call alone.
    Answer::of(|place, count| unsafe {
        raw::muon_convert(
            level,
            text.as_ptr(),
            text.len(),
            buffer.as_mut_ptr(),
            buffer.len(),
            place,
            count,
        )
    })
}

/// What `text` is converted to, as a vector.
///
/// # Errors
///
/// Those of [`write()`], with line and column.
///
/// ```
/// use muon::{convert, Refusal};
///
/// assert_eq!(convert::to_vec(2, b"[ 1 .. (b<-a) ]")?, b"[1..(a:b)]");
/// let error = convert::to_vec(1, b"[ 1 .. (b<-a) ]").expect_err("level 2");
/// assert_eq!(error.refusal, Refusal::NewerForm);
/// # Ok::<(), muon::Error>(())
/// ```
#[cfg(feature = "alloc")]
pub fn to_vec(level: u32, text: &[u8]) -> Result<Vec<u8>, Error> {
    let mut converted = vec![0; plain::bytes(text.len())];
    let count = write(level, text, &mut converted).accepted_in(text)?;
    converted.truncate(count);
    Ok(converted)
}
