//! The UTF-8 test.

use crate::{raw, Utf8Answer};

/// Tests whether `text` is well-formed UTF-8, as [`read`](crate::read) and the
/// value calls do before [`Refusal::NotUtf8`](crate::Refusal::NotUtf8), with
/// the same place; but of any length.
///
/// The test takes eight plain ASCII bytes in one step wherever eight come
/// next, else one sequence.  The steps are those up to the place: the look
/// that finds no sequence there is none.
///
/// ```
/// use muon::Refusal;
///
/// let answer = muon::utf8(b"seventeen letters");
/// assert!(answer.is_accepted());
/// assert_eq!((answer.place, answer.steps), (17, 3));
///
/// // seven letters, a character of two bytes, eight letters and one
/// let answer = muon::utf8(b"aaaaaaa\xC3\xA9bbbbbbbbb\xFF");
/// assert_eq!(answer.refusal(), Some(Refusal::NotUtf8));
/// assert_eq!((answer.place, answer.steps), (18, 10));
/// ```
pub fn utf8(text: &[u8]) -> Utf8Answer {
    // What the call did not write would not look like an answer.
    let (mut place, mut steps) = (usize::MAX, usize::MAX);
    // SAFETY: pointer and length are those of a live slice, and the numbers
    // to be written are this function's own.
    let number = unsafe { raw::muon_utf8(text.as_ptr(), text.len(), &mut place, &mut steps) };
    Utf8Answer {
        number,
        place,
        steps,
    }
}
