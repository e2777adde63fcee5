//! The reading of a text.

use crate::{raw, Answer};

/// The longest text or piece, in bytes.
pub const TEXT_MAX: usize = 32_768;
/// The most brackets open at once: each of ( { [ counts, also where it makes no
/// node.
pub const DEPTH_MAX: usize = 32;
/// Words of a node.
pub const NODE_WORDS: usize = 7;
/// The most nodes that a table takes, however long it is.  A dense text meets it
/// long before [`TEXT_MAX`]: `{1,1,1}` with 1,024 members has 2,049 bytes.
pub const NODES_MAX: usize = 1_024;
/// The longest table that is made use of, in words: 7,168.  As an array,
/// `[0; TABLE_MAX]`, that is 28,672 bytes of the caller's memory; where it is a
/// local variable, they are on the stack beside the [`STACK_MAX`] of the call.
pub const TABLE_MAX: usize = NODES_MAX * NODE_WORDS;
/// The stack that a call needs at most, in bytes, whatever the input; those of
/// [`file`](mod@crate::file), [`plain`](crate::plain) and
/// [`convert`](mod@crate::convert) have [another
/// number](crate::file::STACK_MAX).  No call takes memory from anywhere else.
pub const STACK_MAX: usize = 32_768;

/// Reads `text` at `level` and writes its nodes to `table`.
///
/// Accepted, exactly the first [`NODE_WORDS`]` * count` words are written;
/// refused, none.  What the table held doesn't matter.  Levels other than 1
/// and 2 are refused, and so is the arrow `<-`; for texts that still have it,
/// see [`convert`](mod@crate::convert).
///
/// Of the refusals 1, 2 and 3 are tested in this order over the whole text.
/// Then the tokens are judged from left to right, and the first faulty one
/// decides: at one token 4, 6, 15, 7, 5, 11 in this order, and whether an arrow
/// `<-` is 6 is judged as if it were still allowed.  8 comes last, so a text
/// that gets it is accepted with a table of [`NODE_WORDS`]` * count` words, if
/// the count is at most [`NODES_MAX`].  No other is given.
///
/// [`Document::read`](crate::Document::read) reads, too, and keeps text and
/// nodes together.
///
/// ```
/// use muon::Refusal;
///
/// // a text that is broken off: the end stands in the wrong place
/// let answer = muon::read(2, b"(engines : {7, 8", &mut [0; 60]);
/// assert_eq!(answer.refusal(), Some(Refusal::WrongPlace));
/// assert_eq!(answer.place, 16);
///
/// // an arrow, which is retired
/// let answer = muon::read(2, b"{a, b <- c}", &mut [0; 60]);
/// assert_eq!(answer.refusal(), Some(Refusal::RetiredArrow));
/// assert_eq!(answer.place, 6);
///
/// // an escape that is no character: the place is its backslash
/// let text = br#"{site : "\\<0c67>\<0cxD800>reek"}"#;
/// let answer = muon::read(2, text, &mut [0; 60]);
/// assert_eq!(answer.refusal(), Some(Refusal::BadValue));
/// assert!(text[answer.place..].starts_with(br"\<0cxD800>"));
///
/// // a table that is too short: the count tells what is needed
/// let answer = muon::read(2, b"{a, b, c}", &mut []);
/// assert_eq!(answer.refusal(), Some(Refusal::NoRoom));
/// let mut table = vec![0; answer.count * muon::NODE_WORDS];
/// assert!(muon::read(2, b"{a, b, c}", &mut table).is_accepted());
/// ```
pub fn read(level: u32, text: &[u8], table: &mut [u32]) -> Answer {
    // SAFETY: pointers and lengths are those of live slices and numbers, and
    // what may be written is borrowed by this call alone.
    Answer::of(|place, count| unsafe {
        raw::muon_read(
            level,
            text.as_ptr(),
            text.len(),
            table.as_mut_ptr(),
            table.len(),
            place,
            count,
        )
    })
}
