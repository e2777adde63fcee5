//! The values of literals.

use crate::{raw, Answer, IntegerAnswer, TEXT_MAX};

/// The longest buffer that [`bits`] makes use of, in bytes, for no piece has more
/// bits; [`text`] and [`blob`] need no more bytes than a piece.
pub const BITS_MAX: usize = 4 * TEXT_MAX;

/// The signed integer of an Integer literal, which `piece` is exactly: no
/// byte-order mark, first line or dividing space around it is dropped.
///
/// Refusals are tested in the order 2, 3, 9, 10; no other is given.  The bytes
/// of an Integer's node of an accepted text give its value, or 10.
///
/// ```
/// use muon::Refusal;
///
/// let answer = muon::integer(b"29 56");
/// assert_eq!((answer.place, answer.value), (5, 2956));
/// assert_eq!(muon::integer(b"-0x F_F").accepted(), Ok(-255));
///
/// // the piece is the literal alone
/// assert_eq!(muon::integer(b"5 ").refusal(), Some(Refusal::NotTheLiteral));
///
/// // the value of a refused piece is 0
/// let answer = muon::integer(b"9223372036854775808");
/// assert_eq!(answer.refusal(), Some(Refusal::OutOfRange));
/// assert_eq!((answer.place, answer.value), (0, 0));
/// ```
pub fn integer(piece: &[u8]) -> IntegerAnswer {
    // What the call did not write would not look like an answer.
    let (mut place, mut count, mut value) = (usize::MAX, usize::MAX, i64::MAX);
    // SAFETY: pointer and length are those of a live slice, and the numbers
    // to be written are this function's own.
    let number = unsafe {
        raw::muon_integer(
            piece.as_ptr(),
            piece.len(),
            &mut value,
            &mut place,
            &mut count,
        )
    };
    IntegerAnswer {
        number,
        place,
        count,
        value,
    }
}

/// Writes the characters of a Text literal, which `piece` is exactly, to the
/// start of `buffer` as UTF-8.
///
/// The literal is quoted, a word or a code point.  Only a segment that begins
/// with a backslash has escapes.  Accepted, exactly the first `count` bytes are
/// written, and they are well-formed UTF-8; refused, none.  What the buffer held
/// doesn't matter; one as long as the piece is always enough.  No 0 is put behind
/// the characters.
///
/// Refusals are tested in the order 2, 3, 9, 5, 8; no other is given, and a piece
/// that gets 8 is accepted with a buffer of `count` bytes.  A code point out of
/// range is 5, in quotes at the backslash of the first such escape, counted
/// within the piece; bare at 0.  The bytes of a Text's node of an accepted text
/// give its characters, or 8.
///
/// ```
/// use muon::Refusal;
///
/// // escapes are of a segment that begins with a backslash, and of no other
/// let mut buffer = [0; 3];
/// let answer = muon::text(br#""\a\n""#, &mut buffer);
/// assert_eq!(&buffer[..answer.count], b"a\n");
/// let answer = muon::text(br#""a\n""#, &mut buffer);
/// assert_eq!(&buffer[..answer.count], br"a\n");
///
/// // a code point that is no character's: the place is its escape's backslash,
/// // or, bare, the literal's first byte
/// let answer = muon::text(br#""a" "\x\<0cxD800>""#, &mut buffer);
/// assert_eq!(answer.refusal(), Some(Refusal::BadValue));
/// assert_eq!(answer.place, 7);
/// assert_eq!(muon::text(b"0cxD800", &mut buffer).place, 0);
///
/// // a buffer that is too short: the count tells what is needed
/// let answer = muon::text(b"word", &mut buffer);
/// assert_eq!(answer.refusal(), Some(Refusal::NoRoom));
/// assert_eq!(&buffer, br"a\n");
/// let mut buffer = vec![0; answer.count];
/// assert!(muon::text(b"word", &mut buffer).is_accepted());
/// assert_eq!(buffer, b"word");
/// ```
pub fn text(piece: &[u8], buffer: &mut [u8]) -> Answer {
    writing(raw::muon_text, piece, buffer)
}

/// Writes the bytes of a Blob literal, which `piece` is exactly, to the start
/// of `buffer`.
///
/// The digits are of base 2 (`0xb`), 16 (`0xx`) or 64 (`0xy`, RFC 4648
/// section 4).  Accepted, exactly the first `count` bytes are written; refused,
/// none.  What the buffer held doesn't matter; one as long as the piece is
/// always enough.  Refusals are tested in the order 2, 3, 9, 5, 8; no other is
/// given, and a piece that gets 8 is accepted with a buffer of `count` bytes.
///
/// 5 is what RFC 4648 does not have: a `=` with another character behind it, more
/// than two `=`, and bits left over that are not zero.  [`read`](crate::read())
/// refuses it so, too: a Blob of an accepted text always has its bytes.  Digits
/// that do not fill whole bytes, or in base 64 groups of four, are no part of a
/// Blob, so that such a piece is 9.
///
/// ```
/// use muon::Refusal;
///
/// let mut buffer = [0; 3];
/// let answer = muon::blob(b"0xxA7_05 FF", &mut buffer);
/// assert_eq!((answer.place, answer.count), (11, 3));
/// assert_eq!(buffer, [0xA7, 0x05, 0xFF]);
/// let answer = muon::blob(b"0xy TWE=", &mut buffer);
/// assert_eq!(&buffer[..answer.count], b"Ma");
///
/// // not base 64: more than two `=`, and bits left over that are not zero
/// for piece in [&b"0xyA==="[..], b"0xyTWF="] {
///     let answer = muon::blob(piece, &mut buffer);
///     assert_eq!(answer.refusal(), Some(Refusal::BadValue));
///     assert_eq!(muon::read(1, piece, &mut [0; muon::NODE_WORDS]), answer);
/// }
/// ```
pub fn blob(piece: &[u8], buffer: &mut [u8]) -> Answer {
    writing(raw::muon_blob, piece, buffer)
}

/// Writes the bits of a Bits literal, which `piece` is exactly, to the start
/// of `buffer`: a byte 0 or 1 for each, the most significant bit of each digit
/// first.
///
/// The digits are of base 2 (`0bb`), 8 (`0bo`) or 16 (`0bx`).  Accepted,
/// exactly the first `count` bytes are written; refused, none.  What the
/// buffer held doesn't matter; one of four times the piece's length is always
/// enough.  Refusals are tested in the order 2, 3, 9, 8; no other is given, and a
/// piece that gets 8 is accepted with a buffer of `count` bytes.  The bytes of a
/// Bits node of an accepted text give its bits, or 8.
///
/// ```
/// use muon::Refusal;
///
/// let mut buffer = [0; 6];
/// assert!(muon::bits(b"0bo17", &mut buffer).is_accepted());
/// assert_eq!(buffer, [0, 0, 1, 1, 1, 1]);
///
/// // a buffer that is too short: the count tells what is needed
/// let answer = muon::bits(b"0bxA7", &mut buffer);
/// assert_eq!(answer.refusal(), Some(Refusal::NoRoom));
/// assert_eq!(answer.count, 8);
/// ```
pub fn bits(piece: &[u8], buffer: &mut [u8]) -> Answer {
    writing(raw::muon_bits, piece, buffer)
}

/// A call that writes bytes to a buffer, its pointers with their lengths.
type Writing =
    unsafe extern "C" fn(*const u8, usize, *mut u8, usize, *mut usize, *mut usize) -> u32;

pub(crate) fn writing(call: Writing, piece: &[u8], buffer: &mut [u8]) -> Answer {
    // SAFETY: pointers and lengths are those of live slices and numbers, and
    // what may be written is borrowed by this call alone.
    Answer::of(|place, count| unsafe {
        call(
            piece.as_ptr(),
            piece.len(),
            buffer.as_mut_ptr(),
            buffer.len(),
            place,
            count,
        )
    })
}
