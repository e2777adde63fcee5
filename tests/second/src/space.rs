//! Dividing space.

const GRAVE: u8 = b'`';

/// The place behind the dividing space that begins at `at`, which may be
/// none.  A grave accent without a partner ends it.
pub fn skip(text: &[u8], at: usize) -> usize {
    let mut place = at;
    while let Some(&byte) = text.get(place) {
        place = match byte {
            b'\t' | b'\n' | b'\r' | b' ' => place + 1,
            GRAVE => match behind_partner(text, place) {
                Some(end) => end,
                None => return place,
            },
            _ => return place,
        };
    }
    place
}

/// The place behind the next byte that is the one at `at`: the end of a comment
/// that a grave accent opens, or of quotes.
pub(crate) fn behind_partner(text: &[u8], at: usize) -> Option<usize> {
    let inside = at + 1;
    let length = text[inside..].iter().position(|&byte| byte == text[at])?;
    Some(inside + length + 1)
}

#[cfg(test)]
mod tests {
    use super::skip;

    #[test]
    fn runs_comments_and_lone_grave_accents() {
        assert_eq!(skip(b"", 0), 0);
        assert_eq!(skip(b"x", 5), 5);
        assert_eq!(skip(b" \t\r\nx", 0), 4);
        assert_eq!(skip(b" `a` ``x", 0), 7);
        assert_eq!(skip(b" ` ", 0), 1);
        assert_eq!(skip(b"```", 0), 2);
        assert_eq!(skip(b"`\xFF\x00`", 0), 4);
        assert_eq!(skip(b"\x0B", 0), 0);
    }
}
