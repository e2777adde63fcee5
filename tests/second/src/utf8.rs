//! UTF-8 as the Unicode Standard defines it, and the test of request 2.

use crate::answer::NOT_UTF8;

/// The character that begins at `at` and the place behind it, if a
/// well-formed sequence begins there.
pub fn step(text: &[u8], at: usize) -> Option<(u32, usize)> {
    let lead = u32::from(*text.get(at)?);
    let (length, least, mut code) = match lead {
        0x00..=0x7F => (1, 0, lead),
        0xC0..=0xDF => (2, 0x80, lead & 0x1F),
        0xE0..=0xEF => (3, 0x800, lead & 0x0F),
        0xF0..=0xF7 => (4, 0x1_0000, lead & 0x07),
        _ => return None,
    };
    for &byte in text.get(at + 1..at + length)? {
        if byte & 0xC0 != 0x80 {
            return None;
        }
        code = code << 6 | u32::from(byte & 0x3F);
    }
    // A code below `least` would have had a shorter spelling.
    (code >= least && is_scalar(u64::from(code))).then_some((code, at + length))
}

/// Whether a number is a character's: not a surrogate, not too large.
pub fn is_scalar(code: u64) -> bool {
    matches!(code, 0..=0xD7FF | 0xE000..=0x10_FFFF)
}

/// The first byte at which no well-formed sequence begins, or the length.
pub fn first_bad(text: &[u8]) -> usize {
    let mut at = 0;
    while let Some((_, end)) = step(text, at) {
        at = end;
    }
    at
}

/// So many plain ASCII bytes are one step.
const EIGHT: usize = 8;

/// What the test answers: 0 and the text's length, or 3 and the first byte at
/// which no well-formed sequence begins; and the steps up to that place.
#[derive(Clone, Copy, Debug, PartialEq, Eq)]
pub struct Tested {
    pub number: u32,
    pub place: usize,
    pub steps: usize,
}

/// The test of a text of any length, in steps as request 2 has them.
pub fn test(text: &[u8]) -> Tested {
    let (mut place, mut steps) = (0, 0);
    while let Some(end) = stride(text, place) {
        place = end;
        steps += 1;
    }
    let number = if place == text.len() { 0 } else { NOT_UTF8 };
    Tested {
        number,
        place,
        steps,
    }
}

/// The place behind one step: eight plain ASCII bytes wherever eight come
/// next, else one sequence.
fn stride(text: &[u8], at: usize) -> Option<usize> {
    match text.get(at..at + EIGHT) {
        Some(eight) if eight.is_ascii() => Some(at + EIGHT),
        _ => step(text, at).map(|(_, end)| end),
    }
}

/// The bytes of a character; `code` must be one.
pub fn spell(code: u32, out: &mut Vec<u8>) {
    let tail = |shift: u32| 0x80 | (code >> shift & 0x3F) as u8;
    match code {
        0..=0x7F => out.push(code as u8),
        0x80..=0x7FF => out.extend([0xC0 | (code >> 6) as u8, tail(0)]),
        0x800..=0xFFFF => out.extend([0xE0 | (code >> 12) as u8, tail(6), tail(0)]),
        _ => out.extend([0xF0 | (code >> 18) as u8, tail(12), tail(6), tail(0)]),
    }
}

#[cfg(test)]
mod tests {
    use super::*;

    /// The standard library is another author's reading of the same rules.
    fn agrees(text: &[u8]) {
        let want = match std::str::from_utf8(text) {
            Ok(_) => text.len(),
            Err(error) => error.valid_up_to(),
        };
        assert_eq!(first_bad(text), want, "{text:02X?}");
    }

    #[test]
    fn every_short_sequence_is_judged_as_the_standard_library_does() {
        for a in 0..=255u8 {
            agrees(&[a]);
            for b in 0..=255u8 {
                agrees(&[a, b]);
                agrees(&[b'x', a, b, b'y']);
            }
        }
    }

    #[test]
    fn longer_sequences_at_their_edges() {
        let edges = [
            0x00, 0x7F, 0x80, 0x8F, 0x90, 0x9F, 0xA0, 0xBF, 0xC0, 0xED, 0xFF,
        ];
        for a in 0xE0..=0xFFu8 {
            for b in edges {
                for c in edges {
                    agrees(&[a, b, c]);
                    for d in edges {
                        agrees(&[a, b, c, d]);
                    }
                }
            }
        }
    }

    fn tested(number: u32, place: usize, steps: usize) -> Tested {
        Tested {
            number,
            place,
            steps,
        }
    }

    #[test]
    fn the_readings_of_request_2() {
        for (text, want) in [
            (&b"aaaaaaaaaaaaaaaaa"[..], tested(0, 17, 3)),
            (b"aaaaaaa\xC3\xA9bbbbbbbbb\xFF", tested(NOT_UTF8, 18, 10)),
            (b"\xFF", tested(NOT_UTF8, 0, 0)),
            (b"", tested(0, 0, 0)),
        ] {
            assert_eq!(test(text), want, "{}", text.escape_ascii());
        }
    }

    /// 'For n bytes, all plain ASCII, n / 8 rounded down plus the remainder.'
    #[test]
    fn plain_ascii() {
        for byte in 0..=0x7F {
            for n in 0..100 {
                assert_eq!(test(&vec![byte; n]), tested(0, n, n / 8 + n % 8));
            }
        }
    }

    /// Eight are one step at any place, but not with a longer sequence or the
    /// end among them.
    #[test]
    fn eight_come_next_anywhere() {
        for (text, want) in [
            ("\u{e9}aaaaaaaa", tested(0, 10, 2)),
            ("aaaaaaaa\u{e9}", tested(0, 10, 2)),
            ("aaaaaaa\u{e9}", tested(0, 9, 8)),
            ("aaaa\u{20AC}aaaaaaaa", tested(0, 15, 6)),
            ("aaaaaaa\u{1F600}aaaaaaaaa", tested(0, 20, 10)),
            ("\u{e9}\u{20AC}\u{1F600}", tested(0, 9, 3)),
        ] {
            assert_eq!(test(text.as_bytes()), want, "{text}");
        }
        for (text, want) in [
            (&b"aaaaaaaa\x80"[..], tested(NOT_UTF8, 8, 1)),
            (b"aaaaaaa\x80", tested(NOT_UTF8, 7, 7)),
            (b"aaaaaaaaa\xC3", tested(NOT_UTF8, 9, 2)),
            (b"aaaaaaaaa\xC3aaaaaaaa", tested(NOT_UTF8, 9, 2)),
            (b"\xE2\x82aaaaaaaaa", tested(NOT_UTF8, 0, 0)),
        ] {
            assert_eq!(test(text), want, "{}", text.escape_ascii());
        }
    }

    /// The steps counted another way: between longer sequences, rows of plain
    /// ASCII as in `plain_ascii`. The place is that of one sequence at a time.
    #[test]
    fn by_rows() {
        for text in crate::generate::encoded_texts(7, 20_000) {
            let place = first_bad(&text);
            let sound = std::str::from_utf8(&text[..place]).expect("well-formed to there");
            let longer = sound.chars().filter(|c| !c.is_ascii()).count();
            let rows = sound.split(|c: char| !c.is_ascii());
            let plain: usize = rows.map(|row| row.len() / 8 + row.len() % 8).sum();
            let number = if place < text.len() { NOT_UTF8 } else { 0 };
            assert_eq!(test(&text), tested(number, place, longer + plain));
        }
    }

    #[test]
    fn spelling_and_reading_agree() {
        for code in 0..=0x11_0000u32 {
            let Some(character) = char::from_u32(code) else {
                assert!(!is_scalar(u64::from(code)));
                continue;
            };
            let mut ours = Vec::new();
            spell(code, &mut ours);
            assert_eq!(ours, character.to_string().into_bytes());
            assert_eq!(step(&ours, 0), Some((code, ours.len())));
        }
    }
}
