//! Texts for the UTF-8 test: rows of ASCII, with longer sequences and bytes
//! that are none among them.

use super::random::Random;
use crate::utf8;

/// The longest row of ASCII that is tried with something at every place: five
/// times eight bytes.
pub const RUN_MAX: usize = 40;

/// The first and the last sequences of each length, and some between.
pub const LONGER: [&[u8]; 10] = [
    b"\xC2\x80",
    b"\xC3\xA9",
    b"\xDF\xBF",
    b"\xE0\xA0\x80",
    b"\xE2\x82\xAC",
    b"\xED\x9F\xBF",
    b"\xEF\xBF\xBF",
    b"\xF0\x90\x80\x80",
    b"\xF0\x9F\x98\x80",
    b"\xF4\x8F\xBF\xBF",
];

/// What begins no well-formed sequence: stray continuations, bytes that are
/// in none, spellings that are too long, surrogates, beyond the last
/// character, and sequences that break off.
pub const BAD: [&[u8]; 20] = [
    b"\x80",
    b"\xBF",
    b"\xC0",
    b"\xC0\xAF",
    b"\xC1\xBF",
    b"\xF5\x80\x80\x80",
    b"\xF8",
    b"\xFF",
    b"\xE0\x9F\xBF",
    b"\xF0\x8F\xBF\xBF",
    b"\xED\xA0\x80",
    b"\xED\xBF\xBF",
    b"\xF4\x90\x80\x80",
    b"\xC3",
    b"\xE2",
    b"\xE2\x82",
    b"\xF0",
    b"\xF0\x9F",
    b"\xF0\x9F\x98",
    b"\xEF\xBF\x7F",
];

/// ASCII of this length, its first and last values among them.
fn run(length: usize) -> Vec<u8> {
    b"a\x00 \x7Fz~1"
        .iter()
        .copied()
        .cycle()
        .take(length)
        .collect()
}

/// Rows of every length up to `most`, with each way to put the pieces into
/// them, in this order.
pub fn around(pieces: &[&[u8]], most: usize) -> Vec<Vec<u8>> {
    (0..=most)
        .flat_map(|length| within(pieces, &run(length)))
        .collect()
}

/// Each way to put the pieces into one row, in this order.
pub fn within(pieces: &[&[u8]], run: &[u8]) -> Vec<Vec<u8>> {
    let Some((piece, others)) = pieces.split_first() else {
        return vec![run.to_vec()];
    };
    let behind = |at: usize| within(others, &run[at..]);
    (0..=run.len())
        .flat_map(|at| {
            let front = [&run[..at], piece].concat();
            behind(at)
                .into_iter()
                .map(move |rest| [&front[..], &rest].concat())
        })
        .collect()
}

/// `n` texts of rows, characters and, now and then, what is none; some are
/// damaged in a bit or broken off.
pub fn encoded_texts(seed: u64, n: usize) -> Vec<Vec<u8>> {
    let mut random = Random::new(seed);
    (0..n).map(|_| text(&mut random)).collect()
}

fn text(random: &mut Random) -> Vec<u8> {
    let mut text = Vec::new();
    for _ in 0..random.below(12) {
        match random.below(16) {
            0 => text.extend(random.pick(&BAD)),
            1..=7 => character(random, &mut text),
            _ => text.extend(run(random.below(RUN_MAX))),
        }
    }
    if text.is_empty() {
        return text;
    }
    let at = random.below(text.len());
    match random.below(8) {
        0 => text[at] ^= 1 << random.below(8),
        1 => text.truncate(at),
        _ => {}
    }
    text
}

/// Any character, as often of each length.
fn character(random: &mut Random, text: &mut Vec<u8>) {
    let (first, end) = [
        (0, 0x80),
        (0x80, 0x800),
        (0x800, 0x1_0000),
        (0x1_0000, 0x11_0000),
    ][random.below(4)];
    let code = first + random.below(end - first);
    if utf8::is_scalar(code as u64) {
        utf8::spell(code as u32, text);
    }
}

#[cfg(test)]
mod tests {
    use super::*;

    #[test]
    fn longer_sequences_are_well_formed_and_bad_ones_are_not() {
        for sequence in LONGER {
            let whole = utf8::step(sequence, 0).map(|(_, end)| end);
            assert_eq!(whole, Some(sequence.len()), "{sequence:02X?}");
        }
        for bad in BAD {
            assert_eq!(utf8::first_bad(bad), 0, "{bad:02X?}");
        }
    }

    #[test]
    fn pieces_stand_at_every_place() {
        assert_eq!(around(&[], 3), [run(0), run(1), run(2), run(3)]);
        let one: Vec<Vec<u8>> = [&b"#"[..], b"#a", b"a#"].map(<[u8]>::to_vec).to_vec();
        assert_eq!(around(&[b"#"], 1), one);
        // of a row of n bytes, n + 1 places, and for two pieces half of (n + 1) * (n + 2)
        assert_eq!(around(&[b"#"], 5).len(), 21);
        assert_eq!(around(&[b"#", b"%"], 5).len(), 56);
    }

    #[test]
    fn encoded_texts_are_of_both_answers() {
        let all = encoded_texts(3, 2_000);
        assert_eq!(all, encoded_texts(3, 2_000));
        let good = all.iter().filter(|text| utf8::test(text).number == 0);
        assert!((500..1_500).contains(&good.count()));
    }
}
