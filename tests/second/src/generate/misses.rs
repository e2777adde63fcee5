//! Texts that are nearly another laid out anew: each differs in something that
//! is no stretch of dividing space, or is no longer one.

use super::random::Random;
use super::space::space;
use crate::front;
use crate::layout::{changed, spans, stretches, Kind};
use std::ops::Range;

const MARK: &[u8] = b"\xEF\xBB\xBF";

/// Makes it of an accepted text, unless this has no place for it.
type Miss = fn(&[u8], &mut Random) -> Option<Vec<u8>>;

pub const MISSES: [(&str, Miss); 7] = [
    ("space put in", put_in),
    ("space left out", left_out),
    ("a lone grave accent", lone_accent),
    ("another byte in quotes", other_in_quotes),
    ("a blank more in quotes", blank_in_quotes),
    ("another ordinary byte", other_byte),
    ("another front", other_front),
];

/// Where no stretch is, nor begins or ends.
fn put_in(text: &[u8], random: &mut Random) -> Option<Vec<u8>> {
    let front = front::begin(text);
    let at = front + random.below(text.len() - front + 1);
    let touches = |stretch: &Range<usize>| (stretch.start..=stretch.end).contains(&at);
    let apart = !stretches(text).iter().any(touches);
    apart.then(|| changed(text, &[(at..at, space(random))]))
}

fn left_out(text: &[u8], random: &mut Random) -> Option<Vec<u8>> {
    let stretch = one(stretches(text), random)?;
    Some(changed(text, &[(stretch, Vec::new())]))
}

/// In place of a stretch.
fn lone_accent(text: &[u8], random: &mut Random) -> Option<Vec<u8>> {
    let stretch = one(stretches(text), random)?;
    Some(changed(text, &[(stretch, b"`".to_vec())]))
}

fn other_in_quotes(text: &[u8], random: &mut Random) -> Option<Vec<u8>> {
    let mut quotes = spans(text, Kind::Quotes);
    quotes.retain(|quotes| quotes.len() > 2);
    let quotes = one(quotes, random)?;
    let at = quotes.start + 1 + random.below(quotes.len() - 2);
    Some(with_other(text, at))
}

fn blank_in_quotes(text: &[u8], random: &mut Random) -> Option<Vec<u8>> {
    let quotes = one(spans(text, Kind::Quotes), random)?;
    let at = quotes.start + 1 + random.below(quotes.len() - 1);
    Some(changed(text, &[(at..at, b" ".to_vec())]))
}

fn other_byte(text: &[u8], random: &mut Random) -> Option<Vec<u8>> {
    let byte = one(spans(text, Kind::Byte), random)?;
    Some(with_other(text, byte.start))
}

/// A first line has another byte or one more, or is put in; or the mark is left
/// out.
fn other_front(text: &[u8], random: &mut Random) -> Option<Vec<u8>> {
    let (front, rest) = text.split_at(front::begin(text));
    let other = match front.strip_suffix(b"\n") {
        Some(line) if !line.ends_with(b"#!") && random.once_in(2) => {
            with_other(front, line.len() - 1)
        }
        Some(line) => [line, b" \n"].concat(),
        None if front == MARK && random.once_in(2) => Vec::new(),
        None => [front, b"#! \n"].concat(),
    };
    Some([&other, rest].concat())
}

fn one(spans: Vec<Range<usize>>, random: &mut Random) -> Option<Range<usize>> {
    match spans.len() {
        0 => None,
        some => Some(spans[random.below(some)].clone()),
    }
}

/// The text with another ordinary byte at a place.
fn with_other(text: &[u8], at: usize) -> Vec<u8> {
    let other = if text[at] == b'z' { b'y' } else { b'z' };
    changed(text, &[(at..at + 1, vec![other])])
}

#[cfg(test)]
mod tests {
    use super::{Random, MISSES};
    use crate::generate::good_texts;
    use crate::layout::relaid;

    #[test]
    fn no_miss_is_the_text_laid_out_anew() {
        let mut random = Random::new(6);
        let mut met = [0; MISSES.len()];
        for made in good_texts(6, 2_000) {
            for (index, (what, miss)) in MISSES.iter().enumerate() {
                let Some(other) = miss(&made.text, &mut random) else {
                    continue;
                };
                assert!(!relaid(&made.text, &other), "{what}");
                met[index] += 1;
            }
        }
        assert!(met.iter().all(|times| *times > 400), "{met:?}");
    }
}
