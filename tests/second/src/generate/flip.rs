//! Texts in which one bit is another.

use super::random::Random;

/// Every bit of a text of at most so many bytes is flipped.
const EVERY: usize = 64;

/// The text with one bit flipped: each bit of a short text, of a longer one
/// as many as a short one has at most.
pub fn flipped(text: &[u8], random: &mut Random) -> Vec<Vec<u8>> {
    let bits = text.len() * 8;
    if text.len() <= EVERY {
        return (0..bits).map(|bit| flip(text, bit)).collect();
    }
    (0..EVERY * 8)
        .map(|_| flip(text, random.below(bits)))
        .collect()
}

fn flip(text: &[u8], bit: usize) -> Vec<u8> {
    let mut text = text.to_vec();
    text[bit / 8] ^= 1 << (bit % 8);
    text
}
