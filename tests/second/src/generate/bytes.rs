//! Random bytes, without regard to any rule.

use super::random::Random;
use crate::answer::TEXT_MAX;

/// Bytes that tokens are made of, and that may join to some.
const TELLING: &[u8] = b"0123456789ABDFLabcdoqrstxy__ \n\t`\"\\(){}[],:<>-*.=/^+";

/// Texts of random bytes, as many bytes together as asked or a little more.
pub fn random_bytes(seed: u64, bytes: usize) -> Vec<Vec<u8>> {
    let mut random = Random::new(seed);
    let mut texts = Vec::new();
    let mut total = 0;
    while total < bytes {
        let length = length(&mut random);
        let byte = alphabet(&mut random);
        let text: Vec<u8> = (0..length).map(|_| byte(&mut random)).collect();
        total += length;
        texts.push(text);
    }
    texts
}

/// Mostly short, since a long one ends at its first fault; now and then up
/// to the longest.
fn length(random: &mut Random) -> usize {
    match random.below(100) {
        0 => random.below(TEXT_MAX + 1),
        1..=9 => random.below(1_000),
        _ => random.below(40),
    }
}

/// Any byte, any of ASCII, or those that tell.
fn alphabet(random: &mut Random) -> fn(&mut Random) -> u8 {
    match random.below(4) {
        0 => Random::byte,
        1 => |random| random.byte() & 0x7F,
        _ => |random| TELLING[random.below(TELLING.len())],
    }
}
