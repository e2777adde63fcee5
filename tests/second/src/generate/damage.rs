//! Texts that were good, or nearly, before a few bytes were changed.

use super::random::Random;
use super::{arrows, grammar, noise, MISCHIEF};
use crate::samples;

pub fn text(random: &mut Random) -> Vec<u8> {
    let text = sound(random);
    damaged(text, random)
}

/// One that had arrows where they may stand.
pub fn arrow_text(random: &mut Random) -> Vec<u8> {
    let text = arrows::made(random, false);
    damaged(text, random)
}

pub fn damaged(mut text: Vec<u8>, random: &mut Random) -> Vec<u8> {
    for _ in 0..1 + random.below(3) {
        damage(&mut text, random);
    }
    text
}

fn sound(random: &mut Random) -> Vec<u8> {
    if random.once_in(2) {
        return grammar::text(random, MISCHIEF).text;
    }
    let samples = samples::all();
    samples[random.below(samples.len())].text.to_vec()
}

fn damage(text: &mut Vec<u8>, random: &mut Random) {
    let at = random.below(text.len() + 1);
    match random.below(6) {
        0 => delete(text, at, random),
        1 => {
            text.splice(at..at, noise::piece(random, true));
        }
        2 => flip(text, at, random),
        3 => text.truncate(at),
        4 => splice(text, at, random),
        _ => repeat(text, at, random),
    }
}

/// A few bytes from `at`, no more than are there.
fn stretch(text: &[u8], at: usize, random: &mut Random) -> std::ops::Range<usize> {
    at..text.len().min(at + 1 + random.below(4))
}

fn delete(text: &mut Vec<u8>, at: usize, random: &mut Random) {
    let gone = stretch(text, at, random);
    text.drain(gone);
}

fn flip(text: &mut [u8], at: usize, random: &mut Random) {
    let bit = random.below(8);
    if let Some(byte) = text.get_mut(at) {
        *byte ^= 1 << bit;
    }
}

/// The front of one text and the rear of another.
fn splice(text: &mut Vec<u8>, at: usize, random: &mut Random) {
    let other = sound(random);
    let from = random.below(other.len() + 1);
    text.truncate(at);
    text.extend(&other[from..]);
}

fn repeat(text: &mut Vec<u8>, at: usize, random: &mut Random) {
    let again = text[stretch(text, at, random)].to_vec();
    text.splice(at..at, again);
}
