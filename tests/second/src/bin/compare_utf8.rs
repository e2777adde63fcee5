//! Compares this package's UTF-8 test with that of the verified archive:
//! number, place and steps.
//!
//! The texts are rows of ASCII with each byte, a longer sequence, one that is
//! none, or two of these at every place; random and damaged ones; the texts
//! and pieces of the other comparisons; and some that are too long to be read.
//! Each is lent at places that are no multiples of eight too, between bytes
//! that would be tested otherwise.
//!
//! Exits with 1 at the first disagreement.

use second::compare::{finish, same, Compared, Difference};
use second::generate::{
    around, encoded_texts, flipped, long_packed_pieces, long_pieces, long_texts, packed_pieces,
    pieces, random_bytes, random_packed_pieces, row_texts, sample_pieces, short_pieces, texts,
    Random, BAD, LONGER, RUN_MAX,
};
use second::samples;
use second::utf8::{self, Tested};
use std::process::ExitCode;

const SEED: u64 = 20_261_118;
const ENCODED: usize = 200_000;
/// Those of the other comparisons.
const TOKENS: (u64, usize) = (20_261_115, 20_000);
const READINGS: (u64, usize) = (20_261_116, 100_000);
const RANDOM_BYTES: usize = 4_000_000;
const VALUES: (u64, usize) = (20_261_117, 200_000);
/// Longer than any text that is read.
const LONG: [usize; 3] = [32_768, 32_769, 1_048_577];
/// The bytes of a word, which may be read at once.
const WORD: usize = 8;
/// What lies around the text: plain ASCII, and what is in no sequence.
const AROUND: [u8; 2] = [b'a', 0xFF];

fn proved(text: &[u8]) -> Tested {
    let answer = muon::utf8(text);
    Tested {
        number: answer.number,
        place: answer.place,
        steps: answer.steps,
    }
}

/// What was compared.
#[derive(Default)]
struct Counts {
    texts: usize,
    tests: usize,
    accepted: usize,
    refused: usize,
    memory: Vec<u8>,
}

impl Counts {
    /// The text so many bytes behind a multiple of eight, with others around.
    fn at(&mut self, text: &[u8], ours: Tested, offset: usize, other: u8) -> Compared {
        self.tests += 1;
        self.memory.clear();
        self.memory.resize(text.len() + 4 * WORD, other);
        let start = WORD + self.memory[WORD..].as_ptr().align_offset(WORD) + offset;
        let lent = start..start + text.len();
        self.memory[lent.clone()].copy_from_slice(text);
        let theirs = proved(&self.memory[lent.clone()]);
        if ours != theirs {
            let what = format!("utf8 test at {offset} between {other:02X}");
            same(&what, text, ours, theirs)?;
        }
        same("text", text, text, &self.memory[lent])
    }

    fn ours(&mut self, text: &[u8]) -> Tested {
        let ours = utf8::test(text);
        self.texts += 1;
        match ours.number {
            0 => self.accepted += 1,
            _ => self.refused += 1,
        }
        ours
    }

    /// At some place.
    fn text(&mut self, text: &[u8]) -> Compared {
        let ours = self.ours(text);
        let (offset, other) = (self.texts % WORD, AROUND[self.texts / WORD % 2]);
        self.at(text, ours, offset, other)
    }

    fn texts<T: AsRef<[u8]>>(&mut self, texts: &[T]) -> Compared {
        texts.iter().try_for_each(|text| self.text(text.as_ref()))
    }

    /// At every place.
    fn everywhere(&mut self, text: &[u8]) -> Compared {
        let ours = self.ours(text);
        for offset in 0..WORD {
            for other in AROUND {
                self.at(text, ours, offset, other)?;
            }
        }
        Ok(())
    }

    fn all_everywhere(&mut self, texts: &[Vec<u8>]) -> Compared {
        texts.iter().try_for_each(|text| self.everywhere(text))
    }

    fn both_answers(&self) -> Compared {
        if self.accepted > 0 && self.refused > 0 {
            return Ok(());
        }
        Err(Difference("only one of 0 and 3 was answered".to_string()))
    }

    fn summary(&self) -> String {
        let Counts {
            texts,
            tests,
            accepted,
            refused,
            ..
        } = self;
        format!("{texts} texts (answers 0: {accepted}, 3: {refused}), {tests} tests")
    }
}

/// Rows with one piece or two at every place.
fn rows(counts: &mut Counts) -> Compared {
    counts.all_everywhere(&around(&[], 3 * RUN_MAX))?;
    let pieces: Vec<&[u8]> = LONGER.into_iter().chain(BAD).collect();
    for piece in &pieces {
        counts.all_everywhere(&around(&[piece], RUN_MAX))?;
    }
    for byte in 0..=u8::MAX {
        counts.texts(&around(&[&[byte]], RUN_MAX))?;
    }
    for first in LONGER {
        for second in &pieces {
            counts.texts(&around(&[first, second], RUN_MAX))?;
        }
    }
    Ok(())
}

/// Every sample, broken off at every byte and with a bit flipped.
fn all_samples(counts: &mut Counts) -> Compared {
    let mut random = Random::new(SEED);
    for sample in samples::all() {
        for length in 0..=sample.text.len() {
            counts.text(&sample.text[..length])?;
        }
        counts.texts(&flipped(sample.text, &mut random))?;
    }
    counts.texts(&sample_pieces())
}

/// Plain and mixed texts of this length, and with a byte that is wrong at
/// the end.
fn long(length: usize) -> [Vec<u8>; 4] {
    let plain = vec![b'a'; length];
    let mixed: Vec<u8> = "A night of frost, \u{2212}2 \u{b0}C. "
        .bytes()
        .cycle()
        .take(length)
        .collect();
    let bad = |text: &[u8]| [text, &b"\xFF"[..]].concat();
    [bad(&plain), bad(&mixed), plain, mixed]
}

fn run(counts: &mut Counts) -> Compared {
    rows(counts)?;
    counts.texts(&encoded_texts(SEED, ENCODED))?;
    all_samples(counts)?;
    for (seed, n) in [TOKENS, READINGS] {
        counts.texts(&texts(seed, n))?;
    }
    counts.texts(&random_bytes(READINGS.0, RANDOM_BYTES))?;
    counts.texts(&row_texts())?;
    counts.texts(&long_texts())?;
    for list in [
        short_pieces(),
        long_pieces(),
        pieces(VALUES.0, VALUES.1),
        packed_pieces(),
        long_packed_pieces(),
        random_packed_pieces(VALUES.0, VALUES.1),
    ] {
        counts.texts(&list)?;
    }
    for length in LONG {
        counts.texts(&long(length))?;
    }
    counts.both_answers()
}

fn main() -> ExitCode {
    let mut counts = Counts::default();
    let outcome = run(&mut counts);
    finish("compare_utf8", &counts.summary(), outcome)
}
