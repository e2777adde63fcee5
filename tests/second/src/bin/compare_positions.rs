//! Compares line and column of places with those that the verified archive
//! tells, at every place of a text and some beyond it.
//!
//! The texts are rows of ASCII with a longer sequence, one that is none or a
//! line feed at every place; random and damaged ones; the samples; and some
//! that are too long to be read, at some of their places.
//!
//! Exits with 1 at the first disagreement.

use second::compare::{finish, same, Compared, Difference};
use second::generate::{
    around, encoded_texts, flipped, random_bytes, row_texts, texts, Random, BAD, LONGER, RUN_MAX,
};
use second::position::{position, Position};
use second::samples;
use std::process::ExitCode;

const SEED: u64 = 20_261_122;
const ENCODED: usize = 4_000;
const TEXTS: usize = 2_000;
const RANDOM_BYTES: usize = 100_000;
/// Places of a long text that are compared.
const SOME: usize = 40;
const LONG: [usize; 2] = [32_768, 131_073];
/// Places beyond the end.
const BEYOND: [usize; 3] = [1, 9, usize::MAX];

fn proved(text: &[u8], place: usize) -> Position {
    let told = muon::line_column(text, place);
    Position {
        line: told.line,
        column: told.column,
    }
}

/// What was compared.
#[derive(Default)]
struct Counts {
    texts: usize,
    places: usize,
    lines: usize,
    inside: usize,
}

impl Counts {
    fn at(&mut self, text: &[u8], place: usize) -> Compared {
        self.places += 1;
        let (ours, theirs) = (position(text, place), proved(text, place));
        self.lines = self.lines.max(ours.line);
        if ours != theirs {
            same(&format!("position of {place}"), text, ours, theirs)?;
        }
        Ok(())
    }

    fn text(&mut self, text: &[u8]) -> Compared {
        self.texts += 1;
        for place in 0..=text.len() {
            self.at(text, place)?;
            let inside = place > 0 && position(text, place - 1) == position(text, place);
            self.inside += usize::from(inside);
        }
        BEYOND
            .iter()
            .try_for_each(|beyond| self.at(text, text.len().saturating_add(*beyond)))
    }

    fn texts<T: AsRef<[u8]>>(&mut self, texts: &[T]) -> Compared {
        texts.iter().try_for_each(|text| self.text(text.as_ref()))
    }

    fn some_places(&mut self, text: &[u8], random: &mut Random) -> Compared {
        self.texts += 1;
        for _ in 0..SOME {
            self.at(text, random.below(text.len() + 2))?;
        }
        Ok(())
    }

    /// More than one line, and places inside of a character.
    fn enough(&self) -> Compared {
        if self.lines > 2 && self.inside > 0 {
            return Ok(());
        }
        Err(Difference("no lines or no longer characters".to_string()))
    }

    fn summary(&self) -> String {
        let Counts {
            texts,
            places,
            lines,
            inside,
        } = self;
        format!("{texts} texts, {places} places, {inside} of them inside of a character, up to line {lines}")
    }
}

fn rows(counts: &mut Counts) -> Compared {
    let pieces: Vec<&[u8]> = LONGER.into_iter().chain(BAD).chain([&b"\n"[..]]).collect();
    for first in &pieces {
        counts.texts(&around(&[first], RUN_MAX))?;
        for second in &pieces {
            counts.text(&[b"a", *first, *second, b"\n", *second, *first].concat())?;
        }
    }
    Ok(())
}

fn all_samples(counts: &mut Counts, random: &mut Random) -> Compared {
    for sample in samples::all() {
        counts.text(sample.text)?;
        counts.texts(&flipped(sample.text, random))?;
    }
    Ok(())
}

/// Lines with longer characters, and the same with a byte that begins nothing
/// now and then.
fn long(length: usize) -> [Vec<u8>; 2] {
    let line = "A night of frost,\n \u{2212}2 \u{b0}C.\r\n";
    let whole: Vec<u8> = line.bytes().cycle().take(length).collect();
    let mut broken = whole.clone();
    broken.iter_mut().step_by(97).for_each(|byte| *byte = 0x80);
    [whole, broken]
}

fn run(counts: &mut Counts) -> Compared {
    let mut random = Random::new(SEED);
    rows(counts)?;
    counts.texts(&encoded_texts(SEED, ENCODED))?;
    counts.texts(&texts(SEED, TEXTS))?;
    counts.texts(&random_bytes(SEED, RANDOM_BYTES))?;
    counts.texts(&row_texts())?;
    all_samples(counts, &mut random)?;
    for length in LONG {
        for text in long(length) {
            counts.some_places(&text, &mut random)?;
        }
    }
    counts.enough()
}

fn main() -> ExitCode {
    let mut counts = Counts::default();
    let outcome = run(&mut counts);
    finish("compare_positions", &counts.summary(), outcome)
}
