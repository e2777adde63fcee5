//! Compares this package's tokens with those of the verified archive, word
//! for word, and bounds the archive's time on long inputs.
//!
//! Exits with 1 at the first disagreement.

use second::archive;
use second::compare::{finish, same, Compared, Difference};
use second::generate::{escape_rows, escape_texts, long_texts, row_texts, texts};
use second::token::{self, Lexed};
use second::{front, samples};
use std::process::ExitCode;
use std::time::{Duration, Instant};

const SEED: u64 = 20_261_115;
const GENERATED: usize = 20_000;
const ESCAPES: usize = 10_000;
/// For one pass over a text of 32 KB; a quadratic scan takes far longer.
const TIME_BOUND: Duration = Duration::from_millis(50);

/// What was compared.
#[derive(Default)]
struct Counts {
    texts: usize,
    tokens: usize,
    slowest: Duration,
}

impl Counts {
    fn token(&mut self, text: &[u8], at: usize) -> Result<Lexed, Difference> {
        self.tokens += 1;
        let ours = token::next(text, at);
        let what = format!("token at {at}");
        same(&what, text, ours.words(), archive::next(text, at))?;
        Ok(ours)
    }

    /// All tokens from `at`.  Where none starts, the next byte is tried, so
    /// that the rest of a broken text is compared too.
    fn sequence(&mut self, text: &[u8], at: usize) -> Compared {
        let mut place = at;
        loop {
            place = match self.token(text, place)? {
                Lexed::Token(token) => token.end,
                Lexed::NoToken(place) => place + 1,
                Lexed::End(_) => return Ok(()),
            };
        }
    }

    fn text(&mut self, text: &[u8]) -> Compared {
        self.texts += 1;
        let begin = front::begin(text);
        same("front", text, begin, archive::begin(text))?;
        self.sequence(text, begin)?;
        if begin > 0 {
            self.sequence(text, 0)?;
        }
        Ok(())
    }

    /// The token at every place, also inside tokens and beyond the end.
    fn places(&mut self, text: &[u8]) -> Compared {
        for at in (0..=text.len() + 2).chain([usize::MAX]) {
            self.token(text, at)?;
        }
        Ok(())
    }

    fn sample(&mut self, text: &[u8]) -> Compared {
        self.places(text)?;
        for length in 0..=text.len() {
            self.text(&text[..length])?;
        }
        Ok(())
    }

    /// The best of three passes counts, since other work may disturb one.
    fn long(&mut self, text: &[u8]) -> Compared {
        self.texts += 1;
        let ours = token::list(text, 0);
        let mut best = Duration::MAX;
        for _ in 0..3 {
            let start = Instant::now();
            let theirs = archive_list(text, ours.len());
            best = best.min(start.elapsed());
            for (index, (ours, theirs)) in ours.iter().zip(theirs).enumerate() {
                self.tokens += 1;
                let what = format!("token no. {index}");
                same(&what, text, ours.words(), theirs)?;
            }
        }
        self.slowest = self.slowest.max(best);
        if best > TIME_BOUND {
            return Err(Difference(format!(
                "time of b\"{}...\" ({} bytes): {best:?} is more than {TIME_BOUND:?}",
                text[..text.len().min(40)].escape_ascii(),
                text.len()
            )));
        }
        Ok(())
    }
}

/// The archive's first `count` tokens, each asked for where the one before
/// ended.
fn archive_list(text: &[u8], count: usize) -> Vec<[u64; 5]> {
    let mut place = 0;
    (0..count)
        .map(|_| {
            let found = archive::next(text, place);
            place = found[2] as usize;
            found
        })
        .collect()
}

fn run(counts: &mut Counts) -> Compared {
    for sample in samples::all() {
        counts.sample(sample.text)?;
    }
    for length in [2048, 2050, 32_768] {
        counts.text(&samples::members(length))?;
    }
    for text in texts(SEED, GENERATED) {
        counts.text(&text)?;
    }
    for text in escape_texts(SEED, ESCAPES).iter().chain(&escape_rows()) {
        counts.text(text)?;
    }
    for text in row_texts() {
        counts.text(&text)?;
    }
    for text in long_texts() {
        counts.long(&text)?;
    }
    Ok(())
}

fn main() -> ExitCode {
    let mut counts = Counts::default();
    let outcome = run(&mut counts);
    let Counts {
        texts,
        tokens,
        slowest,
    } = counts;
    let compared = format!("{texts} texts, {tokens} tokens, slowest long text {slowest:?}");
    finish("compare_tokens", &compared, outcome)
}
