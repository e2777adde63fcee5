//! Compares this package's conversions with those of the verified archive:
//! number, place, count and every byte of the lent buffer.  By the converter
//! and the checker of stored files the archive's reading by the old rules is
//! seen, too: its number and place, that both levels agree, and that its nodes
//! are this package's.  Checks of the archive that what it writes is read again
//! by today's rules, with the same nodes and values, and converted again, with
//! the same bytes; and that a text without arrows `<-` converts to its plain
//! form.
//!
//! The texts are every sample, broken off at every byte and with comments,
//! generated and damaged ones, arrows at many places, escapes out of range,
//! random bytes, and long ones.
//!
//! Exits with 1 at the first disagreement.

use second::answer::{Answer, NEWER_FORM, NODES_MAX, NODE_WORDS, RETIRED_ARROW, TEXT_MAX};
use second::compare::forms::{end, form_lengths, no_level, read, read_again, LEVELS};
use second::compare::{
    accepted_bytes, all_met, each_met, escapes_met, finish, in_quotes, listed, same, same_written,
    Compared, Difference, TURNS,
};
use second::generate::{
    arrow_rows, arrow_texts, commented, deep_forms, escape_rows, escape_texts, good_texts,
    head_forms, long_texts, old_texts, random_bytes, sized_forms, texts, Random,
};
use second::progress;
use second::samples::readings::CONVERTED;
use second::samples::{before, Sample, Want};
use second::tree::{read_by, Rules};
use second::{file, plain, samples};
use std::process::ExitCode;

/// Texts of a run, rounded: shown beside those that are done.
const ABOUT: usize = 208_000;
const SEED: u64 = 20_261_124;
const GENERATED: usize = 12_000;
const GOOD: usize = 3_000;
const OLD: usize = 12_000;
const ARROWS: usize = 12_000;
const ESCAPES: usize = 6_000;
/// Calls that refuse an escape at least.
const REFUSED_ESCAPES: usize = 100_000;
const RANDOM_BYTES: usize = 200_000;
const COMMENT: &[u8] = b"`<-`";
/// The answers that the call can give; 14 and 15 are not among them.
const ANSWERS: [usize; 10] = [0, 1, 2, 3, 4, 5, 6, 7, 8, 11];
/// In the words of a node.
const ROLE: usize = 4;
const THAT_BEFORE: u32 = 3;

/// The calls of the archive, by the package that wraps it.
mod archive {
    use second::answer::Answer;

    pub fn convert(level: u32, text: &[u8], buffer: &mut [u8]) -> Answer {
        muon::convert::write(level, text, buffer).into()
    }

    pub fn check(text: &[u8], file: &[u8]) -> Answer {
        muon::file::check(text, file).into()
    }
}

/// This package's words of a text by the old rules, or its refusal.
fn old_read(level: u32, text: &[u8]) -> Result<Vec<u32>, Answer> {
    let mut table = vec![0; NODES_MAX * NODE_WORDS];
    let answer = read_by(Rules::Old, level, text, &mut table);
    if answer.number != 0 {
        return Err(answer);
    }
    table.truncate(answer.count * NODE_WORDS);
    Ok(table)
}

/// The archive's answer with room enough, and what it wrote.
fn whole(level: u32, text: &[u8]) -> (Answer, Vec<u8>) {
    accepted_bytes(2 * text.len(), |form| archive::convert(level, text, form))
}

/// What was compared.
struct Counts {
    random: Random,
    texts: usize,
    answers: [usize; 16],
    /// Calls that refused an escape in quotes.
    escapes: usize,
    /// Forms that were read and converted again, those of texts with an arrow,
    /// and those whose nodes have another order than the text's.
    again: usize,
    arrows: usize,
    turned: usize,
    /// Forms longer than a text may be.
    longer: usize,
    /// Literals whose values were compared.
    values: usize,
}

impl Counts {
    fn new() -> Counts {
        Counts {
            random: Random::new(SEED),
            texts: 0,
            answers: [0; 16],
            escapes: 0,
            again: 0,
            arrows: 0,
            turned: 0,
            longer: 0,
            values: 0,
        }
    }

    /// The answer with a buffer of so many bytes, if it is the same.
    fn answered(&mut self, level: u32, text: &[u8], length: usize) -> Result<Answer, Difference> {
        let answer = same_written(
            || format!("conversion at level {level} in {length} bytes"),
            text,
            length,
            |buffer| plain::convert(level, text, buffer),
            |buffer| archive::convert(level, text, buffer),
        )?;
        self.answers[answer.number as usize] += TURNS.len();
        self.escapes += TURNS.len() * usize::from(in_quotes(text, answer));
        Ok(answer)
    }

    /// What a text is converted to at a level, if it is, with buffers of
    /// several lengths.
    fn form(&mut self, level: u32, text: &[u8]) -> Result<Option<Vec<u8>>, Difference> {
        self.texts += 1;
        progress::step();
        let words = match old_read(level, text) {
            Ok(words) => words,
            Err(refusal) => {
                self.refused(level, text, refusal)?;
                return Ok(None);
            }
        };
        let need = self.answered(level, text, 0)?.count;
        for length in form_lengths(text, need, &mut self.random) {
            self.answered(level, text, length)?;
        }
        let (answer, form) = whole(level, text);
        let want = Answer::accepted(text.len(), need);
        same("twice the text is enough", text, want, answer)?;
        self.again(level, text, &words, &form)?;
        self.as_plain(level, text, &form)?;
        Ok(Some(form))
    }

    /// A refused text is refused alike, whatever the buffer is.
    fn refused(&mut self, level: u32, text: &[u8], refusal: Answer) -> Compared {
        for length in [0, 1, 2 * text.len()] {
            let answer = self.answered(level, text, length)?;
            same("refusal by the old rules", text, refusal, answer)?;
        }
        Ok(())
    }

    /// That the archive reads the form by today's rules with the text's nodes,
    /// ends alike at the other level, and converts it to the same bytes.
    fn again(&mut self, level: u32, text: &[u8], words: &[u32], form: &[u8]) -> Compared {
        if form.len() > TEXT_MAX {
            self.longer += 1;
            return Ok(());
        }
        let found = read_again(level, text, words, form)?;
        let roles = found.words.chunks(NODE_WORDS).map(|node| node[ROLE]);
        let before = roles.filter(|role| *role == THAT_BEFORE).count();
        same("thats before their this in the form", form, 0, before)?;
        for level in LEVELS {
            let what = format!("number and count at level {level} of the form");
            let (old, today) = (old_read(level, text), read(level, form));
            same(&what, text, end(&old), end(&today))?;
        }
        let want = (Answer::accepted(form.len(), form.len()), form.to_vec());
        same("form converted again", form, want, whole(level, form))?;
        self.again += 1;
        self.turned += usize::from(found.turned);
        self.values += found.values;
        Ok(())
    }

    /// By today's rules the text is refused for its first arrow, or it has the
    /// same plain form.
    fn as_plain(&mut self, level: u32, text: &[u8], form: &[u8]) -> Compared {
        match read(level, text) {
            Ok(words) => {
                let mut plain = vec![0; form.len()];
                let answer = muon::plain::write(level, text, &words, &mut plain).into();
                let want = Answer::accepted(text.len(), form.len());
                same("answer of the plain form", text, want, answer)?;
                same("plain form", text, form, &plain[..])
            }
            Err(refusal) => {
                self.arrows += 1;
                same("today's refusal", text, RETIRED_ARROW, refusal.number)?;
                let arrow = text[refusal.place..].starts_with(b"<-");
                same("an arrow where it is refused", text, true, arrow)
            }
        }
    }

    /// Demand 3 by the old rules, seen through the converter.
    fn old_and_new(&mut self, text: &[u8]) -> Compared {
        let (old, new) = (whole(1, text), whole(2, text));
        if old.0.number != NEWER_FORM {
            return same("levels 1 and 2 by the old rules", text, old, new);
        }
        let later = new.0.number == 0 || old.0.place <= new.0.place;
        same("level 2 accepts, or refuses later", text, true, later)
    }

    /// The nodes by the old rules, seen through the checker: it takes the file
    /// that has this package's.
    fn nodes(&mut self, text: &[u8]) -> Compared {
        let Ok(stored) = file::of(Rules::Old, text) else {
            return Ok(());
        };
        let want = Answer::accepted(text.len(), stored.len());
        let answer = archive::check(text, &stored);
        same("nodes by the old rules", text, want, answer)
    }

    fn text(&mut self, text: &[u8]) -> Compared {
        for level in LEVELS {
            self.form(level, text)?;
        }
        self.old_and_new(text)?;
        self.nodes(text)?;
        let level = no_level(&mut self.random);
        self.refused(level, text, Answer::refused(1, 0))
    }

    /// The answers that the papers give by the old rules.
    fn sample(&mut self, sample: &Sample) -> Compared {
        for (level, want) in LEVELS.into_iter().zip(sample.old) {
            let answer = whole(level, sample.text).0;
            let (number, place, count) = match want {
                Want::Refused(number, place, count) => (number, place, count),
                Want::Accepted(..) => (0, sample.text.len(), answer.count),
            };
            let want = Answer {
                number,
                place,
                count,
            };
            same("sample by the old rules", sample.text, want, answer)?;
        }
        for length in 0..=sample.text.len() {
            self.text(&sample.text[..length])?;
        }
        self.commented(sample.text)
    }

    /// A comment in every gap changes nothing.
    fn commented(&mut self, text: &[u8]) -> Compared {
        let other = commented(text, COMMENT);
        for level in LEVELS {
            let Some(form) = self.form(level, text)? else {
                continue;
            };
            let found = self.form(level, &other)?;
            same("form without comments", text, Some(form), found)?;
        }
        Ok(())
    }

    /// Every answer is met, and every kind of form.
    fn every_answer(&self) -> Compared {
        all_met("converter", &self.answers, &ANSWERS)?;
        escapes_met(self.escapes, REFUSED_ESCAPES)?;
        each_met(&[
            ("a text with an arrow", self.arrows),
            ("another order", self.turned),
            ("a form longer than a text", self.longer),
            ("a value", self.values),
        ])
    }

    fn summary(&self) -> String {
        format!(
            "{} texts, {} ({} bad escapes), {} with an arrow, {} forms read and converted again ({} in another order, {} values), {} too long for that",
            self.texts,
            listed(&self.answers, &ANSWERS),
            self.escapes,
            self.arrows,
            self.again,
            self.turned,
            self.values,
            self.longer
        )
    }
}

/// What the readings say of the converter.
fn told() -> Compared {
    for &(text, length, number, place, count, bytes) in CONVERTED {
        let want = Answer {
            number,
            place,
            count,
        };
        let mut buffer = vec![0; length];
        let answer = archive::convert(2, text, &mut buffer);
        same("conversion of the readings", text, want, answer)?;
        same("form of the readings", text, bytes, &buffer[..bytes.len()])?;
    }
    Ok(())
}

fn made() -> Vec<Vec<u8>> {
    let mut all = texts(SEED, GENERATED);
    all.extend(good_texts(SEED, GOOD).into_iter().map(|made| made.text));
    all.extend(old_texts(SEED, OLD).into_iter().map(|made| made.text));
    all.extend(arrow_texts(SEED, ARROWS));
    all.extend(arrow_rows());
    all.extend(escape_texts(SEED, ESCAPES));
    all.extend(escape_rows());
    all.extend(random_bytes(SEED, RANDOM_BYTES));
    all
}

fn long() -> Vec<Vec<u8>> {
    let mut all = head_forms();
    for sign in ["->", "<-"] {
        all.extend(deep_forms(sign));
        all.extend(sized_forms(sign));
    }
    all.extend(long_texts());
    all
}

fn run(counts: &mut Counts) -> Compared {
    told()?;
    for sample in samples::all() {
        counts.sample(&sample)?;
    }
    for (text, _) in before::ARROWS {
        counts.text(text)?;
        counts.commented(text)?;
    }
    for text in made().iter().chain(&long()) {
        counts.text(text)?;
    }
    counts.every_answer()
}

fn main() -> ExitCode {
    progress::begin("compare_convert", "texts", Some(ABOUT));
    let mut counts = Counts::new();
    let outcome = run(&mut counts);
    finish("compare_convert", &counts.summary(), outcome)
}
