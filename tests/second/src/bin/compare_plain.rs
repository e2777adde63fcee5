//! Compares this package's plain forms with those of the verified archive:
//! number, place, count and every byte of the lent buffer.  Checks of the
//! archive that the plain form is read again, with the same nodes and values,
//! and written again, with the same bytes; that a comment in a gap changes
//! nothing; and that twice the text is room enough.
//!
//! The texts are every sample, broken off at every byte and with a comment put
//! in at every byte, generated and damaged ones, ones with escapes out of range,
//! random bytes, and long ones; the tables those of these texts, exact, cut off,
//! longer and changed, and those of others.  Texts with arrows `<-` are refused
//! here; compare_convert has what is written for them.
//!
//! Exits with 1 at the first disagreement.

use second::answer::{Answer, NODE_WORDS, NOT_THE_FILE, SKIP, TEXT_MAX};
use second::compare::forms::{end, form_lengths, no_level, read, read_again, LEVELS};
use second::compare::{
    accepted_bytes, all_met, each_met, escapes_met, finish, in_quotes, listed, same, same_written,
    Compared, Difference, TURNS,
};
use second::generate::{
    arrow_rows, arrow_texts, commented, deep_forms, escape_rows, escape_texts, gaps, good_texts,
    head_forms, long_texts, random_bytes, sized_forms, texts, Random,
};
use second::progress;
use second::samples::readings::PLAIN;
use second::tree::{read_by, Rules};
use second::{plain, samples};
use std::process::ExitCode;

/// Texts of a run, rounded: shown beside those that are done.
const ABOUT: usize = 104_000;
const SEED: u64 = 20_261_123;
const GENERATED: usize = 12_000;
const GOOD: usize = 6_000;
const ARROWS: usize = 1_000;
const ESCAPES: usize = 2_000;
/// Calls that refuse an escape at least.
const REFUSED_ESCAPES: usize = 20_000;
/// Of the rows with an arrow or an escape, one in so many; all are converted
/// elsewhere.
const SPARSELY: usize = 7;
const RANDOM_BYTES: usize = 200_000;
const COMMENT: &[u8] = b"`)_\"`";
/// The answers that the call can give.
const ANSWERS: [usize; 12] = [0, 1, 2, 3, 4, 5, 6, 7, 8, 11, 14, 15];

/// The words and the plain form of an accepted text.
type Form = (Vec<u32>, Vec<u8>);

/// The calls of the archive, by the package that wraps it.
mod archive {
    use second::answer::Answer;

    pub fn write(level: u32, text: &[u8], table: &[u32], buffer: &mut [u8]) -> Answer {
        muon::plain::write(level, text, table, buffer).into()
    }
}

/// How thoroughly a table is changed.
#[derive(Clone, Copy)]
enum Care {
    /// Every word.
    Every,
    /// So many at random.
    Some(usize),
}

/// What was compared.
struct Counts {
    random: Random,
    texts: usize,
    answers: [usize; 16],
    /// Calls that refused an escape in quotes.
    escapes: usize,
    /// Forms that were read and written again.
    again: usize,
    /// Forms longer than a text may be.
    longer: usize,
    /// Literals whose values were compared.
    values: usize,
    /// Gaps that got a comment.
    gaps: usize,
    /// The last table.
    last: Vec<u32>,
}

impl Counts {
    fn new() -> Counts {
        Counts {
            random: Random::new(SEED),
            texts: 0,
            answers: [0; 16],
            escapes: 0,
            again: 0,
            longer: 0,
            values: 0,
            gaps: 0,
            last: Vec::new(),
        }
    }

    fn write(&mut self, level: u32, text: &[u8], table: &[u32], length: usize) -> Compared {
        self.answered(level, text, table, length).map(|_| ())
    }

    /// The answer, if it is the same.
    fn answered(
        &mut self,
        level: u32,
        text: &[u8],
        table: &[u32],
        length: usize,
    ) -> Result<Answer, Difference> {
        let words = table.len();
        let answer = same_written(
            || format!("plain form at level {level} with {words} words in {length} bytes"),
            text,
            length,
            |buffer| plain::write(level, text, table, buffer),
            |buffer| archive::write(level, text, table, buffer),
        )?;
        self.answers[answer.number as usize] += TURNS.len();
        self.escapes += TURNS.len() * usize::from(in_quotes(text, answer));
        Ok(answer)
    }

    /// The archive's table and form of a text at a level, if it accepts it,
    /// with buffers of several lengths.
    fn forms(&mut self, level: u32, text: &[u8]) -> Result<Option<Form>, Difference> {
        self.texts += 1;
        progress::step();
        let words = match read(level, text) {
            Ok(words) => words,
            Err(refusal) => {
                self.refused(level, text, refusal)?;
                return Ok(None);
            }
        };
        let need = self.answered(level, text, &words, 0)?.count;
        for length in form_lengths(text, need, &mut self.random) {
            self.write(level, text, &words, length)?;
        }
        let write = |form: &mut [u8]| archive::write(level, text, &words, form);
        let (answer, form) = accepted_bytes(2 * text.len(), write);
        let want = Answer::accepted(text.len(), need);
        same("twice the text is enough", text, want, answer)?;
        self.again(level, text, &words, &form)?;
        Ok(Some((words, form)))
    }

    /// A refused text is refused alike, whatever table and buffer are; the table
    /// that it has by the old rules among them.
    fn refused(&mut self, level: u32, text: &[u8], refusal: Answer) -> Compared {
        let rubbish = vec![7; muon::TABLE_MAX];
        let last = self.last.clone();
        let mut old = vec![0; muon::TABLE_MAX];
        read_by(Rules::Old, level, text, &mut old);
        for table in [&[][..], &rubbish, &last, &old] {
            for length in [0, 2 * text.len()] {
                let answer = self.answered(level, text, table, length)?;
                same("refusal of the reader", text, refusal, answer)?;
            }
        }
        Ok(())
    }

    /// That the archive reads its own form with the same nodes, ends alike at
    /// the other level, and writes it with the same bytes.
    fn again(&mut self, level: u32, text: &[u8], words: &[u32], form: &[u8]) -> Compared {
        if form.len() > TEXT_MAX {
            self.longer += 1;
            return Ok(());
        }
        let found = read_again(level, text, words, form)?;
        self.values += found.values;
        same("another order", text, found.turned, false)?;
        for level in LEVELS {
            let end = |text| end(&read(level, text));
            let what = format!("number and count at level {level} of the plain form");
            same(&what, text, end(text), end(form))?;
        }
        let mut twice = vec![0; form.len()];
        let answer = archive::write(level, form, &found.words, &mut twice);
        let want = Answer::accepted(form.len(), form.len());
        same("answer of the form written again", form, want, answer)?;
        same("form written again", form, form, &twice[..])?;
        self.again += 1;
        Ok(())
    }

    /// Tables that are too short: the nodes are told, whatever the words are.
    fn short(&mut self, level: u32, text: &[u8], words: &[u32]) -> Compared {
        let nodes = Answer::no_room(text.len(), words.len() / NODE_WORDS);
        let rubbish = vec![7; words.len()];
        for lacking in [1, NODE_WORDS, words.len() / 2 + 1, words.len()] {
            let length = words.len() - lacking.min(words.len());
            for table in [&words[..length], &rubbish[..length]] {
                for room in [0, 2 * text.len()] {
                    let answer = self.answered(level, text, table, room)?;
                    same("refusal of a short table", text, nodes, answer)?;
                }
            }
        }
        self.of_six_words(level, text, words)
    }

    /// The table as it was when a node had six words is too short; filled up it
    /// is another's.
    fn of_six_words(&mut self, level: u32, text: &[u8], words: &[u32]) -> Compared {
        let count = words.len() / NODE_WORDS;
        let nodes = words.chunks(NODE_WORDS);
        let mut before: Vec<u32> = nodes.flat_map(|node| &node[..SKIP]).copied().collect();
        let answer = self.answered(level, text, &before, 2 * text.len())?;
        let want = Answer::no_room(text.len(), count);
        same("refusal of a table of six words", text, want, answer)?;
        before.resize(words.len(), 0);
        let answer = self.answered(level, text, &before, 2 * text.len())?;
        let want = Answer::refused(NOT_THE_FILE, 0);
        same("refusal of it filled up", text, want, answer)
    }

    /// Words behind those of the nodes, which are free.
    fn behind(&mut self, level: u32, text: &[u8], words: &[u32], need: usize) -> Compared {
        let more = 1 + self.random.below(40);
        for more in [1, NODE_WORDS - 1, NODE_WORDS, more, muon::TABLE_MAX] {
            let mut table = words.to_vec();
            table.extend((0..more).map(|_| u32::from(self.random.byte()) << 3));
            let answer = self.answered(level, text, &table, need)?;
            let want = Answer::accepted(text.len(), need);
            same("answer with words behind", text, want, answer)?;
        }
        Ok(())
    }

    /// One word changed: 14, with or without room in the buffer.
    fn changed(&mut self, level: u32, text: &[u8], words: &[u32], care: Care) -> Compared {
        let places: Vec<usize> = match care {
            Care::Every => (0..words.len()).collect(),
            Care::Some(times) => {
                let some = (0..times).map(|_| self.random.below(words.len()));
                some.chain([0, words.len() - 1]).collect()
            }
        };
        let mut table = words.to_vec();
        for at in places {
            let bit = 1 << self.random.below(32);
            for (other, room) in [(words[at] ^ 1, 0), (words[at] ^ bit, 2 * text.len())] {
                table[at] = other;
                let answer = self.answered(level, text, &table, room)?;
                let want = Answer::refused(NOT_THE_FILE, 0);
                same("answer with a word changed", text, want, answer)?;
            }
            table[at] = words[at];
        }
        Ok(())
    }

    /// The tables of other texts, the last one as it is and filled up; and the
    /// form's own.
    fn of_others(&mut self, level: u32, text: &[u8], words: &[u32], form: &[u8]) -> Compared {
        let last = self.last.clone();
        self.write(level, text, &last, 2 * text.len())?;
        let filled: Vec<u32> = last.into_iter().chain(words.iter().copied()).collect();
        self.write(level, text, &filled, 2 * text.len())?;
        if let Ok(own) = read(level, form) {
            self.write(level, text, &own, 2 * text.len())?;
            self.write(level, form, words, 2 * text.len())?;
        }
        Ok(())
    }

    fn text(&mut self, text: &[u8], care: Care) -> Compared {
        for level in LEVELS {
            let Some((words, form)) = self.forms(level, text)? else {
                continue;
            };
            self.short(level, text, &words)?;
            self.behind(level, text, &words, form.len())?;
            self.changed(level, text, &words, care)?;
            self.of_others(level, text, &words, &form)?;
            self.last = words;
        }
        let level = no_level(&mut self.random);
        self.refused(level, text, Answer::refused(1, 0))
    }

    /// A comment at every byte; where it stands in a gap, with the same form.  Then
    /// one in every gap at once.
    fn commented(&mut self, text: &[u8]) -> Compared {
        let gaps = gaps(text);
        for level in LEVELS {
            let Some((_, form)) = self.forms(level, text)? else {
                continue;
            };
            for at in 0..=text.len() {
                let other = [&text[..at], COMMENT, &text[at..]].concat();
                let found = self.forms(level, &other)?;
                if gaps.contains(&at) && other.len() <= TEXT_MAX {
                    let found = found.map(|(_, form)| form);
                    same("form without a comment", text, Some(&form), found.as_ref())?;
                    self.gaps += 1;
                }
            }
            let everywhere = commented(text, COMMENT);
            if everywhere.len() <= TEXT_MAX {
                let found = self.forms(level, &everywhere)?.map(|(_, form)| form);
                same("form without comments", text, Some(&form), found.as_ref())?;
            }
        }
        Ok(())
    }

    /// Every answer is met, and every kind of form.
    fn every_answer(&self) -> Compared {
        all_met("call", &self.answers, &ANSWERS)?;
        escapes_met(self.escapes, REFUSED_ESCAPES)?;
        each_met(&[
            ("a form longer than a text", self.longer),
            ("a value", self.values),
            ("a gap", self.gaps),
        ])
    }

    fn summary(&self) -> String {
        format!(
            "{} texts, {} ({} bad escapes), {} forms read and written again ({} values), {} too long for that, {} gaps with a comment",
            self.texts,
            listed(&self.answers, &ANSWERS),
            self.escapes,
            self.again,
            self.values,
            self.longer,
            self.gaps
        )
    }
}

fn sampled() -> Vec<&'static [u8]> {
    let plain = PLAIN.iter().map(|(text, _)| *text);
    let others = samples::all().into_iter().map(|sample| sample.text);
    plain.chain(others).collect()
}

fn run(counts: &mut Counts) -> Compared {
    for (text, form) in PLAIN {
        let found = counts.forms(2, text)?.map(|(_, form)| form);
        same("form of the readings", text, Some(*form), found.as_deref())?;
    }
    for text in sampled() {
        counts.text(text, Care::Every)?;
        for length in 0..text.len() {
            counts.text(&text[..length], Care::Every)?;
        }
        counts.commented(text)?;
    }
    for text in texts(SEED, GENERATED) {
        counts.text(&text, Care::Some(3))?;
    }
    for made in good_texts(SEED, GOOD) {
        counts.text(&made.text, Care::Some(3))?;
    }
    for text in random_bytes(SEED, RANDOM_BYTES) {
        counts.text(&text, Care::Some(1))?;
    }
    for text in arrow_texts(SEED, ARROWS) {
        counts.text(&text, Care::Some(1))?;
    }
    for text in escape_texts(SEED, ESCAPES) {
        counts.text(&text, Care::Some(1))?;
    }
    let rows = [arrow_rows(), escape_rows()].concat();
    for text in rows.iter().step_by(SPARSELY) {
        counts.text(text, Care::Some(1))?;
    }
    for text in deep_forms("->") {
        counts.text(&text, Care::Some(6))?;
    }
    let long = [head_forms(), sized_forms("->"), long_texts()].concat();
    for text in long {
        counts.text(&text, Care::Some(3))?;
    }
    counts.every_answer()
}

fn main() -> ExitCode {
    progress::begin("compare_plain", "texts", Some(ABOUT));
    let mut counts = Counts::new();
    let outcome = run(&mut counts);
    finish("compare_plain", &counts.summary(), outcome)
}
