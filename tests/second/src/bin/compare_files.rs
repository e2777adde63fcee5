//! Compares this package's stored files with those of the verified archive:
//! of the writer number, place, count and every byte of the lent buffer; of
//! the checker number, place and count.  Checks of the archive that its writer
//! stores what its own reader answers and writes to a table, and that its
//! checker takes what was stored with an arrow `<-`, which its writer refuses.
//!
//! The texts are every sample, broken off at every byte, generated and damaged
//! ones, ones with arrows or with escapes out of range, random bytes, and long
//! ones.  The files are those of these texts by the old rules, whole and changed,
//! broken off and longer, under their own and under other texts, some as they
//! were written before, and bytes that are no file.
//!
//! Exits with 1 at the first disagreement.

use second::answer::{Answer, NODES_MAX, RETIRED_ARROW, TEXT_MAX};
use second::compare::{
    all_met, each_met, escapes_met, finish, in_quotes, lengths, listed, same, same_written,
    Compared, Difference, TURNS,
};
use second::file::{self, FILE_MAX, STORED_WORDS};
use second::generate::{
    arrow_rows, arrow_texts, escape_rows, escape_texts, good_texts, long_texts, old_texts,
    random_bytes, sized_forms, texts, Random,
};
use second::progress;
use second::samples;
use second::tree::Rules;
use std::collections::HashMap;
use std::process::ExitCode;

/// Texts of a run, rounded: shown beside those that are done.
const ABOUT: usize = 64_000;
const SEED: u64 = 20_261_119;
const GENERATED: usize = 12_000;
const GOOD: usize = 6_000;
const ARROWS: usize = 4_000;
const ESCAPES: usize = 3_000;
/// Writings that refuse an escape at least.
const REFUSED_ESCAPES: usize = 20_000;
/// Of the rows with an escape, one in so many.
const SPARSELY: usize = 5;
const RANDOM_BYTES: usize = 200_000;
/// Mark, version, node count and text length.
const HEAD: usize = 9;
/// A node's bytes.
const NODE: usize = 2 * STORED_WORDS;
/// The answers that the writer and the checker can give.
const WRITTEN: [usize; 10] = [0, 2, 3, 4, 5, 6, 7, 8, 11, 15];
const CHECKED: [usize; 4] = [0, 12, 13, 14];
/// Bytes that are no file of version 1, and the front of one.
const FRONTS: [&[u8]; 16] = [
    b"",
    b"F",
    b"FN",
    b"FNT",
    b"FNT\0",
    b"FNT\x01",
    b"FNT\0\0",
    b"FNT\0\x01",
    b"FNT\0\x02",
    b"FNT\x01\0",
    b"FNT\x01\x01",
    b"fnt\0\x01",
    b"FNX\0\x01",
    b"TNF\0\x01",
    b"\0FNT\0\x01",
    b"FNT\0\x01\0\0\0\0",
];

/// The calls of the archive, by the package that wraps it.
mod archive {
    use second::answer::Answer;

    pub fn read(text: &[u8], table: &mut [u32]) -> Answer {
        muon::read(2, text, table).into()
    }

    pub fn write(text: &[u8], buffer: &mut [u8]) -> Answer {
        muon::file::write(text, buffer).into()
    }

    pub fn check(text: &[u8], file: &[u8]) -> Answer {
        muon::file::check(text, file).into()
    }
}

/// How thoroughly a file is changed.
#[derive(Clone, Copy, PartialEq)]
enum Care {
    /// Every byte of the head to every other value, every other byte to some,
    /// every length.
    Every,
    /// Bytes and lengths at random, so many of each.
    Some(usize),
}

/// What was compared.
struct Counts {
    random: Random,
    texts: usize,
    written: [usize; 16],
    checked: [usize; 16],
    /// Writings that refused an escape in quotes.
    escapes: usize,
    /// Texts whose file is what the archive's own reader wrote.
    as_read: usize,
    /// Files with an arrow, which are no more written.
    before: usize,
    /// Files of accepted texts by the text's length: the last one each.
    stored: HashMap<usize, Vec<u8>>,
    /// The last file, whatever its text.
    last: Vec<u8>,
}

impl Counts {
    fn new() -> Counts {
        Counts {
            random: Random::new(SEED),
            texts: 0,
            written: [0; 16],
            checked: [0; 16],
            escapes: 0,
            as_read: 0,
            before: 0,
            stored: HashMap::new(),
            last: Vec::new(),
        }
    }

    fn write(&mut self, text: &[u8], length: usize) -> Compared {
        let answer = same_written(
            || format!("file in {length} bytes"),
            text,
            length,
            |buffer| file::write(text, buffer),
            |buffer| archive::write(text, buffer),
        )?;
        self.written[answer.number as usize] += TURNS.len();
        self.escapes += TURNS.len() * usize::from(in_quotes(text, answer));
        Ok(())
    }

    fn check(&mut self, text: &[u8], stored: &[u8]) -> Compared {
        let ours = file::check(text, stored);
        let theirs = archive::check(text, stored);
        self.checked[ours.number as usize] += 1;
        if ours == theirs {
            return Ok(());
        }
        let what = format!("check of b\"{}\" as the file", stored.escape_ascii());
        same(&what, text, ours, theirs)
    }

    /// The text's file, if it is written, with buffers of several lengths; and
    /// that it is what the archive reads.
    fn writings(&mut self, text: &[u8]) -> Compared {
        self.texts += 1;
        progress::step();
        let need = file::write(text, &mut []).count;
        // none, the head's and the longest among them
        let some = [0, 1, HEAD, FILE_MAX, FILE_MAX + 1];
        for length in lengths(&some, need, &mut self.random) {
            self.write(text, length)?;
        }
        as_read(text)?;
        self.as_read += 1;
        Ok(())
    }

    /// A file is written by the archive, or has an arrow and was written
    /// before; it is accepted by both.
    fn both_accept(&mut self, text: &[u8], ours: &[u8]) -> Compared {
        let mut theirs = vec![0; FILE_MAX];
        let answer = archive::write(text, &mut theirs);
        if answer.number == RETIRED_ARROW {
            self.before += 1;
        } else {
            theirs.truncate(answer.count);
            same("file", text, ours, &theirs[..])?;
        }
        let want = Answer::accepted(text.len(), ours.len());
        same(
            "own check of its file",
            text,
            want,
            archive::check(text, ours),
        )?;
        if file::check(text, ours) != want {
            let shown = text.escape_ascii();
            return Err(Difference(format!(
                "this package does not accept its own file of b\"{shown}\""
            )));
        }
        self.check(text, ours)
    }

    /// One byte changed.
    fn changed(&mut self, text: &[u8], whole: &[u8], care: Care) -> Compared {
        let mut other = whole.to_vec();
        let mut with = |counts: &mut Counts, at: usize, byte: u8| {
            let before = std::mem::replace(&mut other[at], byte);
            let compared = counts.check(text, &other);
            other[at] = before;
            compared
        };
        match care {
            Care::Every => {
                for at in 0..HEAD {
                    (0..=u8::MAX).try_for_each(|byte| with(self, at, byte))?;
                }
                for (at, byte) in whole.iter().enumerate().skip(HEAD) {
                    for other in [byte ^ 1, byte ^ 0x80, self.random.byte()] {
                        with(self, at, other)?;
                    }
                }
            }
            Care::Some(times) => {
                for _ in 0..times {
                    let (head, any) = (self.random.below(HEAD), self.random.below(whole.len()));
                    let (byte, bit) = (self.random.byte(), 1 << self.random.below(8));
                    with(self, head, byte)?;
                    with(self, any, whole[any] ^ bit)?;
                }
                with(self, whole.len() - 1, whole[whole.len() - 1] ^ 1)?;
            }
        }
        Ok(())
    }

    /// Cut off, and with bytes behind it.
    fn cut(&mut self, text: &[u8], whole: &[u8], care: Care) -> Compared {
        match care {
            Care::Every => {
                for length in 0..whole.len() {
                    self.check(text, &whole[..length])?;
                }
            }
            Care::Some(times) => {
                for _ in 0..times {
                    let length = self.random.below(whole.len());
                    self.check(text, &whole[..length])?;
                }
                self.check(text, &whole[..whole.len() - 1])?;
                self.check(text, &whole[..whole.len() - NODE])?;
            }
        }
        let last_node = &whole[whole.len() - NODE..];
        for more in [&[0][..], &[self.random.byte()], last_node, whole] {
            self.check(text, &[whole, more].concat())?;
        }
        Ok(())
    }

    /// Files that are sound in themselves and tell another reading: a node
    /// more or less, another text length, nodes exchanged, bytes exchanged.
    fn told_otherwise(&mut self, text: &[u8], whole: &[u8]) -> Compared {
        let nodes = (whole.len() - HEAD) / NODE;
        let with_count = |count: usize, rest: &[u8]| {
            let mut other = whole[..HEAD].to_vec();
            other[5..7].copy_from_slice(&(count as u16).to_be_bytes());
            other.extend(rest);
            other
        };
        let all = &whole[HEAD..];
        let last = &all[all.len() - NODE..];
        self.check(text, &with_count(nodes + 1, &[all, last].concat()))?;
        self.check(text, &with_count(nodes + 1, &[all, &[0; NODE]].concat()))?;
        self.check(text, &with_count(nodes - 1, &all[..all.len() - NODE]))?;
        self.check(text, &with_count(nodes - 1, &all[NODE..]))?;
        self.check(text, &with_count(0, &[]))?;
        for length in [text.len() + 1, text.len().wrapping_sub(1), 0] {
            let mut other = whole.to_vec();
            other[7..HEAD].copy_from_slice(&(length as u16).to_be_bytes());
            self.check(text, &other)?;
        }
        // low byte first
        let mut low_first = whole.to_vec();
        low_first[3..].chunks_exact_mut(2).for_each(<[u8]>::reverse);
        self.check(text, &low_first)?;
        low_first[..HEAD].copy_from_slice(&whole[..HEAD]);
        self.check(text, &low_first)?;
        // two nodes in each other's place
        let mut exchanged = whole.to_vec();
        let (first, second) = (self.random.below(nodes), self.random.below(nodes));
        for at in 0..NODE {
            exchanged.swap(HEAD + first * NODE + at, HEAD + second * NODE + at);
        }
        self.check(text, &exchanged)
    }

    /// Bytes that are hardly a file of the text: too few, another version, and
    /// random ones, plain and behind what may be right.
    fn no_files(&mut self, text: &[u8]) -> Compared {
        for front in FRONTS {
            self.check(text, front)?;
        }
        let length = self.random.below(60);
        let random: Vec<u8> = (0..length).map(|_| self.random.byte()).collect();
        self.check(text, &random)?;
        self.check(text, &[b"FNT\0\x01", &random[..]].concat())?;
        let told = (text.len() as u16).to_be_bytes();
        self.check(text, &[b"FNT\0\x01\0\0", &told[..]].concat())?;
        self.check(text, &[b"FNT\0\x01\0\x01", &told[..], &random].concat())
    }

    /// The files of other texts: the last one, and the last of this length.
    fn files_of_others(&mut self, text: &[u8]) -> Compared {
        let last = self.last.clone();
        self.check(text, &last)?;
        match self.stored.get(&text.len()).cloned() {
            Some(stored) => self.check(text, &stored),
            None => Ok(()),
        }
    }

    fn text(&mut self, text: &[u8], care: Care) -> Compared {
        self.writings(text)?;
        self.files_of_others(text)?;
        self.no_files(text)?;
        let Ok(whole) = file::of(Rules::Old, text) else {
            return Ok(());
        };
        self.both_accept(text, &whole)?;
        self.changed(text, &whole, care)?;
        self.cut(text, &whole, care)?;
        self.told_otherwise(text, &whole)?;
        self.stored.insert(text.len(), whole.clone());
        self.last = whole;
        Ok(())
    }

    fn every_answer(&self) -> Compared {
        all_met("writer", &self.written, &WRITTEN)?;
        all_met("checker", &self.checked, &CHECKED)?;
        escapes_met(self.escapes, REFUSED_ESCAPES)?;
        each_met(&[("a file of before", self.before)])
    }

    fn summary(&self) -> String {
        format!(
            "{} texts, writer ({}; {} bad escapes), checker ({}), {} as read, {} files with an arrow",
            self.texts,
            listed(&self.written, &WRITTEN),
            self.escapes,
            listed(&self.checked, &CHECKED),
            self.as_read,
            self.before
        )
    }
}

/// That the archive's file has the first six words of each node that its reader
/// writes to a table of 1,024 nodes, or that both refuse the text alike.
fn as_read(text: &[u8]) -> Compared {
    let mut table = [0; muon::TABLE_MAX];
    let read = archive::read(text, &mut table);
    let mut stored = vec![0; FILE_MAX];
    let answer = archive::write(text, &mut stored);
    if read.number != 0 {
        return same("refusal of the archive's writer", text, read, answer);
    }
    let nodes = table.chunks(muon::NODE_WORDS).take(read.count);
    let words = nodes.flat_map(|node| &node[..STORED_WORDS]);
    let head = [1, read.count as u32, text.len() as u32];
    let numbers = head.iter().chain(words);
    let bytes = numbers.flat_map(|number| [(number >> 8) as u8, *number as u8]);
    let want: Vec<u8> = b"FNT".iter().copied().chain(bytes).collect();
    let answered = Answer::accepted(text.len(), want.len());
    same("answer of the archive's writer", text, answered, answer)?;
    stored.truncate(answer.count);
    same("file of what the archive read", text, want, stored)
}

/// Around 1,024 nodes and around the longest text.
fn sized_texts() -> Vec<Vec<u8>> {
    let lots = [2 * NODES_MAX - 2, 2 * NODES_MAX, 2 * NODES_MAX + 2];
    let mut all: Vec<Vec<u8>> = lots.map(samples::members).to_vec();
    all.extend([TEXT_MAX, TEXT_MAX + 2].map(samples::members));
    let many = format!("{{{}}}", format!("{},", "a".repeat(30)).repeat(1_000));
    all.push(many.into_bytes());
    let lengths = [255, 256, 257, TEXT_MAX - 1, TEXT_MAX, TEXT_MAX + 1];
    all.extend(lengths.into_iter().flat_map(samples::digit_at_either_end));
    all
}

/// What the writer gave before, byte for byte, is accepted.  With an arrow it is
/// refused with 15 where it is to be written, and else written alike.
fn files_of_before() -> Compared {
    for &(text, stored) in samples::before::ARROWS {
        let want = Answer::accepted(text.len(), stored.len());
        let answer = archive::check(text, stored);
        same("check of a file of before", text, want, answer)?;
        let number = archive::write(text, &mut [0; FILE_MAX]).number;
        same("writing of it", text, RETIRED_ARROW, number)?;
    }
    for (text, stored) in samples::before::unchanged() {
        let want = Answer::accepted(text.len(), stored.len());
        let answer = archive::check(&text, stored);
        same("check of a file of six words", &text, want, answer)?;
        let mut written = vec![0; stored.len()];
        let answer = archive::write(&text, &mut written);
        same("writing of it", &text, want, answer)?;
        same("its bytes", &text, stored, &written[..])?;
    }
    Ok(())
}

fn run(counts: &mut Counts) -> Compared {
    files_of_before()?;
    for (text, _) in samples::before::ARROWS {
        counts.text(text, Care::Every)?;
    }
    for (text, _) in samples::before::unchanged() {
        counts.text(&text, Care::Some(30))?;
    }
    for sample in samples::all() {
        counts.text(sample.text, Care::Every)?;
        for length in 0..sample.text.len() {
            counts.writings(&sample.text[..length])?;
        }
    }
    for text in texts(SEED, GENERATED) {
        counts.text(&text, Care::Some(6))?;
    }
    for made in good_texts(SEED, GOOD) {
        counts.text(&made.text, Care::Some(6))?;
    }
    for made in old_texts(SEED, GOOD) {
        counts.text(&made.text, Care::Some(6))?;
    }
    for text in arrow_texts(SEED, ARROWS).iter().chain(&arrow_rows()) {
        counts.text(text, Care::Some(2))?;
    }
    for text in escape_texts(SEED, ESCAPES) {
        counts.text(&text, Care::Some(2))?;
    }
    for text in escape_rows().iter().step_by(SPARSELY) {
        counts.text(text, Care::Some(2))?;
    }
    for text in random_bytes(SEED, RANDOM_BYTES) {
        counts.text(&text, Care::Some(2))?;
    }
    let long = [sized_texts(), sized_forms("<-"), long_texts()].concat();
    for text in &long {
        counts.text(text, Care::Some(30))?;
    }
    counts.every_answer()
}

fn main() -> ExitCode {
    progress::begin("compare_files", "texts", Some(ABOUT));
    let mut counts = Counts::new();
    let outcome = run(&mut counts);
    finish("compare_files", &counts.summary(), outcome)
}
