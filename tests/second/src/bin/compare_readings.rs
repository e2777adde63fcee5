//! Compares this package's readings with those of the verified archive:
//! number, place, count and every word of the lent table.  Checks of the
//! archive's own readings that old and new agree, and that the skips follow
//! from the parents, and bounds its time on long inputs.
//!
//! The texts are every sample, broken off at every byte and with bits
//! flipped, texts made by the grammar or nearly, arrows `<-` at many places,
//! escapes out of range in quotes, random bytes, rows of bytes that may be read
//! at once, every two groups of some base-64 characters, every two characters
//! before padding, and long ones.
//!
//! Exits with 1 at the first disagreement.

use muon::{Branch, Document};
use second::answer::{DEPTH_MAX, NEWER_FORM, NODE_WORDS, NO_ROOM, TEXT_MAX};
use second::compare::readings::{proved, same_reading, Reading};
use second::compare::{escapes_met, finish, in_quotes, same, skips, Compared, Difference};
use second::generate::{
    arrow_rows, arrow_texts, escape_rows, escape_texts, flipped, long_texts, paddings,
    random_bytes, row_texts, texts, two_groups, Random,
};
use second::progress;
use second::{samples, tree};
use std::iter::successors;
use std::process::ExitCode;
use std::time::{Duration, Instant};

/// Texts of a run, rounded: shown beside those that are done.
const ABOUT: usize = 677_000;
const SEED: u64 = 20_261_116;
const GENERATED: usize = 100_000;
const ARROWS: usize = 20_000;
const ESCAPES: usize = 20_000;
/// Readings that refuse an escape at least.
const REFUSED_ESCAPES: usize = 100_000;
const RANDOM_BYTES: usize = 4_000_000;
/// Of the texts with rows, one in so many; the tokens of all are compared.
const SPARSELY: usize = 11;
/// More words than 1,024 nodes take.
const WORDS_MAX: usize = 7_200;
/// Around those of one node, of two and of 1,024.
const ROOMS: [usize; 7] = [6, 7, 13, 14, 7_167, 7_168, 7_169];
/// The first of the words lent, none of which looks like a word of a node.
const LENT: u32 = 0xA5A5_0000;
const NO_LEVELS: [u32; 4] = [0, 3, 257, u32::MAX];
/// The answers a reading can give.
const NUMBERS: [usize; 11] = [0, 1, 2, 3, 4, 5, 6, 7, 8, 11, 15];
/// For one reading of a text of 32 KB, groups included, which are read once
/// more for each bracket around them; a quadratic scan takes far longer.
const TIME_BOUND: Duration = Duration::from_millis(250);

/// Demand 3, for the readings of one text into equal tables.
fn old_and_new(text: &[u8], length: usize, old: &Reading, new: &Reading) -> Compared {
    let agree = match old.answer.number {
        NEWER_FORM => new.answer.number == 0 || old.answer.place <= new.answer.place,
        _ => old == new,
    };
    if agree {
        return Ok(());
    }
    Err(Difference(format!(
        "levels 1 and 2 of b\"{}\" ({} bytes), {length} words\n  level 1: {:?}\n  level 2: {:?}",
        text.escape_ascii(),
        text.len(),
        old.answer,
        new.answer
    )))
}

/// Whether a node's kind, role and detail by name have its numbers behind them.
fn has_its_numbers(branch: &Branch) -> bool {
    let node = branch.node();
    let numbers = [
        branch.kind().number(),
        branch.role().number(),
        branch.detail().number(),
    ];
    numbers == [node.kind, node.role, node.detail]
}

/// That the package's document has these words, that the walk over its nodes
/// meets all of them in order, and that it gives the children of each alike in a
/// row and one by one.
fn walked(level: u32, text: &[u8], words: &[u32]) -> Compared {
    let count = words.len() / NODE_WORDS;
    let mut table = vec![0; words.len()];
    let document = Document::read(level, text, &mut table).map_err(|error| {
        Difference(format!(
            "a document of b\"{}\": {error}",
            text.escape_ascii()
        ))
    })?;
    same("words of the document", text, words, document.words())?;
    let mut open: Vec<Branch> = vec![document.root()];
    let mut met = 0;
    while let Some(branch) = open.pop() {
        same("node of the walk", text, met, branch.index())?;
        same("its numbers", text, true, has_its_numbers(&branch))?;
        met += 1;
        let children: Vec<Branch> = branch.children().collect();
        let siblings = successors(branch.first_child(), Branch::next_sibling);
        let indices = children.iter().map(Branch::index);
        same(
            "children",
            text,
            indices.eq(siblings.map(|one| one.index())),
            true,
        )?;
        let above = |child: &Branch| child.parent().map(|above| above.index());
        let named = children
            .iter()
            .all(|child| above(child) == Some(branch.index()));
        same("their parent", text, named, true)?;
        open.extend(children.into_iter().rev());
    }
    same("nodes of the walk", text, count, met)
}

/// The words that the nodes of a text take; 0 if it is refused.
fn need(text: &[u8]) -> usize {
    let answer = tree::read(2, text, &mut []);
    match answer.number {
        NO_ROOM => answer.count * NODE_WORDS,
        _ => 0,
    }
}

/// What was compared.
struct Counts {
    random: Random,
    texts: usize,
    readings: usize,
    answers: [usize; 16],
    /// Readings that refused an escape in quotes.
    escapes: usize,
    /// Nodes whose skips were checked.
    nodes: usize,
    slowest: Duration,
}

impl Counts {
    fn new() -> Counts {
        Counts {
            random: Random::new(SEED),
            texts: 0,
            readings: 0,
            answers: [0; 16],
            escapes: 0,
            nodes: 0,
            slowest: Duration::ZERO,
        }
    }

    /// The archive's reading, if it is ours too.
    fn compare(&mut self, level: u32, text: &[u8], length: usize) -> Result<Reading, Difference> {
        self.readings += 1;
        let theirs = same_reading(level, text, length, LENT)?;
        self.answers[theirs.answer.number as usize] += 1;
        self.escapes += usize::from(in_quotes(text, theirs.answer));
        if theirs.answer.number == 0 {
            let words = &theirs.words[..theirs.answer.count * NODE_WORDS];
            skips::follow_from_parents(text, words)?;
            walked(level, text, words)?;
            self.nodes += theirs.answer.count;
        }
        Ok(theirs)
    }

    fn both_levels(&mut self, text: &[u8], length: usize) -> Compared {
        let old = self.compare(1, text, length)?;
        let new = self.compare(2, text, length)?;
        old_and_new(text, length, &old, &new)
    }

    /// None, the most, some; and for an accepted text what it needs, a word
    /// less, a node less and a word of each node less.
    fn lengths(&mut self, text: &[u8]) -> Vec<usize> {
        let need = need(text);
        let mut lengths = vec![0, WORDS_MAX, self.random.below(WORDS_MAX + 1)];
        if need > 0 {
            let words = [need, need - 1, need - NODE_WORDS, need - need / NODE_WORDS];
            lengths.extend(words);
            lengths.push(self.random.below(need));
        }
        lengths.retain(|length| *length <= WORDS_MAX);
        lengths
    }

    /// At both levels with tables of several lengths, and at levels that
    /// aren't with one.
    fn text(&mut self, text: &[u8]) -> Compared {
        self.texts += 1;
        progress::step();
        for length in self.lengths(text) {
            self.both_levels(text, length)?;
        }
        for level in NO_LEVELS {
            let length = self.random.below(WORDS_MAX + 1);
            self.compare(level, text, length)?;
        }
        Ok(())
    }

    /// A text of one node if it is accepted: no room, too little, what it
    /// needs, and more.
    fn literal(&mut self, text: &[u8]) -> Compared {
        self.texts += 1;
        progress::step();
        for length in [0, NODE_WORDS - 1, NODE_WORDS, 2 * NODE_WORDS] {
            self.both_levels(text, length)?;
        }
        Ok(())
    }

    /// The sample with every room, broken off at every byte, and with a bit
    /// flipped.
    fn sample(&mut self, text: &[u8]) -> Compared {
        for length in ROOMS {
            self.both_levels(text, length)?;
        }
        for length in 0..=text.len() {
            self.text(&text[..length])?;
        }
        for flip in flipped(text, &mut self.random) {
            self.text(&flip)?;
        }
        Ok(())
    }

    /// The best of three readings counts, since other work may disturb one.
    fn long(&mut self, text: &[u8]) -> Compared {
        self.text(text)?;
        let mut table = [0; WORDS_MAX];
        let mut best = Duration::MAX;
        for _ in 0..3 {
            let start = Instant::now();
            proved(2, text, &mut table);
            best = best.min(start.elapsed());
        }
        self.slowest = self.slowest.max(best);
        if best > TIME_BOUND {
            return Err(Difference(format!(
                "time of b\"{}...\" ({} bytes): {best:?} is more than {TIME_BOUND:?}",
                text[..text.len().min(40)].escape_ascii(),
                text.len()
            )));
        }
        Ok(())
    }

    fn every_answer(&self) -> Compared {
        match NUMBERS.iter().find(|number| self.answers[**number] == 0) {
            None => escapes_met(self.escapes, REFUSED_ESCAPES),
            Some(number) => Err(Difference(format!("no reading answered {number}"))),
        }
    }

    fn summary(&self) -> String {
        let answers: Vec<String> = NUMBERS
            .iter()
            .map(|number| format!("{number}: {}", self.answers[*number]))
            .collect();
        format!(
            "{} texts, {} readings (answers {}; {} bad escapes), {} skips, slowest long text {:?}",
            self.texts,
            self.readings,
            answers.join(", "),
            self.escapes,
            self.nodes,
            self.slowest
        )
    }
}

/// `middle` between as many brackets as may be open, `inner` being its own.
fn nested(open: &str, middle: &[u8], close: &str, inner: usize) -> Vec<u8> {
    let times = (DEPTH_MAX - inner) / open.len();
    [
        open.repeat(times).as_bytes(),
        middle,
        close.repeat(times).as_bytes(),
    ]
    .concat()
}

/// Around 1,024 nodes, the longest text, and brackets around much.
fn sized_texts() -> Vec<Vec<u8>> {
    // long, and yet with room enough: so that its nodes are written
    let words = format!("{{{}}}", format!("{},", "a".repeat(30)).repeat(1_000));
    let mut all: Vec<Vec<u8>> = [2_046, 2_048, 2_050, TEXT_MAX, TEXT_MAX + 2]
        .map(samples::members)
        .to_vec();
    let mut spaced = vec![b' '; TEXT_MAX];
    spaced[0] = b'5';
    all.push(spaced.clone());
    spaced.push(b' ');
    all.push(spaced);
    for (open, close) in [
        ("(", ")"),
        ("{", "}"),
        ("[", "]"),
        ("({", "})"),
        ("([", "])"),
    ] {
        all.push(nested(open, words.as_bytes(), close, 1));
        all.push(nested(open, &samples::members(32_000), close, 1));
        all.push(nested(open, b"5", close, 0));
        all.push(nested(open, b"(5)", close, 0));
        all.push(nested(open, b"(Bag:{5})", close, 1));
        all.push(nested(open, b"(Bag:{5})", close, 2));
    }
    all
}

fn run(counts: &mut Counts) -> Compared {
    for sample in samples::all() {
        counts.sample(sample.text)?;
    }
    for (text, _) in samples::readings::SKIPS {
        counts.sample(text)?;
    }
    for text in texts(SEED, GENERATED) {
        counts.text(&text)?;
    }
    for text in arrow_texts(SEED, ARROWS).iter().chain(&arrow_rows()) {
        counts.text(text)?;
    }
    for text in escape_texts(SEED, ESCAPES).iter().chain(&escape_rows()) {
        counts.text(text)?;
    }
    for text in random_bytes(SEED, RANDOM_BYTES) {
        counts.text(&text)?;
    }
    for text in row_texts().iter().step_by(SPARSELY) {
        counts.text(text)?;
    }
    for text in two_groups().into_iter().chain(paddings()) {
        counts.literal(&text)?;
    }
    for text in sized_texts().into_iter().chain(long_texts()) {
        counts.long(&text)?;
    }
    counts.every_answer()
}

fn main() -> ExitCode {
    progress::begin("compare_readings", "texts", Some(ABOUT));
    let mut counts = Counts::new();
    let outcome = run(&mut counts);
    finish("compare_readings", &counts.summary(), outcome)
}
