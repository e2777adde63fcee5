//! Lays accepted texts out anew and compares how the verified archive reads
//! them: accepted at the same level, with the same kinds, parents, roles,
//! details and skips, the same values and the same plain form; every word that
//! it writes, places too, is this package's.  With bytes in a comment that are
//! not UTF-8, or a byte too many, they are refused, and nothing is written.
//!
//! The texts are every sample, with space put in before tokens and at every
//! byte, texts rich in space, generated and damaged ones, literals, rows, and
//! long ones; every stretch is replaced, some or one, and one is made so long
//! that the text has 32,768 bytes, and 32,769.  Of all short texts of some bytes
//! each is compared with the one that has single blanks.  What is refused is
//! refused again, and what is nearly a text laid out anew is not taken for it.
//!
//! Exits with 1 at the first disagreement.

use second::answer::{NOT_UTF8, TEXT_MAX};
use second::compare::forms::LEVELS;
use second::compare::layouts::{refusal, refused_too, related, Accepted, Found};
use second::compare::{enough, finish, Compared, Difference};
use second::generate::{
    deep_forms, escape_texts, every, good_texts, head_forms, laid, laid_short, long_texts, pieces,
    random_packed_pieces, roomy_texts, row_texts, sized_forms, space, spoiled_one, spread,
    stretched_to, texts, Choice, Random, MISSES,
};
use second::layout::places::{Place, Places, PLACES};
use second::layout::{changed, cut, plainly, stretches, Change};
use second::progress;
use second::samples;
use second::samples::readings::PLAIN;
use std::ops::Range;
use std::process::ExitCode;

/// Texts of a run, rounded: shown beside those that are done.
const ABOUT: usize = 89_000;
const SEED: u64 = 20_261_127;
const GENERATED: usize = 45_000;
const GOOD: usize = 12_000;
const LITERALS: usize = 8_000;
/// So many times each sample gets space before its tokens, and each text that is
/// rich in space is made.
const TIMES: usize = 4;
/// Of the texts with rows, one in so many.
const SPARSELY: usize = 29;
/// Of the texts, one in so many is brought to its full length.
const FULLY: usize = 16;
/// The bytes of short texts, and the most of them.
const SHORT: [(&[u8], u32); 2] = [(b"1-./_\"` \n(,)x", 5), (b"0b1\"` \n:", 6)];

/// What was compared.
struct Counts {
    random: Random,
    /// Accepted ones, once for each level.
    texts: usize,
    pairs: usize,
    nodes: usize,
    values: usize,
    /// Pairs in which new space has a quotation mark, `#!`, a character of
    /// several bytes.
    quotes: usize,
    lines: usize,
    characters: usize,
    /// Stretches of these pairs that are other ones, by their places.
    places: [usize; PLACES],
    /// Pairs of the longest texts.
    longest: usize,
    too_long: usize,
    not_utf8: usize,
    /// Refused texts that are refused when laid out anew.
    refused: usize,
    /// Pairs of all short texts.
    short: usize,
    /// By what was done.
    misses: [usize; MISSES.len()],
}

impl Counts {
    fn new() -> Counts {
        Counts {
            random: Random::new(SEED),
            texts: 0,
            pairs: 0,
            nodes: 0,
            values: 0,
            quotes: 0,
            lines: 0,
            characters: 0,
            places: [0; PLACES],
            longest: 0,
            too_long: 0,
            not_utf8: 0,
            refused: 0,
            short: 0,
            misses: [0; MISSES.len()],
        }
    }

    /// An accepted text with other space.
    fn laid(&mut self, accepted: &Accepted, places: &Places, changes: &[Change]) -> Compared {
        let other = changed(accepted.text, changes);
        if other == accepted.text {
            return Ok(());
        }
        match self.pair(accepted, &other)? {
            0 => {
                self.longest += usize::from(other.len() == TEXT_MAX);
                self.met(accepted.text, places, changes);
            }
            NOT_UTF8 => self.not_utf8 += 1,
            _ => self.too_long += usize::from(other.len() == TEXT_MAX + 1),
        }
        Ok(())
    }

    /// The number of the other's reading, if it is as it has to be.
    fn pair(&mut self, accepted: &Accepted, other: &[u8]) -> Result<u32, Difference> {
        match accepted.compare(other)? {
            Found::Refused(number) => Ok(number),
            Found::Same { nodes, values } => {
                self.pairs += 1;
                self.nodes += nodes;
                self.values += values;
                Ok(0)
            }
        }
    }

    fn met(&mut self, text: &[u8], places: &Places, changes: &[Change]) {
        let has = |is: fn(&[u8]) -> bool| changes.iter().any(|(_, space)| is(space));
        self.quotes += usize::from(has(|space| space.contains(&b'"')));
        self.lines += usize::from(has(|space| space.windows(2).any(|two| two == b"#!")));
        self.characters += usize::from(has(|space| !space.is_ascii()));
        for (stretch, space) in changes {
            let is_other = text[stretch.clone()] != space[..];
            self.places[places.of(stretch) as usize] += usize::from(is_other);
        }
    }

    /// A text at both levels, laid out anew in several ways.
    fn text(&mut self, text: &[u8]) -> Compared {
        let stretches = stretches(text);
        for level in LEVELS {
            match Accepted::read(level, text)? {
                Some(accepted) => self.accepted(&accepted, &stretches)?,
                None if stretches.is_empty() || refusal(text).is_some() => (),
                None => {
                    let changes = laid(&stretches, Choice::Every, &mut self.random);
                    refused_too(level, text, &changed(text, &changes))?;
                    self.refused += 1;
                }
            }
        }
        Ok(())
    }

    fn accepted(&mut self, accepted: &Accepted, stretches: &[Range<usize>]) -> Compared {
        let text = accepted.text;
        self.texts += 1;
        progress::step();
        related(text, text, true)?;
        self.misses(text)?;
        if stretches.is_empty() {
            return Ok(());
        }
        let places = Places::new(text);
        for changes in self.ways(text.len(), stretches) {
            self.laid(accepted, &places, &changes)?;
        }
        Ok(())
    }

    /// Ways to lay out a text of this length, now and then with its full length
    /// and a byte more.
    fn ways(&mut self, length: usize, stretches: &[Range<usize>]) -> Vec<Vec<Change>> {
        let random = &mut self.random;
        let mut ways = vec![
            laid(stretches, Choice::Every, random),
            laid(stretches, Choice::Some, random),
            laid(stretches, Choice::One, random),
            laid_short(stretches, random),
            spoiled_one(stretches, random),
        ];
        if random.once_in(FULLY) {
            let full = [TEXT_MAX, TEXT_MAX + 1];
            ways.extend(full.map(|to| stretched_to((length, to), stretches, random)));
        }
        ways
    }

    /// What is nearly an accepted text laid out anew.
    fn misses(&mut self, text: &[u8]) -> Compared {
        for (index, (_, miss)) in MISSES.iter().enumerate() {
            if let Some(other) = miss(text, &mut self.random) {
                related(text, &other, false)?;
                self.misses[index] += 1;
            }
        }
        Ok(())
    }

    /// A sample, with space before its tokens, and with space at every byte.
    fn sample(&mut self, text: &[u8]) -> Compared {
        self.text(text)?;
        for _ in 0..TIMES {
            let other = spread(text, &mut self.random);
            self.text(&other)?;
        }
        for at in 0..=text.len() {
            let change = (at..at, space(&mut self.random));
            self.text(&changed(text, &[change]))?;
        }
        Ok(())
    }

    /// A short text, which is read as the one with single blanks is.
    fn short(&mut self, text: &[u8]) -> Compared {
        let plain = plainly(text);
        if plain == text || cut(text).is_none() {
            return Ok(());
        }
        for level in LEVELS {
            match Accepted::read(level, &plain)? {
                Some(accepted) => {
                    self.pair(&accepted, text)?;
                    self.short += 1;
                }
                None => refused_too(level, &plain, text)?,
            }
        }
        Ok(())
    }

    /// What was met, how often, and how often it is to be met at least.
    fn listed(&self) -> [(&'static str, usize, usize); 17] {
        let place = |place| self.places[place as usize];
        [
            ("pairs", self.pairs, 250_000),
            ("nodes", self.nodes, 700_000),
            ("values", self.values, 400_000),
            ("quotation mark in new space", self.quotes, 25_000),
            ("#! in it", self.lines, 25_000),
            ("character of several bytes in it", self.characters, 70_000),
            ("new space at the start", place(Place::Start), 50_000),
            ("behind a front", place(Place::BehindFront), 10_000),
            ("inside a literal", place(Place::InLiteral), 300_000),
            ("between segments", place(Place::BetweenSegments), 25_000),
            ("between tokens", place(Place::BetweenTokens), 350_000),
            ("at the end", place(Place::End), 50_000),
            ("pairs with 32,768 bytes", self.longest, 3_000),
            ("refusals 2 at 32,769", self.too_long, 3_000),
            ("refusals 3", self.not_utf8, 50_000),
            ("refused texts laid out anew", self.refused, 60_000),
            ("pairs of all short texts", self.short, 40_000),
        ]
    }

    fn often_enough(&self) -> Compared {
        let misses = MISSES.iter().zip(self.misses);
        let misses = misses.map(|((what, _), times)| (*what, times, 10_000));
        let mut all = self.listed().into_iter().chain(misses);
        all.try_for_each(|(what, times, least)| enough(what, times, least))
    }

    fn summary(&self) -> String {
        let listed = self.listed().into_iter();
        let each = listed.map(|(what, times, _)| format!(", {what}: {times}"));
        format!(
            "{} texts{}, near misses: {}",
            self.texts,
            each.collect::<String>(),
            self.misses.iter().sum::<usize>()
        )
    }
}

fn run(counts: &mut Counts) -> Compared {
    for sample in samples::all() {
        counts.sample(sample.text)?;
    }
    for (text, _) in PLAIN {
        counts.sample(text)?;
    }
    for _ in 0..TIMES {
        for text in roomy_texts(&mut counts.random) {
            counts.text(&text)?;
        }
    }
    for text in texts(SEED, GENERATED) {
        counts.text(&text)?;
    }
    for made in good_texts(SEED, GOOD) {
        counts.text(&made.text)?;
    }
    let literals = [
        pieces(SEED, LITERALS),
        random_packed_pieces(SEED, LITERALS),
        escape_texts(SEED, LITERALS),
    ];
    for text in literals.iter().flatten() {
        counts.text(text)?;
    }
    for text in row_texts().iter().step_by(SPARSELY) {
        counts.text(text)?;
    }
    for text in [deep_forms("->"), sized_forms("->"), head_forms()].concat() {
        let other = spread(&text, &mut counts.random);
        counts.text(&other)?;
    }
    for text in long_texts() {
        counts.text(&text)?;
    }
    for (alphabet, longest) in SHORT {
        for text in (0..=longest).flat_map(|length| every(alphabet, length)) {
            counts.short(&text)?;
        }
    }
    counts.often_enough()
}

fn main() -> ExitCode {
    progress::begin("compare_layout", "texts", Some(ABOUT));
    let mut counts = Counts::new();
    let outcome = run(&mut counts);
    finish("compare_layout", &counts.summary(), outcome)
}
