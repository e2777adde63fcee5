//! An accepted text and others that are it laid out anew, as the archive reads
//! them.

use super::forms::{piece, value};
use super::readings::{lent, same_reading};
use super::{accepted_bytes, same, Compared, Difference};
use crate::answer::{Answer, NODE_WORDS, NOT_UTF8, SKIP, TEXT_MAX, TOO_LONG};
use crate::layout::relaid;
use crate::utf8;
use std::fmt::Debug;

/// The first of the words lent for a text, and for it laid out anew.  None of
/// them is in both, and none looks like a word of a node.
const LENT: [u32; 2] = [0xA5A5_0000, 0x5A5A_0000];
/// A node's kind, parent, role, detail and skip.
const KEPT: [usize; 5] = [0, 3, 4, 5, SKIP];

/// A text that is accepted at a level.
pub struct Accepted<'a> {
    level: u32,
    pub text: &'a [u8],
    words: Vec<u32>,
    values: Vec<Option<Value>>,
    form: Vec<u8>,
}

/// A value call's number, and the value as bytes.
type Value = (u32, Vec<u8>);

/// How a text laid out anew is read.
pub enum Found {
    /// With the same nodes, so many; of so many the values were compared.
    Same { nodes: usize, values: usize },
    /// With this number.
    Refused(u32),
}

impl<'a> Accepted<'a> {
    /// The text as both programs read it, if they accept it.
    pub fn read(level: u32, text: &'a [u8]) -> Result<Option<Accepted<'a>>, Difference> {
        let (answer, words) = read(level, text, muon::TABLE_MAX, LENT[0])?;
        if answer.number != 0 {
            return Ok(None);
        }
        Ok(Some(Accepted {
            level,
            text,
            values: values(text, &words)?,
            form: form(level, text, &words, 2 * text.len())?,
            words,
        }))
    }

    /// That another text, which is this one laid out anew, is refused for its
    /// length or its bytes, or is accepted with the same nodes, values and plain
    /// form.
    pub fn compare(&self, other: &[u8]) -> Result<Found, Difference> {
        related(self.text, other, true)?;
        let count = self.words.len() / NODE_WORDS;
        // with words to spare, or none
        let length = self.words.len() + other.len() % (2 * NODE_WORDS);
        let (answer, words) = read(self.level, other, length, LENT[1])?;
        let refusal = refusal(other);
        let want = refusal.unwrap_or(Answer::accepted(other.len(), count));
        self.same("answers", other, want, answer)?;
        if let Some(refusal) = refusal {
            return Ok(Found::Refused(refusal.number));
        }
        self.same("nodes", other, nodes(&self.words), nodes(&words))?;
        let theirs = values(other, &words)?;
        self.same("values", other, &self.values, &theirs)?;
        let theirs = form(self.level, other, &words, self.form.len())?;
        self.same("plain forms", other, &self.form, &theirs)?;
        Ok(Found::Same {
            nodes: count,
            values: self.values.iter().flatten().count(),
        })
    }

    fn same<T: PartialEq + Debug>(&self, what: &str, other: &[u8], one: T, two: T) -> Compared {
        if one == two {
            return Ok(());
        }
        Err(Difference(format!(
            "{what} at level {}\n  b\"{}\": {one:?}\n  laid out as b\"{}\": {two:?}",
            self.level,
            self.text.escape_ascii(),
            other.escape_ascii()
        )))
    }
}

/// That one of two texts is the other laid out anew, or is not; told of both
/// ways.
pub fn related(text: &[u8], other: &[u8], want: bool) -> Compared {
    if relaid(text, other) == want && relaid(other, text) == want {
        return Ok(());
    }
    Err(Difference(format!(
        "b\"{}\" and b\"{}\": laid out anew is to be {want}",
        text.escape_ascii(),
        other.escape_ascii()
    )))
}

/// What a text is refused with for its length or its bytes, which other space may
/// give or take.
pub fn refusal(text: &[u8]) -> Option<Answer> {
    let bad = utf8::first_bad(text);
    match text.len() {
        length if length > TEXT_MAX => Some(Answer::refused(TOO_LONG, 0)),
        length if length > bad => Some(Answer::refused(NOT_UTF8, bad)),
        _ => None,
    }
}

/// That a level which refuses a text, though not for its length or its bytes,
/// refuses another that is it laid out anew: else it would be this other one
/// laid out anew, and accepted.
pub fn refused_too(level: u32, text: &[u8], other: &[u8]) -> Compared {
    related(text, other, true)?;
    match Accepted::read(level, other)? {
        None => Ok(()),
        Some(_) => Err(Difference(format!(
            "level {level} refuses b\"{}\", but not b\"{}\"",
            text.escape_ascii(),
            other.escape_ascii()
        ))),
    }
}

/// The answer of both programs and the words of the nodes; those behind them,
/// or all if it is a refusal, are as they were.
fn read(
    level: u32,
    text: &[u8],
    length: usize,
    first: u32,
) -> Result<(Answer, Vec<u32>), Difference> {
    let mut read = same_reading(level, text, length, first)?;
    let used = match read.answer.number {
        0 => read.answer.count * NODE_WORDS,
        _ => 0,
    };
    let (before, behind) = (&lent(length, first)[used..], &read.words[used..]);
    same("words behind the nodes", text, before, behind)?;
    read.words.truncate(used);
    Ok((read.answer, read.words))
}

/// What is kept of each node.
fn nodes(words: &[u32]) -> Vec<[u32; KEPT.len()]> {
    let nodes = words.chunks_exact(NODE_WORDS);
    nodes.map(|node| KEPT.map(|at| node[at])).collect()
}

/// The value of each node that is a literal with one.
fn values(text: &[u8], words: &[u32]) -> Result<Vec<Option<Value>>, Difference> {
    let nodes = words.chunks_exact(NODE_WORDS).enumerate();
    let told = nodes.map(|(index, node)| told(node[0], piece(text, words, index)));
    told.collect()
}

fn told(kind: u32, piece: &[u8]) -> Result<Option<Value>, Difference> {
    let Some((answer, value)) = value(kind, piece) else {
        return Ok(None);
    };
    let place = if answer.number == 0 { piece.len() } else { 0 };
    same("place of a value", piece, place, answer.place)?;
    Ok(Some((answer.number, value)))
}

/// The archive's plain form, in so many bytes.
fn form(level: u32, text: &[u8], words: &[u32], length: usize) -> Result<Vec<u8>, Difference> {
    let write = |form: &mut [u8]| muon::plain::write(level, text, words, form).into();
    let (answer, form) = accepted_bytes(length, write);
    let want = Answer::accepted(text.len(), form.len());
    same("answer of the plain form", text, want, answer)?;
    Ok(form)
}
