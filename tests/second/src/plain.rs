//! The plain form: a text's value, written with nothing that could be left
//! out.
//!
//! It is written from this package's own tree of the text; the table is only
//! compared with it.  The converter takes no table, and reads by the old rules.

use crate::answer::{Answer, NODES_MAX, NODE_WORDS, NOT_THE_FILE, SKIP};
use crate::space;
use crate::token::{self, Form, Kind, Lexed};
use crate::tree::{self, kind, role, Rules, Value};
use crate::value::written;

type Children = [(u32, Value)];

/// The sign of an Interval, by its detail.
const SIGNS: [&[u8]; 12] = [
    b"", b"", b"<=*<=", b"<=*<", b"<*<=", b"<*<", b"<=*", b"<*", b"*<=", b"*<", b"*", b"..",
];

/// Writes the plain form of a text to the buffer's start; a refusal leaves the
/// buffer unchanged.
pub fn write(level: u32, text: &[u8], table: &[u32], buffer: &mut [u8]) -> Answer {
    written(text, of(level, text, table), buffer)
}

/// Writes the plain form of a text that is read by the old rules, as if with
/// room for 1,024 nodes, to the buffer's start; a refusal leaves the buffer
/// unchanged.
pub fn convert(level: u32, text: &[u8], buffer: &mut [u8]) -> Answer {
    let derived = tree::derived(Rules::Old, level, text, NODES_MAX * NODE_WORDS);
    let plain = derived.map(|(root, _)| form(text, &root));
    written(text, plain, buffer)
}

/// The plain form of a text that is read so, or the refusal of text and table.
fn of(level: u32, text: &[u8], table: &[u32]) -> Result<Vec<u8>, Answer> {
    let (root, words) = tree::derived(Rules::Today, level, text, table.len())?;
    if !table.starts_with(&words) {
        return Err(Answer::refused(NOT_THE_FILE, 0));
    }
    Ok(form(text, &root))
}

/// The plain form of a text with this value.
fn form(text: &[u8], root: &Value) -> Vec<u8> {
    let plain = Vec::with_capacity(text.len());
    let mut writer = Writer { text, plain };
    writer.value(root);
    writer.plain
}

struct Writer<'a> {
    text: &'a [u8],
    plain: Vec<u8>,
}

impl Writer<'_> {
    fn put(&mut self, bytes: &[u8]) {
        self.plain.extend(bytes);
    }

    fn value(&mut self, value: &Value) {
        let children = &value.children;
        match (value.kind, value.token) {
            (_, Some(token)) => self.literal(token, value.first, value.end),
            (kind::NESTING, _) => self.nesting(value),
            (kind::PAIR, _) => self.members(b"(", children, b")"),
            (kind::TUPLE, _) if attributes(children) == 1 => self.members(b"(", children, b",)"),
            (kind::TUPLE, _) => self.members(b"(", children, b")"),
            (kind::LOT, _) => self.members(b"{", children, b"}"),
            (kind::ARRAY, _) => self.members(b"(Array:{", children, b"})"),
            (kind::SET, _) => self.members(b"(Set:{", children, b"})"),
            (kind::BAG, _) => self.members(b"(Bag:{", children, b"})"),
            _ => self.interval(value),
        }
    }

    /// What stands in a bracket, with commas between.
    fn members(&mut self, open: &[u8], children: &Children, close: &[u8]) {
        self.put(open);
        let mut rest = children;
        while let Some((one, other, behind)) = first_member(rest) {
            self.value(one);
            if let Some(other) = other {
                self.put(b":");
                self.value(other);
            }
            if !behind.is_empty() {
                self.put(b",");
            }
            rest = behind;
        }
        self.put(close);
    }

    fn interval(&mut self, value: &Value) {
        let (high, low): (Vec<_>, Vec<_>) = value
            .children
            .iter()
            .partition(|(role, _)| *role == role::HIGH);
        self.put(b"[");
        low.iter().for_each(|(_, end)| self.value(end));
        self.put(SIGNS[value.detail as usize]);
        high.iter().for_each(|(_, end)| self.value(end));
        self.put(b"]");
    }

    /// `::` and a Text, once or more.
    fn nesting(&mut self, value: &Value) {
        for found in token::list(&self.text[..value.end], value.first) {
            match found {
                Lexed::Token(token) if matches!(token.kind, Kind::Text(_)) => {
                    self.literal(token.kind, token.first, token.end);
                }
                Lexed::Token(_) => self.put(b"::"),
                Lexed::End(_) | Lexed::NoToken(_) => {}
            }
        }
    }

    fn literal(&mut self, token: Kind, first: usize, end: usize) {
        let literal = &self.text[first..end];
        match token {
            Kind::Integer { .. } | Kind::Fraction | Kind::Bits | Kind::Blob => {
                self.without_joints(first, end);
            }
            Kind::Text(Form::Quoted) => self.segments(first, end),
            Kind::Text(Form::Word(Some(_))) => {
                self.plain.push(b'"');
                self.plain.extend(literal);
                self.plain.push(b'"');
            }
            _ => self.plain.extend(literal),
        }
    }

    /// A number, Bits or Blob: no dividing space, and no `_`.
    fn without_joints(&mut self, first: usize, end: usize) {
        let mut place = first;
        while place < end {
            place = match self.text[place] {
                b'_' => place + 1,
                byte => match space::skip(self.text, place) {
                    behind if behind > place => behind,
                    _ => {
                        self.plain.push(byte);
                        place + 1
                    }
                },
            };
        }
    }

    /// A quote stands nowhere inside a segment.
    fn segments(&mut self, first: usize, end: usize) {
        let mut place = first;
        while place < end {
            let inside = &self.text[place + 1..end];
            let length = inside.iter().take_while(|byte| **byte != b'"').count() + 2;
            self.plain.extend(&self.text[place..place + length]);
            place = space::skip(self.text, place + length);
        }
    }
}

fn attributes(children: &Children) -> usize {
    children
        .iter()
        .filter(|(role, _)| *role == role::VALUE)
        .count()
}

/// The first member: what is written, what behind a colon, and the children
/// behind the member.
fn first_member(children: &Children) -> Option<(&Value, Option<&Value>, &Children)> {
    Some(match children {
        [(role::THAT_BEFORE, that), (_, this), rest @ ..] => (this, Some(that), rest),
        [(role::NAME, name), (_, value), rest @ ..] => (name, Some(value), rest),
        [(_, one), (role::THAT_AFTER | role::COUNT, other), rest @ ..] => (one, Some(other), rest),
        [(_, one), rest @ ..] => (one, None, rest),
        [] => return None,
    })
}

/// A node less what writing may change.
#[derive(Clone, Copy, Debug, PartialEq, Eq)]
pub struct Turned {
    pub kind: u32,
    pub parent: u32,
    /// A that has one role, wherever it is written.
    pub role: u32,
    /// 0 of a Text.
    pub detail: u32,
    /// As far behind the node's index as it was in the table.
    pub skip: u32,
}

/// The nodes of a table, each this before its that, with the indices that
/// follow from it; and each one's index in the table.
pub fn turned(words: &[u32]) -> (Vec<Turned>, Vec<usize>) {
    let mut children = vec![Vec::new(); words.len() / NODE_WORDS];
    for (index, node) in words.chunks_exact(NODE_WORDS).enumerate().skip(1) {
        children[node[3] as usize].push(index);
    }
    for siblings in &mut children {
        let before = |index: &usize| words[index * NODE_WORDS + 4] == role::THAT_BEFORE;
        let thats: Vec<usize> = (0..siblings.len())
            .filter(|at| before(&siblings[*at]))
            .collect();
        for at in thats {
            siblings.swap(at, at + 1);
        }
    }
    let mut found = (Vec::new(), Vec::new());
    turn(words, &children, 0, 0, &mut found);
    found
}

fn turn(
    words: &[u32],
    children: &[Vec<usize>],
    index: usize,
    parent: u32,
    found: &mut (Vec<Turned>, Vec<usize>),
) {
    let node = &words[index * NODE_WORDS..][..NODE_WORDS];
    let here = found.0.len() as u32;
    found.0.push(Turned {
        kind: node[0],
        parent,
        role: match node[4] {
            role::THAT_BEFORE => role::THAT_AFTER,
            other => other,
        },
        detail: match node[0] {
            kind::TEXT => 0,
            _ => node[5],
        },
        skip: here + node[SKIP] - index as u32,
    });
    found.1.push(index);
    for child in &children[index] {
        turn(words, children, *child, here, found);
    }
}

#[cfg(test)]
mod tests;
