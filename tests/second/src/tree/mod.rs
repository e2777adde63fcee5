//! The reader at levels 1 and 2.

mod parse;

pub(crate) use parse::{kind, role};

use crate::answer::{Answer, LEVEL, NODES_MAX, NODE_WORDS, NOT_UTF8, SKIP, TEXT_MAX, TOO_LONG};
use crate::{front, token, utf8};

/// The word of a node that has its parent's index.
const PARENT: usize = 3;

/// A value and the values it holds, each with its role.
#[derive(Clone, Debug)]
pub(crate) struct Value {
    pub kind: u32,
    pub first: usize,
    pub end: usize,
    pub detail: u32,
    /// What the value is as one token, if it is one.
    pub token: Option<token::Kind>,
    /// A Text or a Nesting not in a group: it may name an attribute.
    is_name: bool,
    pub children: Vec<(u32, Value)>,
}

/// What a reading makes of the arrow `<-` at a place where it may stand.
#[derive(Clone, Copy, Debug, PartialEq, Eq)]
pub enum Rules {
    /// It is refused.
    Today,
    /// It makes a pair, as it did until it was retired.
    Old,
}

/// Reads `text` by today's rules; a refusal leaves the table unchanged.
pub fn read(level: u32, text: &[u8], table: &mut [u32]) -> Answer {
    read_by(Rules::Today, level, text, table)
}

/// The same by these rules.
pub fn read_by(rules: Rules, level: u32, text: &[u8], table: &mut [u32]) -> Answer {
    match derived(rules, level, text, table.len()) {
        Ok((_, words)) => {
            table[..words.len()].copy_from_slice(&words);
            Answer::accepted(text.len(), words.len() / NODE_WORDS)
        }
        Err(refusal) => refusal,
    }
}

/// The value of a text and the words of its nodes, if a table of so many
/// words has room for them.
pub(crate) fn derived(
    rules: Rules,
    level: u32,
    text: &[u8],
    table_len: usize,
) -> Result<(Value, Vec<u32>), Answer> {
    let root = read_root(rules, level, text)?;
    let mut words = Vec::new();
    write_nodes(&root, 0, 0, &mut words);
    write_skips(&mut words);
    let count = words.len() / NODE_WORDS;
    let room = NODES_MAX.min(table_len / NODE_WORDS);
    if count > room {
        return Err(Answer::no_room(text.len(), count));
    }
    Ok((root, words))
}

fn read_root(rules: Rules, level: u32, text: &[u8]) -> Result<Value, Answer> {
    if level != 1 && level != 2 {
        return Err(Answer::refused(LEVEL, 0));
    }
    if text.len() > TEXT_MAX {
        return Err(Answer::refused(TOO_LONG, 0));
    }
    let bad = utf8::first_bad(text);
    if bad < text.len() {
        return Err(Answer::refused(NOT_UTF8, bad));
    }
    parse::whole(rules, level, &token::list(text, front::begin(text)))
}

/// Adds the words of `value` and of all it holds, parent first; each skip is
/// written when all the parents are.
fn write_nodes(value: &Value, parent: u32, role: u32, words: &mut Vec<u32>) {
    let index = (words.len() / NODE_WORDS) as u32;
    words.extend([
        value.kind,
        value.first as u32,
        value.end as u32,
        parent,
        role,
        value.detail,
        0,
    ]);
    for (role, child) in &value.children {
        write_nodes(child, index, *role, words);
    }
}

/// The index just past each node's last descendant, or past itself.  It is told
/// from the parents alone: every node in turn is the last one so far of itself
/// and of all above it.
fn write_skips(words: &mut [u32]) {
    for last in 0..words.len() / NODE_WORDS {
        let mut index = last;
        loop {
            let node = &mut words[index * NODE_WORDS..][..NODE_WORDS];
            node[SKIP] = last as u32 + 1;
            if index == 0 {
                break;
            }
            index = node[PARENT] as usize;
        }
    }
}

#[cfg(test)]
mod tests;
