//! One value, by its path.

use crate::failure::Failure;
use crate::literal::{is_literal, value};
use crate::path::path;
use crate::quoting::shown;
use muon::{Branch, Document, Kind, Role};
use std::iter::successors;

/// The path that is asked for: a name alone is an attribute of the root.
pub fn asked(path: &[u8]) -> Vec<u8> {
    match path {
        [b'.' | b'[' | b':', ..] => path.to_vec(),
        _ => [b".", path].concat(),
    }
}

/// Whether a node is at a path; names of attributes are at none.
fn is_at(node: &Branch, asked: &[u8]) -> bool {
    node.role() != Role::Name && path(*node).as_bytes() == asked
}

/// The nodes at the first part of the way to a node that has more than one.
fn repeated(node: Branch) -> Option<Vec<Branch>> {
    let mut way: Vec<Branch> = successors(Some(node), Branch::parent).collect();
    way.reverse();
    way.windows(2).find_map(|step| {
        let part = path(step[1]);
        let at_part = |child: &Branch| is_at(child, part.as_bytes());
        let nodes: Vec<Branch> = step[0].children().filter(at_part).collect();
        (nodes.len() > 1).then_some(nodes)
    })
}

/// The value of the literal at a path, with a line's end.  A Text is given as it
/// is, unless it is to be shown on a terminal.
pub fn get(
    name: &str,
    document: Document,
    asked: &[u8],
    is_terminal: bool,
) -> Result<String, Failure> {
    let Some(node) = document.branches().find(|node| is_at(node, asked)) else {
        let asked = shown(asked);
        return Err(Failure::Refused(format!(
            "{name}: no value is at {asked}\n"
        )));
    };
    let said = |at: Branch, what: &str| {
        let (position, path) = (at.position(), path(at));
        Failure::Refused(format!("{name}:{position}: {path} {what}\n"))
    };
    if let Some(nodes) = repeated(node) {
        return Err(said(nodes[1], &format!("is there {}", times(nodes.len()))));
    }
    match node.kind() {
        _ if !is_literal(&node) => Err(said(node, &format!("is a bracket, {}", of(node.kind())))),
        Kind::Integer if node.integer().is_err() => Err(said(node, "is an Integer out of range")),
        _ => Ok(given(node, is_terminal) + "\n"),
    }
}

fn times(count: usize) -> String {
    match count {
        2 => "twice".to_string(),
        _ => format!("{count} times"),
    }
}

fn of(kind: Kind) -> String {
    match kind {
        Kind::Array | Kind::Interval => format!("an {kind}"),
        _ => format!("a {kind}"),
    }
}

fn given(literal: Branch, is_terminal: bool) -> String {
    match literal.to_text() {
        Ok(text) if !is_terminal => text,
        _ => value(literal),
    }
}
