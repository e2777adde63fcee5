//! The path to a node: what it is to each node above it.
//!
//! `.speed` is the value of the attribute of that name, `[2]` a member or an
//! attribute without a name, counted from 0, `:this` and `:that` are the sides of
//! a pair, `:count` is a member's count, `:low`, `:high` and `:single` are of an
//! Interval, and `.` alone is the root.

use crate::literal::value;
use muon::{Branch, Kind, Role};
use std::iter::successors;

/// A word's characters without quotes, so that it is told from others.
fn shown(name: Branch) -> String {
    let value = value(name);
    let bare = value.trim_matches('"');
    let is_rest = |byte: u8| byte.is_ascii_alphanumeric() || byte == b'_';
    let is_word = bare.bytes().all(is_rest) && !bare.starts_with(|c: char| c.is_ascii_digit());
    match name.kind() == Kind::Text && is_word && !bare.is_empty() {
        true => bare.to_string(),
        false => value,
    }
}

/// The step from a node to its child.
fn step(parent: Branch, child: Branch) -> String {
    let side = format!(":{}", child.role());
    let before = parent
        .children()
        .take_while(|sibling| sibling.index() < child.index());
    let last = before.clone().last();
    let named = last.filter(|last| last.role() == Role::Name);
    let behind = child.next_sibling().map(|next| next.role());
    // a member begins with a this or a value
    let begun = before
        .filter(|sibling| [Role::This, Role::Value].contains(&sibling.role()))
        .count();
    match (parent.kind(), child.role()) {
        (Kind::Pair, _) => side,
        (_, Role::Value) => match named {
            Some(name) => format!(".{}", shown(name)),
            None => format!("[{begun}]"),
        },
        (_, Role::This) if behind == Some(Role::ThatAfter) => format!("[{begun}]{side}"),
        (_, Role::This) => format!("[{begun}]"),
        (_, Role::ThatAfter | Role::Count) => format!("[{}]{side}", begun - 1),
        _ => side,
    }
}

/// The path to a node.
pub fn path(branch: Branch) -> String {
    let way = successors(Some(branch), Branch::parent);
    let mut steps: Vec<String> = way
        .filter_map(|child| Some(step(child.parent()?, child)))
        .collect();
    steps.reverse();
    match steps.is_empty() {
        true => ".".to_string(),
        false => steps.concat(),
    }
}
