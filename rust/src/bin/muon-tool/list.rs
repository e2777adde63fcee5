//! The nodes: in numbers, as the program `muon` lists them, or as a tree.

use crate::literal::is_literal;
use crate::quoting::shown;
use muon::{Branch, Document, Role, NODE_WORDS};
use std::iter::successors;

/// Level and count, then the words of each node.
pub fn numbers(document: Document) -> String {
    let nodes = document.words().chunks_exact(NODE_WORDS);
    let mut lines = format!("ok {} {}\n", document.level(), nodes.len());
    for node in nodes {
        let words: Vec<String> = node.iter().map(u32::to_string).collect();
        lines += &(words.join(" ") + "\n");
    }
    lines
}

/// How many nodes are above it.
fn depth(branch: Branch) -> usize {
    successors(branch.parent(), Branch::parent).count()
}

/// Line and column of each node; then two spaces for each node above it, its
/// role, its kind, and the bytes of a literal.
pub fn tree(document: Document) -> String {
    let branches = document.branches();
    let positions: Vec<String> = branches
        .map(|branch| branch.position().to_string())
        .collect();
    let widest = positions.iter().map(String::len).max().unwrap_or(0);
    let mut lines = String::new();
    for (branch, position) in document.branches().zip(&positions) {
        let indent = 2 * depth(branch);
        lines += &format!("{position:widest$}  {:indent$}", "");
        if branch.role() != Role::Root {
            lines += &format!("{} ", branch.role());
        }
        lines += &branch.kind().to_string();
        if is_literal(&branch) {
            lines += &format!(" {}", shown(branch.bytes()));
        }
        lines.push('\n');
    }
    lines
}
