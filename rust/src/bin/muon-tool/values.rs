//! The literals with their values.

use crate::literal::{is_literal, value};
use crate::path::path;
use muon::{Document, Role};

/// A line for each literal: line and column, path, kind and value, with a tab
/// between them.  The name of an attribute is a part of paths and has no line of
/// its own.
pub fn values(document: Document) -> String {
    let told = document
        .branches()
        .filter(|branch| is_literal(branch) && branch.role() != Role::Name);
    let mut lines = String::new();
    for literal in told {
        let (position, kind) = (literal.position(), literal.kind());
        let (path, value) = (path(literal), value(literal));
        lines += &format!("{position}\t{path}\t{kind}\t{value}\n");
    }
    lines
}
