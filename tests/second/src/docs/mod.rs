//! The repository's documents: whether what they name exists, and the answers
//! that they show.
//!
//! Documents are README.md, docs/*.md and the comments of include/muon.h.
//! How they write what is checked:
//!
//! * a path, from the root or below `crates/`: `crates/rules/specs/Rule.antt`,
//!   `rules/specs/Rule.antt`; the name of a file, `Rule.antt`; a must-fail
//!   edit, `text/upper_bound_excluded`;
//! * behind a path and a colon, or in front of `in` and a path, names that are
//!   defined in that file; behind the word "clause" one that stands in it;
//! * a function, `crate::module::function`, and further ones of its module;
//! * any other word in code quotes is defined somewhere;
//! * what is gone is struck through and not checked;
//! * examples: see [`examples`].

pub mod examples;
pub mod index;
pub mod markup;
pub mod references;
pub mod rules;
pub mod shapes;

/// What is wrong, and where.
#[derive(Clone, Debug, PartialEq, Eq, PartialOrd, Ord)]
pub struct Finding {
    pub file: String,
    pub line: usize,
    pub reason: String,
}

impl Finding {
    pub fn new(file: &str, line: usize, reason: String) -> Finding {
        Finding {
            file: file.to_string(),
            line,
            reason,
        }
    }
}

/// A document: its path below the root, and its blocks.
pub struct Document {
    pub path: String,
    pub blocks: Vec<markup::Block>,
}

impl Document {
    pub fn new(path: &str, text: &str) -> Document {
        let blocks = if path.ends_with(".h") {
            markup::blocks(&markup::comments(text))
        } else {
            markup::blocks(text)
        };
        Document {
            path: path.to_string(),
            blocks,
        }
    }
}
