//! Rules that the documents and definitions keep as a whole.

use super::index::Repository;
use super::markup::{Block, Part, Passage};
use super::references::Function;
use super::{Document, Finding};
use std::collections::BTreeSet;

/// The longest line of a definition, in characters.
const COLUMNS: usize = 120;

/// Lines of definitions that are too long.
pub fn columns(repository: &Repository) -> Vec<Finding> {
    let mut findings = Vec::new();
    let definitions = repository
        .sources()
        .filter(|(path, _)| path.contains("/specs/"));
    for (path, source) in definitions {
        for (at, line) in source.text.lines().enumerate() {
            let width = line.chars().count();
            if width > COLUMNS {
                findings.push(Finding::new(path, at + 1, format!("{width} columns")));
            }
        }
    }
    findings
}

/// Public functions whose contract docs/CONTRACTS.md does not list.
pub fn unlisted(repository: &Repository, listed: &BTreeSet<Function>) -> Vec<Finding> {
    let mut findings = Vec::new();
    let code = repository
        .sources()
        .filter(|(path, _)| path.starts_with("crates/"));
    for (path, source) in code {
        for function in &source.functions {
            let known = listed.contains(&(path.to_string(), function.clone()));
            if !known && function != "main" {
                let reason = format!("docs/CONTRACTS.md does not list {function}");
                findings.push(Finding::new(path, 1, reason));
            }
        }
    }
    findings
}

/// Public functions without a promise, or that ask something of their caller.
pub fn contracts(repository: &Repository) -> Vec<Finding> {
    let code = repository
        .sources()
        .filter(|(path, _)| path.starts_with("crates/") && path.ends_with(".rt"));
    code.flat_map(|(path, source)| unpromised(path, &source.text))
        .collect()
}

/// In a file of code. A contract stands between a function's head and the
/// line with the brace that opens its body.
pub fn unpromised(path: &str, text: &str) -> Vec<Finding> {
    let mut findings = Vec::new();
    let mut head: Option<Head> = None;
    for (at, line) in text.lines().enumerate() {
        let word = line.trim_start();
        if word.starts_with("pub fn ") || word.starts_with("pub extern ") {
            head = Some(Head {
                line: at + 1,
                promises: false,
            });
        }
        let Some(function) = &mut head else {
            continue;
        };
        if word.starts_with("requires") {
            let reason = "a public function has a requires".to_string();
            findings.push(Finding::new(path, function.line, reason));
        }
        function.promises |= word.starts_with("ensures");
        if word.ends_with('{') {
            if !function.promises {
                let reason = "a public function has no ensures".to_string();
                findings.push(Finding::new(path, function.line, reason));
            }
            head = None;
        }
    }
    findings
}

/// A public function, or a method, from its head to its body.
struct Head {
    line: usize,
    promises: bool,
}

/// Crates without a row in README's table, and crates with definitions that
/// its section on them does not name.
pub fn crates(repository: &Repository, readme: &Document) -> Vec<Finding> {
    let (mut rows, mut read) = (BTreeSet::new(), BTreeSet::new());
    let mut section = "";
    for block in &readme.blocks {
        match block {
            Block::Heading { text, .. } => section = text,
            Block::Table { heads, rows: found } if heads[0] == "crate" => {
                rows.extend(found.iter().flat_map(|row| codes(&row[0])));
            }
            Block::Table { rows, .. } if section == "How to read the definitions" => {
                read.extend(rows.iter().flatten().flat_map(codes));
            }
            Block::Passage(passage) if section == "How to read the definitions" => {
                read.extend(codes(passage));
            }
            _ => {}
        }
    }
    let mut findings = Vec::new();
    for name in repository
        .resolve("crates/*")
        .iter()
        .map(|path| &path["crates/".len()..])
    {
        if !rows.contains(name) {
            findings.push(Finding::new(
                &readme.path,
                1,
                format!("no row for the crate {name}"),
            ));
        }
        let has_specs = !repository
            .resolve(&format!("crates/{name}/specs"))
            .is_empty();
        let is_named = |code: &&String| code.split('/').any(|part| part == name);
        if has_specs && !read.iter().any(|code| is_named(&code)) {
            let reason = format!("'How to read the definitions' does not name {name}");
            findings.push(Finding::new(&readme.path, 1, reason));
        }
    }
    findings
}

fn codes(passage: &Passage) -> Vec<String> {
    let code = |part: &Part| match part {
        Part::Code { text, .. } => Some(text.clone()),
        Part::Prose(_) => None,
    };
    passage.parts.iter().filter_map(code).collect()
}

/// Decisions that are named by a number, as D7 in docs/MAP.md or as point 7
/// in a definition, and do not exist.
pub fn decisions(repository: &Repository, decisions: &str, map: &str) -> Vec<Finding> {
    let known: BTreeSet<&str> = decisions
        .lines()
        .filter_map(|line| line.split_once(". **").map(|(number, _)| number))
        .collect();
    let missing = |file: &str, text: &str, mark: &str| -> Vec<Finding> {
        let named = text
            .lines()
            .enumerate()
            .flat_map(|(at, line)| numbers(line, mark).map(move |number| (at + 1, number)));
        let missing = named.filter(|(_, number)| !known.contains(number));
        let finding = |(line, number): (usize, &str)| {
            Finding::new(file, line, format!("no decision {number}"))
        };
        missing.map(finding).collect()
    };
    let mut findings = missing("docs/MAP.md", map, "D");
    for (path, source) in repository.sources() {
        if path.contains("/specs/") {
            findings.extend(missing(path, &source.text, "DECISIONS.md, point "));
        }
    }
    findings
}

/// The numbers behind a mark that begins a word.
fn numbers<'a>(line: &'a str, mark: &'a str) -> impl Iterator<Item = &'a str> {
    line.match_indices(mark).filter_map(move |(at, _)| {
        let begins = !line[..at].ends_with(|c: char| c.is_alphanumeric());
        let behind = &line[at + mark.len()..];
        let end = behind
            .find(|c: char| !c.is_ascii_digit())
            .unwrap_or(behind.len());
        let ends = !behind[end..].starts_with(|c: char| c.is_alphanumeric());
        (begins && ends && end > 0).then(|| &behind[..end])
    })
}

#[cfg(test)]
mod tests {
    use super::*;

    #[test]
    fn numbers_behind_a_mark() {
        let found: Vec<&str> = numbers("D1, D2; D800 is 0cxD8 and DF D3", "D").collect();
        assert_eq!(found, ["1", "2", "800", "3"]);
    }

    fn reasons(text: &str) -> Vec<String> {
        let findings = unpromised("crates/a/src/lib.rt", text);
        findings.into_iter().map(|finding| finding.reason).collect()
    }

    #[test]
    fn public_functions_promise_and_ask_nothing() {
        let promise = "    ensures { r }\n{\n}\n";
        assert!(reasons(&format!("pub fn a() -> u8\n{promise}")).is_empty());
        assert!(reasons(&format!("fn a() -> u8\n    requires {{ x }}\n{promise}")).is_empty());
        assert_eq!(reasons("pub fn a()\n{\n}\n").len(), 1);
        assert_eq!(
            reasons(&format!("pub fn a()\n    requires {{ x }}\n{promise}")).len(),
            1
        );
        assert_eq!(reasons("pub fn a() {\n}\n\nfn b()\n{\n}\n").len(), 1);
        assert_eq!(reasons("    pub fn a(self) -> u8 {\n    }\n").len(), 1);
        let closure = "pub fn a<F: Fn(u8) -> bool>(f: F)\n";
        let callable = "    requires { F.IsAlwaysCallable f }\n";
        let found = reasons(&format!("{closure}{callable}{promise}"));
        assert_eq!(found.len(), 1);
    }
}
