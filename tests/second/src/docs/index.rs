//! The files of the repository, and what is defined in each.

use std::collections::{BTreeMap, BTreeSet};
use std::fs;
use std::io;
use std::path::{Path, PathBuf};

/// What a file of definitions or code holds.
#[derive(Debug, Default)]
pub struct Source {
    /// All that is defined.
    pub names: BTreeSet<String>,
    /// Its public functions.
    pub functions: BTreeSet<String>,
    pub text: String,
}

pub struct Repository {
    root: PathBuf,
    /// Files and directories, but for what is built.
    paths: BTreeSet<String>,
    sources: BTreeMap<String, Source>,
}

impl Repository {
    pub fn new(root: &Path) -> io::Result<Repository> {
        let mut repository = Repository {
            root: root.to_path_buf(),
            paths: BTreeSet::new(),
            sources: BTreeMap::new(),
        };
        repository.add(root, "")?;
        Ok(repository)
    }

    fn add(&mut self, directory: &Path, below: &str) -> io::Result<()> {
        for entry in fs::read_dir(directory)? {
            let entry = entry?;
            let name = entry.file_name().to_string_lossy().into_owned();
            if [".git", "target", "out"].contains(&name.as_str()) {
                continue;
            }
            let path = format!("{below}{name}");
            if entry.file_type()?.is_dir() {
                self.add(&entry.path(), &format!("{path}/"))?;
            } else if let Some(read) = reader(&path) {
                self.sources
                    .insert(path.clone(), read(&fs::read_to_string(entry.path())?));
            }
            self.paths.insert(path);
        }
        Ok(())
    }

    pub fn read(&self, path: &str) -> io::Result<String> {
        fs::read_to_string(self.root.join(path))
    }

    pub fn sources(&self) -> impl Iterator<Item = (&str, &Source)> {
        self.sources
            .iter()
            .map(|(path, source)| (path.as_str(), source))
    }

    pub fn source(&self, path: &str) -> Option<&Source> {
        self.sources.get(path)
    }

    pub fn is_crate(&self, name: &str) -> bool {
        self.paths.contains(&format!("crates/{name}"))
    }

    /// Whether a name is defined in some file.
    pub fn defines(&self, name: &str) -> bool {
        self.sources
            .values()
            .any(|source| source.names.contains(name))
    }

    /// The files and directories that a path may mean, from the root or below
    /// `crates/` or a crate; `*` stands for any part of a name.
    pub fn resolve(&self, path: &str) -> Vec<String> {
        let path = path.trim_end_matches('/').replace("NAME", "*");
        if path.contains("/out/") && self.root.join(&path).exists() {
            return vec![path];
        }
        let wanted = [
            path.clone(),
            format!("crates/{path}"),
            format!("crates/*/{path}"),
        ];
        let means = |wanted: &String| -> Vec<String> {
            let found = self.paths.iter().filter(|known| matches(wanted, known));
            found.cloned().collect()
        };
        wanted
            .iter()
            .map(means)
            .find(|found| !found.is_empty())
            .unwrap_or_default()
    }

    /// All files of this name.
    pub fn named(&self, name: &str) -> Vec<String> {
        let end = format!("/{name}");
        let found = self
            .paths
            .iter()
            .filter(|path| path.ends_with(&end) || *path == name);
        found.cloned().collect()
    }
}

/// Whether a path is meant by one with stars.
fn matches(wanted: &str, path: &str) -> bool {
    let (mut wanted, mut path) = (wanted.split('/'), path.split('/'));
    loop {
        match (wanted.next(), path.next()) {
            (None, None) => return true,
            (Some(want), Some(part)) if fits(want, part) => {}
            _ => return false,
        }
    }
}

fn fits(want: &str, part: &str) -> bool {
    match want.split_once('*') {
        None => want == part,
        Some((start, end)) => {
            part.len() >= start.len() + end.len() && part.starts_with(start) && part.ends_with(end)
        }
    }
}

fn reader(path: &str) -> Option<fn(&str) -> Source> {
    match path.rsplit_once('.')?.1 {
        "antt" => Some(definitions),
        "rt" | "rs" => Some(code),
        "h" | "c" => Some(c_code),
        _ => None,
    }
}

pub fn is_name_char(c: char) -> bool {
    c.is_alphanumeric() || "_-'".contains(c)
}

/// The name at the start, if there is one.
fn leading_name(text: &str) -> &str {
    let end = text.find(|c: char| !is_name_char(c)).unwrap_or(text.len());
    &text[..end]
}

/// A file of definitions and laws: what stands before a colon at a line's
/// start, and what `record` and `data` name.
fn definitions(text: &str) -> Source {
    let mut names = BTreeSet::new();
    for line in text.lines() {
        let mut rest = line.trim_start();
        while let Some((word, behind)) = rest.split_once(' ') {
            match word {
                "abbrev" | "unfoldable" | "pub" => rest = behind,
                "record" | "data" => {
                    names.insert(leading_name(behind).to_string());
                    break;
                }
                _ => break,
            }
        }
        let Some((declared, _)) = rest.split_once(" :") else {
            continue;
        };
        if declared.chars().all(|c| is_name_char(c) || c == ' ') {
            names.extend(declared.split(' ').map(str::to_string));
        }
    }
    Source {
        names,
        text: text.to_string(),
        ..Source::default()
    }
}

/// Rattle or Rust: items, and the fields and variants of types.
fn code(text: &str) -> Source {
    const ITEMS: [&str; 9] = [
        "fn", "struct", "enum", "const", "static", "type", "mod", "trait", "union",
    ];
    let mut source = Source::default();
    let mut in_type = false;
    for line in text.lines() {
        let words: Vec<&str> = line.split_whitespace().collect();
        let item = words.iter().position(|word| ITEMS.contains(word));
        let head = words.iter().take_while(|word| !ITEMS.contains(word));
        let is_item = head.clone().all(|word| is_modifier(word));
        if let Some(at) = item.filter(|&at| is_item && at + 1 < words.len()) {
            let name = leading_name(words[at + 1]).to_string();
            if words[at] == "fn" && words[0] == "pub" {
                source.functions.insert(name.clone());
            }
            in_type = ["struct", "enum"].contains(&words[at]) && line.ends_with('{');
            source.names.insert(name);
        } else if in_type {
            let field = line.trim_start().trim_start_matches("pub ");
            source.names.insert(leading_name(field).to_string());
            in_type = line != "}";
        }
    }
    source.text = text.to_string();
    source
}

fn is_modifier(word: &str) -> bool {
    let word = word.strip_prefix("#[unsafe(no_mangle)]").unwrap_or(word);
    word.is_empty()
        || word.starts_with("pub")
        || ["const", "unsafe", "extern", "\"C\""].contains(&word)
}

/// C: macros, and what is called or declared with brackets.
fn c_code(text: &str) -> Source {
    let mut names = BTreeSet::new();
    for line in text.lines() {
        if let Some(name) = line.strip_prefix("#define ") {
            names.insert(leading_name(name).to_string());
        }
        let called = line.split('(').map(str::trim_end);
        names.extend(called.filter_map(|part| part.rsplit([' ', '*']).next().map(str::to_string)));
    }
    Source {
        names,
        text: text.to_string(),
        ..Source::default()
    }
}

#[cfg(test)]
mod tests {
    use super::*;

    fn has(source: &Source, names: &[&str]) -> bool {
        names.iter().all(|name| source.names.contains(*name))
    }

    #[test]
    fn names_of_definitions() {
        let text = "abbrev pub base : Rules\nbase = record\npub data Row (r : Rule) : Type 0 where\n  now : Row\nlaw-one : 1 ≡ 1\n    pub low high : ℕ\n";
        let source = definitions(text);
        assert!(has(
            &source,
            &["base", "Row", "now", "law-one", "low", "high"]
        ));
        assert!(!source.names.contains("r"));
    }

    #[test]
    fn names_of_code() {
        let text = "pub fn read(level: u32) {\n    let x: u32 = 1;\n}\npub(crate) fn inner() {}\npub enum Found {\n    At(usize),\n    Nothing,\n}\npub const LONGEST: u32 = 1;\n";
        let source = code(text);
        assert!(has(
            &source,
            &["read", "inner", "Found", "At", "Nothing", "LONGEST"]
        ));
        assert!(source.functions.contains("read") && !source.functions.contains("inner"));
        assert!(!source.names.contains("x"));
    }

    #[test]
    fn names_of_c() {
        let source = c_code("#define MAX 7\nuint32_t muon_read(uint32_t level);\n");
        assert!(has(&source, &["MAX", "muon_read"]));
    }

    #[test]
    fn stars_stand_for_any_part() {
        assert!(matches("crates/*/specs", "crates/rules/specs"));
        assert!(matches("docs/*.md", "docs/MAP.md"));
        assert!(!matches("crates/*", "crates/rules/specs"));
        assert!(!matches("docs/*.md", "docs/MAP.txt"));
    }
}
