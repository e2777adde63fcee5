//! What the documents name.

use super::examples::{has_texts, is_text};
use super::index::{is_name_char, Repository};
use super::markup::{one_spaced, Block, Part, Passage};
use super::{Document, Finding};
use std::collections::BTreeSet;

/// Words in code quotes that are no names of the repository: of the papers, of
/// the languages and their programs.
const WORDS: &[&str] = &[
    "MUON_LIB_DIR",
    "cargo",
    "match",
    "muon-tool",
    "requires",
    "valgrind",
];

/// Where paths in prose and in commands begin.
const ROOTS: &[&str] = &[
    ".ci/",
    "crates/",
    "docs/",
    "examples/",
    "include/",
    "rust/",
    "tests/",
];

/// A file's function, as the column of functions in docs/CONTRACTS.md has it.
pub type Function = (String, String);

#[derive(Default)]
pub struct Checked {
    pub findings: Vec<Finding>,
    pub references: usize,
    /// Functions whose contract is listed.
    pub listed: BTreeSet<Function>,
}

/// Which column of a table a passage stands in, as far as it matters.
#[derive(Clone, Copy, PartialEq, Eq)]
enum Column {
    /// The public functions of docs/CONTRACTS.md.
    Function,
    /// What they promise.
    Contract,
    Other,
}

fn column(head: &str) -> Column {
    match head {
        "function" => Column::Function,
        "contract" => Column::Contract,
        _ => Column::Other,
    }
}

/// Where the names that follow are to be found.
enum Scope {
    Anywhere,
    /// Behind a path.
    Files {
        files: Vec<String>,
        names: Names,
    },
    /// Behind a function: further ones of its module.
    Module(Vec<String>),
    /// Behind a must-fail edit: further ones of its crate.
    Edits(String),
}

/// What is said of a file.
#[derive(Clone, Copy, PartialEq, Eq)]
enum Names {
    /// Nothing so far.
    None,
    /// Names that it defines, behind a colon or a bracket.
    Defined,
    /// Clauses: words that stand in it.
    Clauses,
}

/// What a text in code quotes looks like.
#[derive(Debug, PartialEq, Eq)]
enum Look {
    Path,
    FileName,
    Function,
    Name,
    Other,
}

/// All that a document names.
pub fn check(repository: &Repository, document: &Document) -> Checked {
    let mut checker = Checker {
        repository,
        file: &document.path,
        checked: Checked::default(),
    };
    for block in current(document) {
        checker.block(block);
    }
    checker.checked
}

/// The blocks that speak of today: of the landings the newest only, and nothing of the pages that lay the names of before beside today's.
fn current(document: &Document) -> &[Block] {
    if ["PORT.md", "DESIGN-PASS.md"]
        .iter()
        .any(|page| document.path.ends_with(page))
    {
        return &[];
    }
    let is_section = |block: &Block| matches!(block, Block::Heading { depth: 2, .. });
    let sections = document
        .blocks
        .iter()
        .enumerate()
        .filter(|(_, block)| is_section(block));
    let second = sections.map(|(at, _)| at).nth(1);
    match second {
        Some(end) if document.path.ends_with("LANDINGS.md") => &document.blocks[..end],
        _ => &document.blocks,
    }
}

fn look(text: &str) -> Look {
    let is_letter = |c: char| c.is_ascii_alphabetic();
    let named = |part: &str| part.starts_with(is_letter) && part.chars().all(is_name_char);
    let in_path = |c: char| is_name_char(c) || "./*".contains(c);
    if text.contains('/')
        && text.starts_with(|c| is_letter(c) || c == '.')
        && text.chars().all(in_path)
    {
        return Look::Path;
    }
    if text.contains("::") && text.split("::").all(named) {
        return Look::Function;
    }
    match text.split_once('.') {
        Some((name, end)) if named(name) && is_extension(end) => Look::FileName,
        None if named(text) && text.len() > 2 => Look::Name,
        _ => Look::Other,
    }
}

fn is_extension(end: &str) -> bool {
    [
        "a", "antt", "awk", "c", "edit", "h", "md", "rs", "rt", "toml", "txt",
    ]
    .contains(&end)
}

/// Whether what stands between two names only joins them.
fn joins(between: &str) -> bool {
    [", ", " and ", " or ", ", clause ", ", clauses "].contains(&between)
}

struct Checker<'a> {
    repository: &'a Repository,
    file: &'a str,
    checked: Checked,
}

impl Checker<'_> {
    fn block(&mut self, block: &Block) {
        match block {
            Block::Heading { .. } => {}
            Block::Passage(passage) => self.passage(passage, Column::Other),
            Block::Table { heads, rows } => {
                for row in rows {
                    for (at, (cell, head)) in row.iter().zip(heads).enumerate() {
                        if !has_texts(heads, at) {
                            self.passage(cell, column(head));
                        }
                    }
                }
            }
            Block::Code(lines) => {
                for (line, text) in lines {
                    self.paths_in(text, *line);
                }
            }
        }
    }

    fn passage(&mut self, passage: &Passage, column: Column) {
        let mut scope = Scope::Anywhere;
        for (at, part) in passage.parts.iter().enumerate() {
            match part {
                Part::Prose(prose) => self.prose(prose, passage.line),
                Part::Code { struck: true, .. } => scope = Scope::Anywhere,
                Part::Code { text, line, .. } => {
                    let before = between(passage, at - 1);
                    let behind = between(passage, at + 1);
                    let next = match passage.parts.get(at + 2) {
                        Some(Part::Code { text, .. }) => text,
                        _ => "",
                    };
                    let quote = Quote {
                        text,
                        line: *line,
                        before: &before,
                        behind: &behind,
                        next,
                        column,
                    };
                    scope = self.quote(&quote, scope);
                }
            }
        }
    }

    fn fail(&mut self, line: usize, reason: String) {
        self.checked
            .findings
            .push(Finding::new(self.file, line, reason));
    }

    fn prose(&mut self, prose: &str, line: usize) {
        self.paths_in(prose, line);
        for target in prose.split("](").skip(1) {
            let target = target.split([')', '#']).next().unwrap_or("");
            let below = self
                .file
                .rsplit_once('/')
                .map_or("", |(directory, _)| directory);
            let beside = match target.strip_prefix("../") {
                Some(above) => above.to_string(),
                None => format!("{below}/{target}"),
            };
            let found = [target.to_string(), beside];
            if !found
                .iter()
                .any(|path| !self.repository.resolve(path).is_empty())
            {
                self.fail(line, format!("no file {target} to link to"));
            }
        }
    }

    /// Paths that stand among other words.
    fn paths_in(&mut self, text: &str, line: usize) {
        let ends = |c: char| c.is_whitespace() || "()[]`'\"".contains(c);
        for word in text.split(ends) {
            let path = word.trim_end_matches(['.', ',', ';', ':']);
            if ROOTS.iter().any(|root| path.starts_with(root)) {
                self.path(path, line);
            }
        }
    }

    fn path(&mut self, path: &str, line: usize) -> Vec<String> {
        self.checked.references += 1;
        let found = self.repository.resolve(path);
        if found.is_empty() {
            self.fail(line, format!("no file {path}"));
        }
        found
    }

    fn quote(&mut self, quote: &Quote, scope: Scope) -> Scope {
        if is_text(quote.before, quote.behind) {
            return Scope::Anywhere;
        }
        match look(quote.text) {
            Look::Path => self.path_or_edit(quote),
            Look::FileName => self.file_name(quote, scope),
            Look::Function => self.function(quote),
            Look::Name => self.name(quote, scope),
            Look::Other => {
                self.other(quote);
                Scope::Anywhere
            }
        }
    }

    fn path_or_edit(&mut self, quote: &Quote) -> Scope {
        if let Some((owner, label)) = quote.text.split_once('/') {
            let edit = self.repository.is_crate(owner) && label.chars().all(is_name_char);
            if edit && self.repository.resolve(quote.text).is_empty() {
                self.path(&format!("{owner}/must-fail/{label}.edit"), quote.line);
                return Scope::Edits(owner.to_string());
            }
        }
        let files = self.path(quote.text, quote.line);
        Scope::Files {
            files,
            names: Names::None,
        }
    }

    fn file_name(&mut self, quote: &Quote, scope: Scope) -> Scope {
        self.checked.references += 1;
        let mut files = self.repository.named(quote.text);
        if let Scope::Files { files: before, .. } = &scope {
            let beside = before.iter().filter_map(|file| file.rsplit_once('/'));
            let beside: Vec<String> = beside.map(|(d, _)| format!("{d}/{}", quote.text)).collect();
            if joins(quote.before) && files.iter().any(|file| beside.contains(file)) {
                files.retain(|file| beside.contains(file));
            }
        }
        if [" in ", " of "].contains(&quote.behind) && self.repository.is_crate(quote.next) {
            let below = format!("crates/{}/", quote.next);
            files.retain(|file| file.starts_with(&below));
        }
        if files.is_empty() {
            self.fail(quote.line, format!("no file {}", quote.text));
        }
        Scope::Files {
            files,
            names: Names::None,
        }
    }

    fn function(&mut self, quote: &Quote) -> Scope {
        let parts: Vec<&str> = quote.text.split("::").collect();
        let (name, path) = parts.split_last().expect("a part");
        let is_type = |part: &&&str| part.starts_with(|c: char| c.is_ascii_uppercase());
        let modules: Vec<&str> = path[1..]
            .iter()
            .take_while(|part| !is_type(part))
            .copied()
            .collect();
        let module = if modules.is_empty() {
            "lib".to_string()
        } else {
            modules.join("/")
        };
        let mut files = vec![format!("crates/{}/src/{module}.rt", path[0])];
        if path == ["muon"] {
            files = self.repository.resolve("rust/src/*.rs");
        }
        for part in path[1 + modules.len()..].iter().chain([name]) {
            self.defined(part, &files, quote);
        }
        Scope::Module(files)
    }

    /// That a name is defined in one of these files, and public where
    /// contracts are listed.
    fn defined(&mut self, name: &str, files: &[String], quote: &Quote) {
        self.checked.references += 1;
        let holds = |file: &&String| {
            let source = self.repository.source(file);
            source.is_some_and(|source| match quote.column {
                Column::Function => source.functions.contains(name),
                _ => source.names.contains(name),
            })
        };
        match files.iter().find(holds) {
            Some(file) if quote.column == Column::Function => {
                self.checked.listed.insert((file.clone(), name.to_string()));
            }
            Some(_) => {}
            None => self.fail(quote.line, format!("no {name} in {}", files.join(", "))),
        }
    }

    /// That a word stands in one of these files.
    fn stands(&mut self, word: &str, files: &[String], line: usize) {
        self.checked.references += 1;
        let has = |text: &str| text.split(|c| !is_name_char(c)).any(|part| part == word);
        let mut sources = files.iter().filter_map(|file| self.repository.source(file));
        if !sources.any(|source| has(&source.text)) {
            self.fail(line, format!("no {word} in {}", files.join(", ")));
        }
    }

    fn name(&mut self, quote: &Quote, scope: Scope) -> Scope {
        let line = quote.line;
        if [" in ", " ("].contains(&quote.behind) {
            let files = self.files_meant(quote.next);
            if !files.is_empty() {
                self.defined(quote.text, &files, quote);
                return Scope::Anywhere;
            }
        }
        match scope {
            Scope::Files { files, names } => self.name_of_file(quote, files, names),
            Scope::Module(files) if joins(quote.before) => {
                self.defined(quote.text, &files, quote);
                Scope::Module(files)
            }
            Scope::Edits(owner) if joins(quote.before) => {
                self.path(&format!("{owner}/must-fail/{}.edit", quote.text), line);
                Scope::Edits(owner)
            }
            _ => {
                self.anywhere(quote.text, line);
                Scope::Anywhere
            }
        }
    }

    fn name_of_file(&mut self, quote: &Quote, files: Vec<String>, before: Names) -> Scope {
        let opens = [": ", " ("].contains(&quote.before);
        let goes_on = before != Names::None && joins(quote.before);
        if !opens && !goes_on {
            self.anywhere(quote.text, quote.line);
            return Scope::Anywhere;
        }
        let names = if quote.before.contains("clause") || goes_on && before == Names::Clauses {
            self.stands(quote.text, &files, quote.line);
            Names::Clauses
        } else {
            self.defined(quote.text, &files, quote);
            Names::Defined
        };
        Scope::Files { files, names }
    }

    /// The files that the next quotes mean, if they mean any.
    fn files_meant(&self, text: &str) -> Vec<String> {
        match look(text) {
            Look::Path => self.repository.resolve(text),
            Look::FileName => self.repository.named(text),
            _ => Vec::new(),
        }
    }

    fn anywhere(&mut self, name: &str, line: usize) {
        self.checked.references += 1;
        let known = WORDS.contains(&name) || self.repository.is_crate(name);
        if !known && !self.repository.defines(name) {
            self.fail(line, format!("nothing is called {name}"));
        }
    }

    /// A command or a text; in the column of contracts, a promise.
    fn other(&mut self, quote: &Quote) {
        self.paths_in(quote.text, quote.line);
        if quote.column != Column::Contract {
            return;
        }
        for word in quote.text.split(|c| !is_name_char(c)) {
            if word.len() > 2 && word.starts_with(|c: char| c.is_ascii_uppercase()) {
                self.anywhere(word, quote.line);
            }
        }
    }
}

/// A text in code quotes, with what stands around it.
struct Quote<'a> {
    text: &'a str,
    line: usize,
    before: &'a str,
    behind: &'a str,
    /// The next text in code quotes of the passage.
    next: &'a str,
    column: Column,
}

/// The prose between two quotes, with its spaces as one; empty at the passage's
/// ends.
fn between(passage: &Passage, at: usize) -> String {
    match passage.parts.get(at) {
        Some(Part::Prose(prose)) if at > 0 && at + 1 < passage.parts.len() => one_spaced(prose),
        _ => String::new(),
    }
}

#[cfg(test)]
mod tests {
    use super::*;

    #[test]
    fn looks() {
        let cases = [
            ("rules/specs/Rule.antt", Look::Path),
            ("crates/*/specs/", Look::Path),
            (".ci/run", Look::Path),
            ("text/upper_bound_excluded", Look::Path),
            ("1/0", Look::Other),
            ("Rule.antt", Look::FileName),
            ("tree::read::read", Look::Function),
            ("(Array::x)", Look::Other),
            ("::5", Look::Other),
            ("one-answer", Look::Name),
            ("5", Look::Other),
        ];
        for (text, want) in cases {
            assert_eq!(look(text), want, "{text}");
        }
    }
}
