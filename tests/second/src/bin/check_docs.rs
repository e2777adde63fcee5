//! Checks the documents: that what they name exists, that the answers they
//! show are given by the proved library and by this package, and the rules
//! that they keep as a whole.
//!
//! `check_docs ROOT`; prints each finding and exits with 1 if there is one.

use second::archive;
use second::docs::examples::{details, run, shown, Call, Example, Library, Second, Want};
use second::docs::index::Repository;
use second::docs::references::check;
use second::docs::{rules, Document, Finding};
use std::collections::BTreeSet;
use std::io;
use std::path::{Path, PathBuf};
use std::process::{Command, ExitCode};

const HEADER: &str = "include/muon.h";
/// In the words of a token: the end, and no token.
const END: u64 = 0;
const NO_TOKEN: u64 = 10;

/// The proved library.
struct Proved;

impl Library for Proved {
    fn read_into(&self, level: u32, text: &[u8], words: usize) -> (u32, usize, Vec<u32>) {
        let mut table = vec![0; words];
        let answer = muon::read(level, text, &mut table);
        table.truncate(answer.count * muon::NODE_WORDS);
        (answer.number, answer.place, table)
    }

    fn integer(&self, piece: &[u8]) -> (u32, usize, i64) {
        let answer = muon::integer(piece);
        (answer.number, answer.place, answer.value)
    }

    fn text(&self, piece: &[u8]) -> (u32, usize, Vec<u8>) {
        written(muon::text, piece)
    }

    fn blob(&self, piece: &[u8]) -> (u32, usize, Vec<u8>) {
        written(muon::blob, piece)
    }

    fn bits(&self, piece: &[u8]) -> (u32, usize, Vec<u8>) {
        written(muon::bits, piece)
    }

    fn file(&self, text: &[u8]) -> (u32, usize, Vec<u8>) {
        written(muon::file::write, text)
    }

    fn check(&self, text: &[u8], file: &[u8]) -> (u32, usize) {
        let answer = muon::file::check(text, file);
        (answer.number, answer.place)
    }

    fn plain(&self, level: u32, text: &[u8], table: &[u32]) -> (u32, usize, Vec<u8>) {
        let write = |text: &[u8], buffer: &mut [u8]| muon::plain::write(level, text, table, buffer);
        written(write, text)
    }

    fn convert(&self, level: u32, text: &[u8]) -> (u32, usize, Vec<u8>) {
        let convert = |text: &[u8], buffer: &mut [u8]| muon::convert::write(level, text, buffer);
        written(convert, text)
    }

    fn utf8(&self, text: &[u8]) -> (u32, usize, usize) {
        let answer = muon::utf8(text);
        (answer.number, answer.place, answer.steps)
    }

    fn tokens(&self, text: &[u8]) -> (Vec<(usize, usize)>, Option<usize>) {
        let mut spans = Vec::new();
        let mut at = archive::begin(text);
        loop {
            let [kind, first, end, ..] = archive::next(text, at);
            match kind {
                END => return (spans, None),
                NO_TOKEN => return (spans, Some(first as usize)),
                _ => spans.push((first as usize, end as usize)),
            }
            at = end as usize;
        }
    }
}

fn written(call: impl Fn(&[u8], &mut [u8]) -> muon::Answer, piece: &[u8]) -> (u32, usize, Vec<u8>) {
    // room enough for the bits of any piece, for any file and for any plain form
    let mut buffer = vec![0; (4 * piece.len()).max(muon::file::MAX)];
    let answer = call(piece, &mut buffer);
    buffer.truncate(answer.count);
    (answer.number, answer.place, buffer)
}

/// What was checked.
#[derive(Default)]
struct Report {
    findings: Vec<Finding>,
    documents: usize,
    references: usize,
    examples: usize,
}

fn main() -> io::Result<ExitCode> {
    let root = PathBuf::from(std::env::args().nth(1).expect("the repository's root"));
    let repository = Repository::new(&root)?;
    if let Err(missed) = self_test(&repository, &root) {
        println!("check_docs: did not find that {missed} is wrong");
        return Ok(ExitCode::FAILURE);
    }
    let report = documents(&repository, &root)?;
    for finding in &report.findings {
        println!("{}:{}: {}", finding.file, finding.line, finding.reason);
    }
    println!(
        "check_docs: {} documents, {} references, {} examples: {} wrong",
        report.documents,
        report.references,
        report.examples,
        report.findings.len()
    );
    let right = report.findings.is_empty();
    Ok(if right {
        ExitCode::SUCCESS
    } else {
        ExitCode::FAILURE
    })
}

/// All documents, and the rules over all.
fn documents(repository: &Repository, root: &Path) -> io::Result<Report> {
    let mut report = Report::default();
    let mut listed = BTreeSet::new();
    let mut paths = vec!["README.md".to_string(), HEADER.to_string()];
    paths.extend(repository.resolve("docs/*.md"));
    for path in paths {
        let text = repository.read(&path)?;
        let document = Document::new(&path, &text);
        let checked = check(repository, &document);
        report.documents += 1;
        report.references += checked.references;
        report.findings.extend(checked.findings);
        listed.extend(checked.listed);
        let mut shown = shown(&document);
        if path == HEADER {
            shown.examples.extend(details(&path, &text));
        }
        report.examples += shown.examples.len();
        report.findings.extend(shown.findings);
        report.findings.extend(
            shown
                .examples
                .iter()
                .filter_map(|example| tried(example, root)),
        );
        if path == "README.md" {
            report.findings.extend(rules::crates(repository, &document));
        }
    }
    report.findings.extend(rules::unlisted(repository, &listed));
    let (decisions, map) = (
        repository.read("docs/DECISIONS.md")?,
        repository.read("docs/MAP.md")?,
    );
    report
        .findings
        .extend(rules::decisions(repository, &decisions, &map));
    report.findings.extend(rules::contracts(repository));
    report.findings.extend(rules::columns(repository));
    Ok(report)
}

/// Runs an example with both libraries, or its command.
fn tried(example: &Example, root: &Path) -> Option<Finding> {
    let outcome = match (&example.call, &example.want) {
        (Call::Shell, Want::Writes(output)) => command(&example.text, output, root),
        _ => run(example, &Proved)
            .map_err(|found| format!("proved: {found}"))
            .and_then(|()| run(example, &Second).map_err(|found| format!("second: {found}"))),
    };
    outcome
        .err()
        .map(|reason| Finding::new(&example.file, example.line, reason))
}

/// What a person sees: standard output and standard error.
fn command(text: &str, output: &str, root: &Path) -> Result<(), String> {
    let run = Command::new("bash")
        .args(["-c", &format!("{{ {text}; }} 2>&1")])
        .current_dir(root)
        .output();
    let written = run.map_err(|error| error.to_string())?.stdout;
    let written = String::from_utf8_lossy(&written);
    if written == output {
        return Ok(());
    }
    Err(format!("{text}: wrote {written:?}, not {output:?}"))
}

/// That a wrong path, name, function, edit, link, answer and command are found,
/// and right ones are not; the wrong one that was missed, if not.
fn self_test(repository: &Repository, root: &Path) -> Result<(), String> {
    let findings = |text: &str| {
        let document = Document::new("self-test.md", text);
        let mut found = check(repository, &document).findings;
        let shown = shown(&document);
        found.extend(shown.findings);
        found.extend(
            shown
                .examples
                .iter()
                .filter_map(|example| tried(example, root)),
        );
        found.len()
    };
    let wrong = [
        "`rules/specs/Rules.antt`",
        "`crates/rules/specs/Rule.rt`",
        "`rules/specs/Rule.antt`: `Takes`, `Takez`",
        "`Takez` in `rules/specs/Rule.antt`",
        "`tree::read::reed`",
        "`text/upper_bound_included`",
        "`no-such-law`",
        "[a](docs/NONE.md)",
        "`5` is 6@0",
        "`29 56` has the value 29",
        "`0xxA705` has the bytes A7 50",
        "`seventeen letters` has 4 steps",
        "`x` has the file 46 4E 54 00 01",
        "With the file 46 4E 54 00, `x` is 13@0",
        "`{b->a}` is written `{a:b}`",
        "`{b<-a}` converts to `{b:a}`",
        "`{a,b<-c}` is 15@3",
        "By the old rules `(b<-a)` has the node `9 0 6 0 0 0`",
        "With the table of `(x,y)`, `(x:y)` is 8@5",
        "With a table of 7 words, `x` is 8@1",
        "`(x:y)` has the nodes `9 0 5 0 0 0 3`, `7 1 2 0 1 2 3`, `7 3 4 0 2 2 3`",
        "`1..10` has the tokens `1.`, `.10`",
        "    $ printf '5' | crates/muon/out/muon\n    ok 2 2\n",
        "| text | answer |\n|---|---|\n| `true` | Boolean |\n",
        "| text | answer | write |\n|---|---|---|\n| `(x` | 6@2 | `(x:` |\n",
        "| bytes | answer |\n|---|---|\n| `\\xEF\\xBB\\xBF(` | 6@3 |\n",
        "    5\n\nis listed so:\n\n    ok 2 1\n    3 0 1 0 0 0 1  root Text 5\n",
    ];
    let right = [
        "`rules/specs/Rule.antt`: `Takes`, `Longest`; `tree::read::read`; `text/upper_bound_excluded`",
        "[a](docs/MAP.md), `(5:y,)` is 6@4, `29 56` has the value 2956",
        "`1..10` has the tokens `1`, `..`, `10`",
        "`0xxA705` has the bytes A7 05, `0bo17` has the bits 0 0 1 1 1 1",
        "`seventeen` has 2 steps, in the UTF-8 call `a\\xFF` is 3@1",
        "`x` has the file 46 4E 54 00 01 00 01 00 01 00 07 00 00 00 01 00 00 00 00 00 02",
        "With the file 46 4E 54 00, `x` is 12@0; as a text to be stored `(x` is 6@2",
        "`{b->a}` is written `{b:a}`, `(x)` is written `x`; to be written plainly, `(x` is 6@2",
        "`{b<-a}` converts to `{a:b}`, `(x)` converts to `x`; to be converted, `(b<-` is 6@4",
        "`{a,b<-c}` is 15@4; by the old rules `(b<-a)` has the nodes `9 0 6 0 0 0`, `7 1 2 0 3 2`, `7 4 5 0 1 2`",
        "With the table of `(x,y)`, `(x:y)` is 14@0",
        "With a table of 6 words, `x` is 8@1; with a table of 7 words, `x` has the node `7 0 1 0 0 2 1`",
        "    $ printf '5' | crates/muon/out/muon\n    ok 2 1\n    3 0 1 0 0 0 1\n",
        "| text | answer | write |\n|---|---|---|\n| `true` | Text | `0bTRUE` |\n| `(x` | 6@2 | `(x)` |\n",
        "| bytes | answer |\n|---|---|\n| `\\xEF\\xBB\\xBF(` | 6@4 |\n",
        "    5\n\nis listed so:\n\n    ok 2 1\n    3 0 1 0 0 0 1  root Integer 5\n",
    ];
    if let Some(text) = wrong.iter().find(|text| findings(text) == 0) {
        return Err(text.to_string());
    }
    match right.iter().find(|text| findings(text) > 0) {
        Some(text) => Err(format!("nothing in {text}")),
        None => Ok(()),
    }
}
