//! The numbers and words here are those of the C header.
//!
//! The header is the file that `MUON_HEADER` names, else the repository's, else
//! the one installed beside the archive.  Where there is none, as in a copy of
//! this package alone, nothing is compared, and standard error says so.

use muon::{convert, file, plain, Detail, IntervalForm, Kind, Refusal, Role, TextForm, NAME_MAX};
use std::io::Write;
use std::path::Path;
use std::sync::OnceLock;
use std::{env, fs};

const PACKAGE: &str = env!("CARGO_MANIFEST_DIR");

/// Found once, so that it is said once if there is none.
fn header() -> Option<&'static str> {
    static HEADER: OnceLock<Option<String>> = OnceLock::new();
    HEADER.get_or_init(found).as_deref()
}

/// None if there is no header to compare with; one that is named must be there.
fn found() -> Option<String> {
    if let Some(path) = env::var_os("MUON_HEADER") {
        return Some(fs::read_to_string(path).expect("the header that MUON_HEADER names"));
    }
    let package = Path::new(PACKAGE);
    let installed =
        env::var_os("MUON_LIB_DIR").map(|library| package.join(library).join("../include"));
    let found = [Some(package.join("../include")), installed]
        .into_iter()
        .flatten()
        .find_map(|directory| fs::read_to_string(directory.join("muon.h")).ok());
    if found.is_none() {
        // not by a macro, whose words a test keeps to itself
        let told = writeln!(
            std::io::stderr(),
            "no muon.h here: not compared; MUON_HEADER names one"
        );
        told.expect("standard error");
    }
    found
}

/// What the header defines under the name, less `MUON_`, up to a comment.
fn definition<'a>(header: &'a str, name: &str) -> Option<&'a str> {
    let define = format!("#define MUON_{name} ");
    let rest = header.lines().find_map(|line| line.strip_prefix(&define))?;
    Some(rest.split("/*").next()?.trim())
}

fn number(header: &str, name: &str) -> Option<usize> {
    definition(header, name)?.parse().ok()
}

#[test]
fn sizes() {
    let Some(header) = header() else { return };
    for (name, size) in [
        ("TEXT_MAX", muon::TEXT_MAX),
        ("DEPTH_MAX", muon::DEPTH_MAX),
        ("NODE_WORDS", muon::NODE_WORDS),
        ("NODES_MAX", muon::NODES_MAX),
        ("STACK_MAX", muon::STACK_MAX),
        ("NAME_MAX", NAME_MAX),
        ("FILE_VERSION", usize::from(file::VERSION)),
    ] {
        assert_eq!(number(header, name), Some(size), "{name}");
    }
}

#[test]
fn formulas() {
    let Some(header) = header() else { return };
    let defined_as =
        |name: &str, formula: &str| assert_eq!(definition(header, name), Some(formula), "{name}");
    defined_as("TABLE_MAX", "(MUON_NODES_MAX * MUON_NODE_WORDS)");
    assert_eq!(muon::TABLE_MAX, muon::NODES_MAX * muon::NODE_WORDS);
    defined_as("BITS_MAX", "(4 * MUON_TEXT_MAX)");
    assert_eq!(muon::BITS_MAX, 4 * muon::TEXT_MAX);
    defined_as("FILE_BYTES(nodes)", "(9 + 12 * (nodes))");
    assert_eq!(file::bytes(5), 9 + 12 * 5);
    defined_as("FILE_MAX", "MUON_FILE_BYTES(MUON_NODES_MAX)");
    assert_eq!(file::MAX, file::bytes(muon::NODES_MAX));
    defined_as("FILE_STACK_MAX", "(MUON_STACK_MAX + 4 * MUON_TABLE_MAX)");
    assert_eq!(file::STACK_MAX, muon::STACK_MAX + 4 * muon::TABLE_MAX);
    defined_as("PLAIN_BYTES(text_len)", "(2 * (text_len))");
    assert_eq!(plain::bytes(7), 2 * 7);
    let stacks = [plain::STACK_MAX, convert::STACK_MAX];
    assert_eq!(stacks, [file::STACK_MAX; 2]);
}

#[test]
fn version() {
    let Some(header) = header() else { return };
    let quoted = format!("\"{}\"", env!("CARGO_PKG_VERSION"));
    assert_eq!(definition(header, "VERSION"), Some(&quoted[..]));
    for (name, part) in [
        ("VERSION_MAJOR", env!("CARGO_PKG_VERSION_MAJOR")),
        ("VERSION_MINOR", env!("CARGO_PKG_VERSION_MINOR")),
        ("VERSION_PATCH", env!("CARGO_PKG_VERSION_PATCH")),
    ] {
        assert_eq!(definition(header, name), Some(part), "{name}");
    }
}

#[test]
fn words() {
    let Some(header) = header() else { return };
    let node = muon::Node::from([0, 1, 2, 3, 4, 5, 6]);
    for (name, word) in [
        ("NODE_KIND", node.kind),
        ("NODE_FIRST", node.first),
        ("NODE_END", node.end),
        ("NODE_PARENT", node.parent),
        ("NODE_ROLE", node.role),
        ("NODE_DETAIL", node.detail),
        ("NODE_SKIP", node.skip),
    ] {
        assert_eq!(number(header, name), Some(word as usize), "{name}");
    }
    // the width and the seven words
    let told = header.matches("#define MUON_NODE_").count();
    assert_eq!(told, 1 + muon::NODE_WORDS);
}

/// `NotUtf8` as `NOT_UTF8`, as the header has it.
fn in_capitals(name: &str) -> String {
    let mut capitals = String::new();
    for character in name.chars() {
        if character.is_uppercase() && !capitals.is_empty() {
            capitals.push('_');
        }
        capitals.push(character.to_ascii_uppercase());
    }
    capitals
}

/// That the header defines these names with a prefix, and no others.
fn defines(prefix: &str, variants: &[(String, u32)]) {
    let Some(header) = header() else { return };
    for (variant, expected) in variants {
        let name = format!("{prefix}_{}", in_capitals(variant));
        assert_eq!(number(header, &name), Some(*expected as usize), "{name}");
    }
    let told = header.matches(&format!("#define MUON_{prefix}_")).count();
    assert_eq!(told, variants.len(), "{prefix}");
}

#[test]
fn refusals() {
    defines(
        "REFUSED",
        &Refusal::ALL.map(|one| (format!("{one:?}"), one.number())),
    );
    for refusal in Refusal::ALL {
        assert_eq!(Refusal::from_number(refusal.number()), Some(refusal));
    }
    for number in [0, 16, u32::MAX] {
        assert_eq!(Refusal::from_number(number), None);
    }
}

#[test]
fn kinds_and_roles() {
    defines(
        "KIND",
        &Kind::ALL.map(|one| (format!("{one:?}"), one.number())),
    );
    defines(
        "ROLE",
        &Role::ALL.map(|one| (format!("{one:?}"), one.number())),
    );
    for kind in Kind::ALL {
        assert_eq!(Kind::from_number(kind.number()), Some(kind));
    }
    for role in Role::ALL {
        assert_eq!(Role::from_number(role.number()), Some(role));
    }
    assert_eq!([0, 16, u32::MAX].map(Kind::from_number), [None; 3]);
    assert_eq!([10, u32::MAX].map(Role::from_number), [None; 2]);
}

#[test]
fn details() {
    let mut all = vec![("False".to_string(), 0), ("True".to_string(), 1)];
    all.extend(TextForm::ALL.map(|one| (format!("{one:?}"), one.number())));
    all.extend(IntervalForm::ALL.map(|one| (format!("{one:?}"), one.number())));
    defines("DETAIL", &all);
    for (kind, most) in Kind::ALL.map(|kind| match kind {
        Kind::Boolean => (kind, 0..=1),
        Kind::Text => (kind, 1..=3),
        Kind::Interval => (kind, 0..=11),
        _ => (kind, 0..=0),
    }) {
        for number in (0..20).chain([u32::MAX]) {
            let detail = Detail::from_number(kind, number).map(Detail::number);
            let expected = most.contains(&number).then_some(number);
            assert_eq!(detail, expected, "{kind} {number}");
        }
    }
}

/// The form of an Interval is shown as the header shows it beside its number.
#[test]
fn forms_of_intervals() {
    let Some(header) = header() else { return };
    for form in IntervalForm::ALL {
        let define = format!("#define MUON_DETAIL_{} ", in_capitals(&format!("{form:?}")));
        let line = header.lines().find(|line| line.starts_with(&define));
        let comment = line.and_then(|line| line.split("/*").nth(1));
        let shown = comment.map(|comment| comment.trim_end_matches("*/").trim());
        assert_eq!(shown, Some(&form.to_string()[..]));
    }
}

/// The string literals in the body of a function of the header, in their order.
fn literals<'a>(header: &'a str, function: &str) -> Vec<&'a str> {
    let head = format!("MUON_INLINE const char *{function}(");
    let (_, rest) = header.split_once(&head).expect(function);
    let (body, _) = rest.split_once("\n}\n").expect("the function's end");
    body.split('"').skip(1).step_by(2).collect()
}

/// That a function of the header gives these words, in the order of their
/// numbers, and another one for every other number.
fn says(function: &str, words: &[String], other: &str) {
    let Some(header) = header() else { return };
    let literals = literals(header, function).into_iter();
    let (others, told): (Vec<&str>, Vec<&str>) = literals.partition(|word| *word == other);
    assert_eq!(told, words, "{function}");
    assert_eq!(others, [other], "{function}");
}

#[test]
fn messages_and_names() {
    let with_accepted = |words: [String; 15]| [&["accepted".to_string()], &words[..]].concat();
    let messages = with_accepted(Refusal::ALL.map(|one| one.to_string()));
    says("muon_refusal_message", &messages, "an unknown number");
    let names = with_accepted(Refusal::ALL.map(|one| one.name().to_string()));
    says("muon_refusal_name", &names, "unknown");
    let kinds = Kind::ALL.map(|one| one.to_string());
    says("muon_kind_name", &kinds, "unknown");
    let roles = Role::ALL.map(|one| one.to_string());
    says("muon_role_name", &roles, "unknown");
}
